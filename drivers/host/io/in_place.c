/*
 * in_place.c: a packet of its own sent in the place of another one.
 *
 * The rules know no send from a device to any but the device just below it, and no dispatch that forwards, waits and
 * then finishes. Both can be told with a second packet: a *rider*, allocated by the originator, which stands in the
 * memory of the packet that it rides for, from the next lower location down. What happens below is recorded of the
 * rider. It comes up to the originator, which keeps and frees it; then the ridden packet goes on as its device says.
 */
#include "io/own.h"
#include "ke/ke.h"
#include "mm/mm.h"
#include "record/record.h"
#include "rules/rules.h"

/* What stands in the record for whatever the device does when the rider is up. */
static NTSTATUS WdmSentInPlace(PDEVICE_OBJECT DeviceObject, PIRP Irp, PVOID Context)
{
    (void)DeviceObject, (void)Irp, (void)Context;
    return STATUS_MORE_PROCESSING_REQUIRED;
}

static Setting keeper = { .fn = WdmSentInPlace, .kept = true,
                          .flags = SL_INVOKE_ON_SUCCESS | SL_INVOKE_ON_ERROR | SL_INVOKE_ON_CANCEL };

/* A rider for p, from location `size` of its memory down, prepared with these, and with a routine that keeps it. */
static Packet *new_rider(Packet *p, int size, UCHAR major, uint64_t word, Setting *set)
{
    Entry *e = begin(ALLOCATE, NULL, ORIGINATOR);
    e->status = (ULONG)size;
    Packet *r = new_packet(size, p->irp);
    r->use = next_use++;
    r->current = size + 1;
    r->owner = r->last = ORIGINATOR;
    r->stands_in.of = p;
    r->sites = p->sites;
    r->kept.stack_count = p->kept.stack_count;
    for (int j = 1; j <= size; j++)
        r->at[j] = (Location){ .device = NOBODY };
    p->stands_in.by = r;
    e->p = r;
    e->slot = r->slot;
    e->use = r->use;
    answered(e, IRP_REF, 0);
    if (p->status) { /* what the drivers below are shown is the packet's status */
        e = begin(REUSE, r, ORIGINATOR);
        e->status = r->status = p->status;
        e->word = r->use = next_use++;
        answered(e, IRP_REF, 0);
    }
    if (p->cancel) {
        r->cancel = true;
        answered(begin(CANCEL, r, ORIGINATOR), CANCELLED, 0);
    }
    e = begin(SET_NEXT, r, ORIGINATOR);
    e->major = major;
    e->word = word;
    answered(e, DONE, 0);
    e = begin(SET_ROUTINE, r, ORIGINATOR);
    e->set = set;
    answered(e, DONE, 0);
    r->at[size] = (Location){ .device = NOBODY, .major = major, .word = word, .set = set };
    r->next.how = FILLED;
    return r;
}

/* Sends the rider. Returns what the device answers; a send that the rules refuse frees the rider again. */
static NTSTATUS send_rider(Packet *r, int d)
{
    Entry *e = begin(CALL, r, ORIGINATOR);
    e->other = d;
    const char *no = rules_refusal(e);
    if (no) {
        refuse(e, no);
        answered(begin(FREE, r, ORIGINATOR), DONE, 0);
        r->live = false;
        n_live--;
        r->stands_in.of->stands_in.by = NULL;
        r->stands_in.up = NULL;
        put_back(r->stands_in.of);
        return STATUS_INVALID_DEVICE_REQUEST;
    }
    const NTSTATUS answer = enter_device(r, d, e);
    returned_from(e, answer);
    return answer;
}

/* A device sends what it has to another stack: it holds the packet, and a rider goes there. */
NTSTATUS send_in_place(Packet *p, int by, int d)
{
    const bool skipped = p->next.skipped || p->next.how == SKIPPED;
    if (p->next.how == SKIPPED || (p->asking && p->asking->cancel)) { /* can't be told so: the rules say no */
        settle(p, false);
        Entry *e = begin(CALL, p, by);
        e->other = d;
        refuse(e, rules_refusal(e));
        return STATUS_INVALID_DEVICE_REQUEST;
    }
    note("outside the model", "%s sends to %s, which isn't the device below it: recorded as held, with a packet of its "
         "own sent there in its place", who(by), who(d));
    Setting *mine = p->next.set;
    p->next.skipped = p->next.copied = p->next.touched = false;
    settle(p, false);
    const int top = skipped ? p->current : p->current - 1;
    PIO_STACK_LOCATION raw = raw_at(p, top);
    Packet *r = new_rider(p, top, raw->MajorFunction, word_of(raw), &keeper);
    p->next.set = NULL;
    r->stands_in.set = skipped ? NULL : mine;
    return send_rider(r, d);
}

/* Whether a dispatch that forwards unmarked will wait for its routine: what it hands to the routine is an event of its
   own, on its stack. */
bool will_wait(const Packet *p, const Frame *dispatch)
{
    const char here = 0, *event = p->next.set ? p->next.set->raw : NULL;
    return !dispatch->marked && !p->next.skipped && event > &here && event < (const char *)dispatch && is_event(event);
}

/* Such a dispatch stays asked: a rider goes down, and the dispatch's routine runs when it is up. */
NTSTATUS forward_in_place(Packet *p, int d)
{
    const Location here = p->at[p->current];
    Setting *mine = p->next.set;
    prepare_nothing(p);
    Packet *r = new_rider(p, p->current - 1, here.major, here.word, &keeper);
    r->stands_in.set = mine;
    return send_rider(r, d);
}

/* The originator has kept the rider, and frees it. What it rode for is found again. */
static void let_go(Packet *r)
{
    Packet *p = r->stands_in.of;
    r->current = r->size + 1;
    r->owner = ORIGINATOR;
    r->asking = NULL;
    r->open = NULL;
    r->unwinding = false;
    look(r);
    answered(begin(FREE, r, ORIGINATOR), DONE, 0);
    r->live = false;
    n_live--;
    p->stands_in.by = NULL;
    put_back(p);
    tell_waiters(&host_settled);
}

/* The device's own routine runs for a rider that is up, if there is one and its flags are met. Returns whether the
   packet goes on; where it doesn't, its next owner may have ended it already. */
static bool run_own_routine(const Packet *r, int device)
{
    Packet *p = r->stands_in.of;
    const Setting *s = r->stands_in.set;
    if (!s || !((s->flags & (NT_SUCCESS(r->status) ? SL_INVOKE_ON_SUCCESS : SL_INVOKE_ON_ERROR)) ||
                (p->cancel && (s->flags & SL_INVOKE_ON_CANCEL))))
        return true;
    Frame f = { .kind = ROUTINE, .p = p, .use = p->use, .fn = (void *)s->fn, .device = device, .location = r->size,
                .settled = true };
    p->kept_by = f.fn;
    enter_frame(&f);
    let_driver_run();
    NTSTATUS answer = s->fn(devices[device].raw, p->irp, s->raw);
    driver_came_back();
    leave_frame();
    return answer != STATUS_MORE_PROCESSING_REQUIRED;
}

/* The rider is up: the originator keeps and frees it. Then the device's own routine runs, and completes or keeps. */
void rider_came_up(Packet *r, Entry *e)
{
    Packet *p = r->stands_in.of;
    const int j = r->size;
    const int i = ask(e, r, ROUTINE, NULL, ORIGINATOR, j);
    Asked *a = &e->asked[i];
    a->set = r->at[j].set;
    a->plan = KEEP;
    a->returned = r->at[j].pending;
    r->at[j] = (Location){ .device = NOBODY };
    seal(e, r->cancel);
    let_go(r);
    if (r->stands_in.up) { /* its dispatch waits in IoForwardIrpSynchronously */
        set_event(r->stands_in.up);
        return;
    }
    const int by = p->asking ? p->asking->device : p->owner;
    if (!run_own_routine(r, by))
        return;
    if (p->asking) { /* it was taken to wait, and its routine continues */
        p->asking->waiting = true;
        settle(p, false);
    }
    if (lives(p) && p->owner == by) {
        p->at[p->current].real = true; /* the mark of a routine is the rider's matter */
        complete(p, by, (ULONG)p->irp->IoStatus.Status, p->irp->IoStatus.Information);
    }
}

/*
 * Forward and wait: a dispatch has forwarded unmarked, the device below has finished the packet, and the dispatch's
 * routine has kept it, all before anything of the descent is settled. Then what happened below was a rider's, and the
 * dispatch is asked again, so that it may finish the packet and return the final status. Returns whether it is so.
 */
bool dispatch_has_it_back(Packet *p, Frame *routine)
{
    const int j = routine->location;
    const Location below = p->at[j];
    Frame *f = j < p->size ? p->at[j + 1].frame : NULL;
    Entry *e = routine->e;
    if (!f || e->numbered || f->e != e || below.by != e || below.by_i != f->i || e->asked[f->i].plan != FORWARD ||
        !pthread_equal(f->thread, routine->thread) || e->asked[f->i].information ||
        raw_at(p, j + 1)->Control & SL_PENDING_RETURNED) /* also where the bit was set by hand */
        return false;
    take_kept_answer(p, routine);
    const ULONG status = p->status;
    const uint64_t information = p->information;
    p->status = e->asked[f->i].status;
    p->information = 0;
    Packet *r = new_rider(p, j, below.major, below.word, below.set);
    Entry *call = begin(CALL, r, ORIGINATOR);
    call->other = devices[f->device].lower;
    call->n = e->n - (f->i + 1);
    call->asked = calloc((size_t)call->n, sizeof *call->asked);
    if (!call->asked)
        give_up("out of memory");
    memcpy(call->asked, e->asked + f->i + 1, (size_t)call->n * sizeof *call->asked);
    call->asked[call->n - 1].device = ORIGINATOR;
    e->n = f->i + 1;
    seal(call, r->cancel);
    r->status = status;
    r->information = information;
    clear_location(p, j);
    p->current = j + 1;
    p->unwinding = false;
    p->asking = f;
    p->open = e;
    f->settled = f->passed = false;
    f->below = call;
    routine->settled = true;
    let_go(r);
    return true;
}

/* In a dispatch that is asked a rider goes down, and the dispatch goes on when it is up. Returns whether that could be
   told so. Under G before and after. */
static bool forward_in_dispatch(Packet *p, int d, WDM_SITE at)
{
    KEVENT up;
    Frame *f = dispatching(p);
    take_hand_mark(p);
    if (!f || f->marked || f->cancel || p->next.skipped || p->current == 1 || devices[f->device].lower != d)
        return false;
    PIO_STACK_LOCATION next = raw_at(p, p->current - 1);
    *next = *raw_at(p, p->current);
    next->Control = 0;
    next->CompletionRoutine = NULL;
    prepare_nothing(p);
    f->sent = true;
    p->sites.sent = at;
    f->sent = true;
    Packet *r = new_rider(p, p->current - 1, p->at[p->current].major, p->at[p->current].word, &keeper);
    WdmKeInitializeEvent(&up, NotificationEvent, FALSE);
    r->stands_in.up = &up;
    send_rider(r, d);
    let_driver_run();
    if (r->stands_in.up)
        WdmKeWaitForSingleObject(&up, NULL, at);
    driver_came_back();
    return true;
}

static NTSTATUS signal_and_keep(PDEVICE_OBJECT DeviceObject, PIRP Irp, PVOID Event)
{
    (void)DeviceObject, (void)Irp;
    WdmKeSetEvent(Event, (WDM_SITE){ 0 });
    return STATUS_MORE_PROCESSING_REQUIRED;
}

BOOLEAN WdmIoForwardIrpSynchronously(PDEVICE_OBJECT Target, PIRP Irp, WDM_SITE at)
{
    Call c;
    KEVENT event;
    enter_host(&c, "IoForwardIrpSynchronously", at);
    Packet *p = find(Irp);
    const bool done = forward_in_dispatch(p, device_number(Target), at), too_short = p->current == 1;
    leave_host();
    if (done)
        return TRUE;
    WdmKeInitializeEvent(&event, NotificationEvent, FALSE);
    WdmIoCopyToNext(Irp, at);
    if (too_short)
        return FALSE;
    WdmIoSetCompletionRoutine(Irp, signal_and_keep, &event,
                              SL_INVOKE_ON_SUCCESS | SL_INVOKE_ON_ERROR | SL_INVOKE_ON_CANCEL, at);
    WdmIoCallDriver(Target, Irp, at);
    WdmKeWaitForSingleObject(&event, NULL, at);
    return TRUE;
}
