/* sending.c: IoCallDriver, and what a dispatch that was entered says when it returns. */
#include "io/own.h"
#include "explore/explore.h"
#include "ke/ke.h"
#include "mm/mm.h"
#include "record/record.h"
#include "rules/rules.h"
#include "test/test.h"

/* What a dispatch returned is held against what it did. */
static void judge_return(Packet *p, const Frame *f, NTSTATUS answer)
{
    const bool pending = answer == STATUS_PENDING, marked = f->marked || f->marked_by_routine;
    Location *l = &p->at[f->location];
    if (p->use == f->use && l->told)
        return;
    if (marked && !pending)
        fault_of("Returned", p, f, "marked the packet pending%s and returned %#x", f->marked ? "" : " in its routine",
                 (unsigned)answer);
    else if (!marked && f->finished && !pending && (ULONG)answer != f->done)
        fault_of("Status", p, f, "completed the packet with %#x and returned %#x", f->done, (unsigned)answer);
    else if (!marked && f->forced && !pending && lives(p) && p->use == f->use && p->current <= f->location)
        fault_of("Returned", p, f, "returned %#x for a packet that is still on its way", (unsigned)answer);
    else if (!marked && !f->forced && f->passed && (ULONG)answer != f->lower)
        fault_of("Status", p, f, "returned %#x, the driver below %#x", (unsigned)answer, f->lower);
    else if (!marked && pending && ((!f->forced && !f->passed) || f->completed_unmarked))
        fault_of("Returned", p, f, "returned STATUS_PENDING and marked nothing: call IoMarkIrpPending before the packet "
                 "is kept");
    else {
        if (!marked && f->forced && !pending)
            note("pended by the host", "%s: %s; its caller gets STATUS_PENDING, where Windows would have returned %#x",
                 what_runs(f), f->forced_why, (unsigned)answer);
        return;
    }
    if (p->use == f->use)
        l->told = true;
}

static NTSTATUS dispatch_returned(Packet *p, Frame *f, NTSTATUS answer)
{
    Location *l = p->use == f->use && p->at[f->location].frame == f ? &p->at[f->location] : NULL;
    if (p->asking == f)
        take_hand_mark(p);
    if (p->asking == f) { /* nothing was decided: it keeps the packet */
        if (!f->marked && answer != STATUS_PENDING) {
            fault_of("Lost", p, f, "neither finishes, keeps nor passes down the packet, and returns %#x",
                     (unsigned)answer);
            packets_lost += !p->lost;
            p->lost = true;
            p->at[f->location].told = true;
        }
        settle(p, true);
    }
    judge_return(p, f, answer);
    if (l && l->frame == f) {
        l->frame = NULL;
        l->came_back = true;
        l->answer = answer;
    }
    for (int j = 1; j <= p->size; j++)
        if (p->at[j].frame == f)
            p->at[j].frame = NULL;
    return f->forced && !f->marked && !f->marked_by_routine ? STATUS_PENDING : answer;
}

/* Enters a device with the packet: its location is the next lower one. Under G before and after. */
NTSTATUS enter_device(Packet *p, int d, Entry *e)
{
    leave_location(p, p->current);
    Location *l = &p->at[--p->current];
    p->sites.completed = (WDM_SITE){ 0 };
    if (p->current == p->size) {
        p->major = l->major;
        p->file = raw_at(p, p->current)->FileObject;
        p->mode = p->irp->RequestorMode;
    }
    p->kept_by = NULL;
    put_back(p);
    l->device = d;
    l->came = (ULONG)p->irp->IoStatus.Status;
    raw_at(p, p->current)->DeviceObject = devices[d].raw;
    prepare_nothing(p);
    request_came(devices[d].driver->HostNumber, l->major, raw_at(p, p->current)->MinorFunction);
    power_comes(raw_at(p, p->current), d);
    PDRIVER_DISPATCH fn = devices[d].raw->DriverObject->MajorFunction[l->major];
    if (!fn) {
        check_dispatch_there(p, d, l->major);
        p->irp->IoStatus.Status = STATUS_INVALID_DEVICE_REQUEST;
        p->irp->IoStatus.Information = 0;
        finish(p, e, (ULONG)STATUS_INVALID_DEVICE_REQUEST, 0);
        return STATUS_INVALID_DEVICE_REQUEST;
    }
    Frame f = { .kind = DISPATCH, .p = p, .use = p->use, .fn = (void *)fn, .device = d, .location = p->current,
                .major = l->major, .bit_came = raw_at(p, p->current)->Control & SL_PENDING_RETURNED, .e = e,
                .i = ask(e, p, DISPATCH, (void *)fn, d, p->current) };
    e->asked[f.i].has_lower = devices[d].lower >= 0;
    l->frame = &f;
    enter_frame(&f);
    p->asking = &f;
    p->open = e;
    let_driver_run();
    NTSTATUS answer = fn(devices[d].raw, p->irp);
    driver_came_back();
    leave_frame();
    answer = dispatch_returned(p, &f, answer);
    delete_after(d);
    return answer;
}

static void tell_hand_copied(Packet *p, const Setting *set)
{
    PIO_STACK_LOCATION raw = raw_at(p, p->current - 1);
    if (raw->CompletionRoutine != (set ? set->fn : NULL))
        fault("CopiedByHand", p, "the location was copied by hand, with the routine %s of the driver above",
              function_name((void *)raw->CompletionRoutine));
}

/* Whether the next location has what the dispatch's own has, and no more was done to it than a plan says. */
static bool is_same_below(Packet *p)
{
    const Location *here = &p->at[p->current];
    return (p->next.copied || is_filled_by_hand(p)) && p->current > 1 && raw_at(p, p->current - 1)->MajorFunction == here->major &&
        word_of(raw_at(p, p->current - 1)) == here->word;
}

/* A send returns. */
void returned_from(Entry *e, NTSTATUS answer)
{
    e->reply = STATUS;
    e->answer = (ULONG)answer;
    n_sends--;
    tell_waiters(&host_settled);
}

/* The dispatch passes the packet down by one plan. Returns what the device below answers. */
static NTSTATUS pass_down(Packet *p, Frame *f, int d)
{
    Asked *a = &f->e->asked[f->i];
    const Location here = p->at[p->current];
    f->settled = f->passed = true;
    decided_here(a);
    if (p->next.skipped) {
        if (word_of(raw_at(p, p->current)) != here.word)
            note("outside the model", "%s: changes its own parameters and skips: the record has them as first sent",
                 what_runs(f));
        a->plan = SKIPS;
        p->current++;
    } else {
        a->plan = f->marked ? FORWARD_PEND : FORWARD;
        a->set = p->next.set;
        p->at[p->current - 1] = (Location){ .device = NOBODY, .major = here.major, .word = here.word, .set = p->next.set,
                                            .by = f->e, .by_i = f->i };
    }
    p->asking = NULL;
    const NTSTATUS lower = enter_device(p, d, f->e);
    f->lower = (ULONG)lower;
    if (f->below) {
        returned_from(f->below, lower);
        f->below = NULL;
    }
    return lower;
}

/* A send in an entry of its own. */
static NTSTATUS send(Packet *p, int by, int d)
{
    Frame *f = dispatching(p);
    if (lives(p)) {
        if (f && f->marked && p->next.skipped)
            note("a warning of the kit", "%s: marks its location and skips it", what_runs(f));
        const bool prepared = p->next.skipped || (p->current > 1 && (p->next.copied || is_filled_by_hand(p) || p->next.how != NOTHING));
        if (prepared && by >= 0 && devices[by].lower != d && devices[d].live)
            return send_in_place(p, by, d);
        settle(p, false);
        if (p->owner == by)
            flush_next(p, by);
    }
    Entry *e = begin(CALL, p, by);
    e->other = d;
    const char *no = rules_refusal(e);
    if (no) {
        refuse(e, no);
        return STATUS_INVALID_DEVICE_REQUEST;
    }
    if (p->next.how == FILLED)
        tell_hand_copied(p, p->at[p->current - 1].set);
    const NTSTATUS answer = enter_device(p, d, e);
    returned_from(e, answer);
    return answer;
}

NTSTATUS WdmIoCallDriver(PDEVICE_OBJECT Target, PIRP Irp, WDM_SITE at)
{
    Call c;
    enter_host(&c, "IoCallDriver", at);
    Packet *p = find(Irp);
    touch(&devices, READS);
    await(p);
    take_hand_skip(p);
    take_hand_mark(p);
    const int by = party(p), d = device_number(Target);
    if (lives(p) && (p->next.skipped || p->current > 1))
        check_dispatch_level(p, raw_at(p, p->next.skipped ? p->current : p->current - 1)->MajorFunction, d);
    Frame *f = dispatching(p);
    NTSTATUS answer;
    if (lives(p) && p->owner == ORIGINATOR) {
        give_mdl(p);
        tell_own_cancel(p);
        expect_status(p);
        request_sent(p);
    }
    const uint64_t use = p->use;
    if (lives(p))
        check_sending(p, by);
    if (lives(p) && (p->next.skipped || p->current > 1))
        check_started_below(p, raw_at(p, p->next.skipped ? p->current : p->current - 1), d);
    if (lives(p))
        check_next_power(p, by, !p->next.skipped && p->next.set);
    if (lives(p) && p->owner != ENDED && (f || p->owner == by))
        p->sites.sent = at;
    if (f && devices[by].lower == d && !f->cancel && (p->next.skipped ? !f->marked : is_same_below(p))) {
        if (!p->next.skipped)
            tell_hand_copied(p, p->next.set);
        answer = will_wait(p, f) ? forward_in_place(p, d) : pass_down(p, f, d);
    } else
        answer = send(p, by, d);
    watch_sent(p, by, use);
    if (!self.frames)
        let_closed_files_go();
    leave_host();
    return answer;
}
