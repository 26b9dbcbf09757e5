/* completion.c: IoCompleteRequest, and the unwinding with its completion routines. */
#include "io/own.h"
#include "ke/ke.h"
#include "mm/mm.h"
#include "record/record.h"
#include "rules/rules.h"

static bool is_met(const Packet *p, const Setting *set)
{
    return (NT_SUCCESS(p->status) && (set->flags & SL_INVOKE_ON_SUCCESS)) ||
        (!NT_SUCCESS(p->status) && (set->flags & SL_INVOKE_ON_ERROR)) ||
        (p->cancel && (set->flags & SL_INVOKE_ON_CANCEL));
}

/* Nobody kept the packet. */
static void end(Packet *p, Entry *e)
{
    PKEVENT event = hand_back(p);
    p->owner = ENDED;
    p->asking = NULL;
    p->open = NULL;
    p->unwinding = false;
    seal(e, p->cancel);
    tell_waiters(&host_settled);
    look(p);
    hand_over_block((PVOID)p->information);
    file_request_ended(p);
    if (is_associated(p))
        associated_ended(p);
    else if (!p->built.by_manager && !(p->irp->UserIosb && !p->built.status_gone && is_in_page(p->irp)))
        fault("NotKept", p, "has ended, and no routine kept it for %s", who_of(p, ORIGINATOR));
    unwatch(p);
    shut(p);
    if (event)
        set_event(event);
    free_ended(p);
}

/* Whether the routine marks as it has to. The mark that is recorded is the one that the rules want, where the bit of
   the location above is set already: then to mark again, or not to, changes nothing. */
static bool mark_of(Packet *p, const Frame *f, bool returned, bool had)
{
    const bool needs = returned && f->device >= 0;
    if (f->marked == needs || had || (p->has_own_location && f->device < 0)) /* in its own location it may mark, or not */
        return needs;
    fault_of("Mark", p, f, "%s, and Irp->PendingReturned is %s", f->marked ? "marks" : "doesn't mark",
             returned ? "TRUE" : "FALSE");
    return f->marked;
}

/* A routine that sets the bit of its device's location by hand marks it. */
static void take_routines_hand_mark(Packet *p, Frame *f)
{
    const int j = f->location + 1;
    if (f->marked || f->device < 0 || p->at[j].pending || !(raw_at(p, j)->Control & SL_PENDING_RETURNED))
        return;
    f->marked = true;
    set_pending_bit(p, j, true);
    if (p->at[j].frame)
        p->at[j].frame->marked_by_routine = true;
}

/* Asks the routine in location j. Returns whether the unwinding goes on. */
static bool ask_routine(Packet *p, Entry *e, int j, Location l)
{
    const int device = j < p->size ? p->at[j + 1].device : ORIGINATOR;
    const bool had = device >= 0 && p->at[j + 1].real;
    Frame f = { .kind = ROUTINE, .p = p, .use = p->use, .fn = (void *)l.set->fn, .device = device, .location = j,
                .e = e, .i = ask(e, p, ROUTINE, NULL, device, j) };
    e->asked[f.i].set = l.set;
    e->asked[f.i].returned = l.pending;
    e->asked[f.i].context = l.set->context;
    memset(raw_at(p, j), 0, sizeof(IO_STACK_LOCATION));
    enter_frame(&f);
    p->asking = &f;
    let_driver_run();
    point("the completion routine", (WDM_SITE){ 0 });
    NTSTATUS answer = l.set->fn(device < 0 ? own_device(p) : devices[device].raw, p->irp, l.set->raw);
    driver_came_back();
    leave_frame();
    if (f.settled && answer != STATUS_MORE_PROCESSING_REQUIRED)
        fault_of("GivenAway", p, &f, "gave the packet away, and then continued with %#x", (unsigned)answer);
    if (f.settled)
        return false;
    take_routines_hand_mark(p, &f);
    if (answer == STATUS_MORE_PROCESSING_REQUIRED) {
        if (!dispatch_has_it_back(p, &f))
            routine_kept(p, &f);
        return false;
    }
    Asked *a = &e->asked[f.i];
    check_power_routine(p, device);
    p->asking = NULL;
    a->plan = CONTINUE;
    decided_by(a, &f);
    a->mark = mark_of(p, &f, l.pending, had);
    const ULONG status = (ULONG)p->irp->IoStatus.Status;
    if (status != p->status || p->irp->IoStatus.Information != p->information) {
        a->replaced = l.set->replaced = true;
        a->new_status = p->status = status;
        a->new_information = p->information = p->irp->IoStatus.Information;
        if (j < p->size)
            pend_setter(p, j + 1, l, "it forwards unmarked, and its routine changes the answer");
    }
    return true;
}

/* From the current location up, as docs/RULES.md says under Unwinding. Under G before and after. */
static void unwind(Packet *p, Entry *e)
{
    for (int j = 1; j < p->current; j++)
        clear_location(p, j);
    prepare_nothing(p);
    p->unwinding = true;
    p->open = e;
    p->last = p->owner >= 0 ? p->owner : p->at[p->current].device;
    for (;;) {
        const int j = p->current;
        const Location l = p->at[j];
        p->irp->PendingReturned = p->returned = l.pending;
        p->irp->CurrentLocation = (CHAR)(j + 1);
        p->irp->Tail.Overlay.CurrentStackLocation = raw_at(p, j + 1);
        if (p->stands_in.of && j == p->size) {
            rider_came_up(p, e);
            return;
        }
        if (l.set && is_met(p, l.set)) {
            if (!ask_routine(p, e, j, l))
                return;
        } else if (l.pending && j < p->size) {
            set_pending_bit(p, j + 1, l.real);
        }
        clear_location(p, j);
        p->next.touched = false;
        p->current = j + 1;
        if (j == p->size) {
            end(p, e);
            return;
        }
    }
}

void finish(Packet *p, Entry *e, ULONG status, uint64_t information)
{
    p->sites.completed = self.calls->at;
    keep_callers(&p->completers, self.calls);
    p->status = status;
    p->information = information;
    unwind(p, e);
}

/* A dispatch or a cancel routine that is asked finishes the packet. */
static void finish_asked(Packet *p, Frame *f, ULONG status, uint64_t information)
{
    Asked *a = &f->e->asked[f->i];
    f->settled = true;
    a->plan = FINISH;
    decided_here(a);
    a->new_status = status;
    a->new_information = information;
    p->asking = NULL;
    finish(p, f->e, status, information);
}

/* A device completes what it holds, and its own code never marked the location. */
static void tell_unmarked(Packet *p, int by)
{
    Location *l = &p->at[p->current];
    if (by < 0 || p->next.how == SKIPPED || l->real || l->told)
        return;
    if (l->frame)
        l->frame->completed_unmarked = true;
    if (!l->pending) {
        fault("MarkedLate", p, "completed before the dispatch of %s has marked it pending", who(by));
        l->told = true;
    } else if (l->came_back && l->answer == STATUS_PENDING) {
        fault("MarkedLate", p, "completed, and %s, whose dispatch returned STATUS_PENDING, never marked it pending",
              who(by));
        l->told = true;
    }
}

/* The holder completes the packet, in an entry of its own. What the rules refuse is told, and mended where the run
   would stand still otherwise. */
void complete(Packet *p, int by, ULONG status, uint64_t information)
{
    const char *no;
    for (bool by_host = false;; by_host = true) {
        Entry *e = begin(COMPLETE, p, by);
        e->by_host = by_host;
        e->status = status;
        e->information = information;
        no = rules_refusal(e);
        if (!no) {
            e->reply = DONE;
            tell_unmarked(p, by);
            finish(p, e, status, information);
            return;
        }
        refuse(e, no);
        if (!strcmp(no, "BadStatus")) {
            status = (ULONG)STATUS_UNSUCCESSFUL;
            p->irp->IoStatus.Status = STATUS_UNSUCCESSFUL;
        } else if (!strcmp(no, "CancelRoutineSet")) {
            e = begin(SET_CANCEL, p, by);
            e->by_host = true;
            e->reply = PREVIOUS;
            e->seen.routine = p->routine;
            seal(e, false);
            p->routine = p->irp->CancelRoutine = NULL;
        } else
            return;
        say("the host itself completes IRP %u.%lu for %s, so that the run goes on", p->slot, (unsigned long)p->use, who(by));
    }
}

/* A dispatch that skipped its location completes the packet: told, and done as if it hadn't skipped. */
static void take_skip_back(Packet *p)
{
    fault("AfterSkip", p, "completed after IoSkipCurrentIrpStackLocation; done here as if it hadn't been called");
    prepare_nothing(p);
    put_back(p);
}

VOID WdmIoCompleteRequest(PIRP Irp, WDM_SITE at)
{
    Call c;
    enter_host(&c, "IoCompleteRequest", at);
    Packet *p = find(Irp);
    await(p);
    take_hand_mark(p);
    if (complete_unsent(p) || complete_kept(p)) {
        leave_host();
        return;
    }
    const int by = party_with_location(p);
    const bool live = lives(p);
    if (live)
        check_status_set(p, by);
    const ULONG status = live ? (ULONG)Irp->IoStatus.Status : 0;
    const uint64_t information = live ? Irp->IoStatus.Information : 0;
    const bool good = rules_completable(status);
    if (live) {
        check_completion(p, by, status, information);
        check_cleanup(p, by, status);
        check_dma_completed(p->irp->MdlAddress);
    }
    if (live)
        check_next_power(p, by, false);
    Frame *f = live && p->asking && p->asking->device == by ? p->asking : NULL, *mine = on_top(p);
    if (live && mine && mine->kind == DISPATCH && good) {
        mine->finished = true;
        mine->done = status;
    }
    if (f && f->kind == DISPATCH && p->next.skipped)
        take_skip_back(p);
    if (f && f->kind == DISPATCH && !f->marked && !f->cancel && good) {
        n_early += !is_this_thread(f->thread); /* its dispatch runs on, and will return this status */
        f->finished = true;
        f->done = status;
        finish_asked(p, f, status, information);
    } else if (f && f->kind == CANCELLING && mine == f && status == (ULONG)STATUS_CANCELLED && !p->ghost) {
        tell_unmarked(p, by);
        finish_asked(p, f, status, information);
    } else {
        if (live)
            settle(p, false);
        complete(p, by, status, information);
    }
    leave_host();
}
