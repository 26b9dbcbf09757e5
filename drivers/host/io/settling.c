/* settling.c: what is asked about a packet is decided: whoever is asked has kept it. */
#include "io/own.h"
#include "ke/ke.h"
#include "record/record.h"
#include "rules/rules.h"

/* The dispatch in this location counts as one that pended, which its own code hasn't done. */
static void pend_for(Packet *p, int j, const char *why)
{
    set_pending_bit(p, j, false);
    if (p->at[j].frame) {
        p->at[j].frame->forced = true;
        p->at[j].frame->forced_why = why;
    }
}

/* As pend_for, where a routine below did what only a pended device's may do: the plan that set it is forward_pend. */
void pend_setter(Packet *p, int j, Location below, const char *why)
{
    if (!below.by || below.by->asked[below.by_i].plan != FORWARD)
        return; /* it had marked, or set the routine in an entry of its own */
    below.by->asked[below.by_i].plan = FORWARD_PEND;
    pend_for(p, j, why);
}

/* What a routine answers that keeps: what IoStatus was when it returned, or first made a call by which its packet may
   have changed hands. */
void take_kept_answer(Packet *p, Frame *f)
{
    Asked *a = &f->e->asked[f->i];
    Setting *set = p->at[f->location].set;
    const bool own = is_this_thread(f->thread); /* else its next owner may have written to it */
    const ULONG status = f->handed_over ? f->status : own ? (ULONG)p->irp->IoStatus.Status : p->status;
    const uint64_t information = f->handed_over ? f->information : own ? p->irp->IoStatus.Information : p->information;
    a->plan = KEEP;
    decided_by(a, f);
    p->kept_by = f->fn;
    set->kept = true;
    if ((status != p->status || information != p->information) && rules_completable(status)) {
        a->replaced = set->replaced = true;
        a->new_status = p->status = status;
        a->new_information = p->information = information;
    }
}

/* A completion routine keeps its packet: its device owns it from now on. */
void routine_kept(Packet *p, Frame *f)
{
    const Location below = p->at[f->location];
    take_kept_answer(p, f);
    if (f->marked && f->device == ORIGINATOR && !p->has_own_location)
        fault_of("Mark", p, f, "marks a packet in which it has no location");
    if (f->location < p->size)
        pend_setter(p, f->location + 1, below, "it forwards unmarked, and its routine keeps");
    p->at[f->location] = (Location){ .device = NOBODY }; /* its memory is as the routine left it, perhaps filled anew, or gone */
    p->current = f->location + 1;
    p->owner = f->device;
    p->asking = NULL;
    p->open = NULL;
    p->unwinding = false;
    f->settled = true;
    seal(f->e, p->cancel);
    tell_waiters(&host_settled);
    if (p->owner == ORIGINATOR)
        look(p);
}

/* The dispatch holds the packet; what it prepared so far becomes entries of its own. */
static void hold(Packet *p, Frame *f)
{
    Asked *a = &f->e->asked[f->i];
    a->plan = HOLD;
    if (!a->at.call)
        decided_by(a, f);
    a->cancel = p->routine = f->cancel;
    if (f->cancel && p->cancel)
        fault_of("AlreadyCancelled", p, f, "holds it with a cancel routine that was set at %s, after the cancel",
                 place(p->sites.cancel));
    p->owner = p->last = f->device;
    seal(f->e, p->cancel);
    if (p->next.copied) {
        answered(begin(COPY, p, f->device), DONE, 0);
        p->at[p->current - 1] = (Location){ .device = NOBODY, .major = p->at[p->current].major,
                                            .word = p->at[p->current].word };
        p->next.how = FILLED;
    }
    if (p->next.skipped) {
        answered(begin(SKIP, p, f->device), DONE, 0);
        p->current++;
        p->next.how = SKIPPED;
    }
}

/* A dispatch that keeps by a call of its own, or waits while another thread has its packet, and hasn't marked counts as
   pending; one that another thread outran, or that has returned, is left as it is. */
void settle(Packet *p, bool returned)
{
    Frame *f = p->asking;
    if (!f)
        return;
    take_hand_mark(p);
    const bool own = !returned && is_this_thread(f->thread);
    n_early += !returned && !own;
    if (f->kind == ROUTINE) {
        routine_kept(p, f);
        return;
    }
    p->asking = NULL;
    p->open = NULL;
    f->settled = true;
    tell_waiters(&host_settled);
    if (f->kind == CANCELLING) {
        f->e->asked[f->i].plan = LEAVE;
        decided_by(&f->e->asked[f->i], f);
        seal(f->e, p->cancel);
        return;
    }
    if ((own || (!returned && f->waiting)) && !f->marked)
        pend_for(p, f->location, "it does more in its dispatch than finish, hold or pass down");
    hold(p, f);
}
