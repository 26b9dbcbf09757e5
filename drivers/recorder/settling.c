/* settling.c: what was asked about a packet is decided. */
#include "recording.h"

void irpx_read_status(IrpxPacket *p, ULONG *status, uint64_t *information)
{
    *status = p->status = (ULONG)p->irp->IoStatus.Status;
    *information = p->information = p->irp->IoStatus.Information;
}

/* The dispatch in this location does what only one that pended may do. On wish it counts as one. */
static BOOLEAN pend_location(IrpxPacket *p, int j, IrpxFrame *f)
{
    if (!irpx_options.pend) {
        irpx.counts.outside++;
        return FALSE;
    }
    irpx_at(p->irp, j)->Control |= SL_PENDING_RETURNED;
    if (f)
        f->forced = TRUE;
    irpx.counts.pended++;
    return TRUE;
}

/* What a completion routine did to the packet. The mark that is recorded is the one that the rules want, where the bit
   of the location above was set before: then to mark again, or not to, changes nothing. */
void irpx_routine_answered(IrpxPacket *p, IrpxFrame *f, IrpxPlan answer)
{
    IrpxAsked *a = f->asked, *by = a->set->by;
    const BOOLEAN needs = answer == IRPX_CONTINUE && a->returned && a->device >= 0;
    a->plan = answer;
    a->mark = f->had && answer == IRPX_CONTINUE ? needs : f->marked;
    a->new_status = p->status;
    a->new_information = p->information;
    if (f->seat == irpx.me) { /* else its next owner may have written to it */
        const ULONG status = (ULONG)p->irp->IoStatus.Status;
        const uint64_t information = p->irp->IoStatus.Information;
        a->replaced = a->status != status || a->information != information;
        irpx_read_status(p, &a->new_status, &a->new_information);
    }
    a->set->replaced |= a->replaced;
    a->set->kept |= answer == IRPX_KEEP;
    if (!by || by->plan != IRPX_FORWARD || a->location >= p->size || (!a->replaced && answer != IRPX_KEEP))
        return;
    if (pend_location(p, a->location + 1, p->at[a->location + 1].frame))
        by->plan = IRPX_FORWARD_PEND;
}

static void hold(IrpxPacket *p, IrpxFrame *f, IrpxEntry *e)
{
    IrpxAsked *a = f->asked;
    a->plan = IRPX_HOLD;
    a->cancel = p->cancel = f->cancel;
    p->owner = p->last = a->device;
    irpx_seal(e);
    if (!f->returning && !f->marked && f->seat == irpx.me)
        pend_location(p, a->location, f);
    if (p->copied) {
        irpx_answer(irpx_begin(IRPX_COPY, p, p->owner), IRPX_DONE, 0);
        if (a->location > 1)
            irpx_fill_below(p, a->location, NULL);
    }
    if (p->skipped)
        irpx_answer(irpx_begin(IRPX_SKIP, p, p->owner), IRPX_DONE, 0);
    p->prepared = p->skipped ? IRPX_SKIPPED : p->copied ? IRPX_FILLED : IRPX_NOTHING;
}

/* Whoever is asked about the packet has kept it. */
void irpx_settle(IrpxPacket *p)
{
    IrpxFrame *f = p->asking;
    IrpxEntry *e = p->open;
    if (!f)
        return;
    p->asking = NULL;
    p->open = NULL;
    p->rising = FALSE;
    f->settled = TRUE;
    if (f->asked->kind == IRPX_DISPATCH)
        hold(p, f, e);
    else if (f->asked->kind == IRPX_CANCELLING) {
        f->asked->plan = IRPX_LEAVE;
        irpx_seal(e);
    } else {
        irpx_routine_answered(p, f, IRPX_KEEP);
        p->owner = f->asked->device;
        irpx_seal(e);
        if (p->owner == IRPX_ORIGINATOR && f->seat == irpx.me)
            irpx_look(p);
    }
}

/* The dispatch that this thread is in, if it is still asked about the packet: what it prepares is told with its plan.
   */
IrpxFrame *irpx_planning(IrpxPacket *p)
{
    IrpxFrame *f = p->asking;
    if (f && f == irpx_top() && f->asked->kind == IRPX_DISPATCH)
        return f;
    irpx_settle(p);
    return NULL;
}

/* What a send answers by its plans, where it hasn't returned. */
static void answer_by_plans(IrpxEntry *e)
{
    uint64_t status = (ULONG)STATUS_INVALID_DEVICE_REQUEST;
    for (const IrpxAsked *a = e->first; a; a = a->next) {
        if (a->plan == IRPX_HOLD || a->plan == IRPX_FORWARD_PEND) {
            status = (ULONG)STATUS_PENDING;
            break;
        }
        if (a->plan == IRPX_FINISH)
            status = a->new_status;
    }
    irpx_answer(e, IRPX_STATUS, status);
}

/* It doesn't wait for the lock, which a thread may hold that never comes back. */
VOID IrpxAbandon(VOID)
{
    for (unsigned i = 0; i < irpx.n_packets; i++) {
        IrpxPacket *p = irpx.packets[i];
        if (p->open && !p->asking && !p->open->sealed && (p->open->op == IRPX_COMPLETE || p->open->first))
            irpx_seal(p->open);
    }
    for (IrpxEntry *e = irpx.first; e; e = e->next)
        if (e->op == IRPX_CALL && e->reply == IRPX_NONE_YET)
            answer_by_plans(e);
}
