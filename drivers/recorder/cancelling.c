/* cancelling.c: cancel routines, and where a cancel has its place in the history. */
#include "recording.h"

/* A cancel routine that was set after the cancel, and wasn't taken back: now it becomes an entry. */
void irpx_tell_ghost(IrpxPacket *p)
{
    PDRIVER_CANCEL routine = p->ghost;
    p->ghost = NULL;
    IrpxEntry *e = irpx_begin(IRPX_SET_CANCEL, p, p->owner);
    e->routine = p->cancel = routine;
    irpx_answer(e, IRPX_PREVIOUS, 0);
}

/* The cancel that is on its way, or one by code without the recorder. It has its place from now on. */
static IrpxEntry *take_cancel(IrpxPacket *p)
{
    IrpxEntry *e = irpx.seats[irpx.me].cancel; /* a cancel routine runs on the thread that cancels */
    if (!e || e->p != p || e->sealed)
        e = p->canceller ? p->canceller : irpx_begin(IRPX_CANCEL, p, IRPX_ORIGINATOR);
    if (p->canceller == e)
        p->canceller = NULL;
    p->flag = TRUE;
    e->reply = IRPX_CANCELLED;
    return e;
}

/* Where the flag is seen, and no routine is there that the cancel could take, the cancel comes before what is done
   now. */
void irpx_see_cancel(IrpxPacket *p)
{
    if (p->flag || !p->irp || !p->irp->Cancel || p->routine || p->late || (!p->canceller && !p->foreign))
        return;
    irpx_seal(take_cancel(p));
}

/* The owner finds its routine gone before that has begun: it is recorded as one that leaves. */
static void cancel_won(IrpxPacket *p)
{
    if (p->asking)
        p->asking->returning = TRUE; /* it will mark the packet, and hold it */
    irpx_settle(p);
    IrpxEntry *e = p->open = take_cancel(p);
    e->answer = TRUE;
    p->left = irpx_ask(p, IRPX_CANCELLING, p->owner, p->irp->CurrentLocation);
    p->left->plan = IRPX_LEAVE;
    p->left->cancel = p->late = p->routine;
    p->open = NULL;
    p->cancel = p->routine = NULL;
    irpx_seal(e);
}

static void run_asked(IrpxPacket *p, PDRIVER_CANCEL fn, IrpxAsked *a, BOOLEAN is_asked, PDEVICE_OBJECT device)
{
    IrpxFrame f;
    PIRP irp = p->irp;
    irpx_push(&f, p, a);
    f.settled = !is_asked;
    if (is_asked)
        p->asking = &f;
    irpx_leave();
    fn(device, irp);
    irpx_enter();
    irpx_pop(&f);
    if (p->asking == &f)
        irpx_settle(p);
}

/* The one cancel routine of all drivers, as the manager calls it. */
static VOID NTAPI run_cancel_routine(PDEVICE_OBJECT device, PIRP irp)
{
    irpx_enter();
    IrpxPacket *p = irpx_find(irp);
    if (p && p->late) {
        PDRIVER_CANCEL fn = p->late;
        p->late = NULL;
        run_asked(p, fn, p->left, FALSE, device);
    } else if (p && p->routine) {
        PDRIVER_CANCEL fn = p->routine;
        irpx_settle(p);
        if (p->ghost)
            irpx_tell_ghost(p);
        p->routine = p->cancel = NULL;
        p->open = take_cancel(p);
        p->open->answer = TRUE;
        IrpxAsked *a = irpx_ask(p, IRPX_CANCELLING, irpx_device(device), irp->CurrentLocation);
        a->cancel = fn;
        run_asked(p, fn, a, TRUE, device);
    }
    irpx_leave();
}

/* What becomes of a call that sets or takes out the routine; `before` was there. */
static void record_set(IrpxPacket *p, PDRIVER_CANCEL routine, PDRIVER_CANCEL before, const char *file)
{
    IrpxFrame *f = irpx_planning(p);
    if (f && !p->skipped) {
        f->cancel = routine;
        return;
    }
    if (p->ghost || (routine && p->flag && !p->cancel)) { /* its driver looks at Irp->Cancel next, and takes it back */
        p->ghost = routine;
        return;
    }
    IrpxEntry *e = irpx_begin(IRPX_SET_CANCEL, p, irpx_party(p, file));
    e->routine = p->cancel = routine;
    e->previous = before;
    irpx_answer(e, IRPX_PREVIOUS, 0);
}

PDRIVER_CANCEL IrpxSetCancelRoutine(PIRP Irp, PDRIVER_CANCEL Routine, const char *File)
{
    irpx_enter();
    IrpxPacket *p = irpx_packet(Irp, File);
    irpx_see_cancel(p);
    PDRIVER_CANCEL before = p->routine;
    const BOOLEAN there = IoSetCancelRoutine(Irp, Routine ? run_cancel_routine : NULL) != NULL;
    if (before && !there) {
        if (p->cancels || p->foreign)
            cancel_won(p);
        before = NULL;
    }
    p->routine = Routine;
    record_set(p, Routine, before, File);
    irpx_see_cancel(p);
    irpx_leave();
    return before;
}

/* Whether another thread's cancel has taken the routine, and has no place yet: it comes before one that found none. */
static BOOLEAN other_cancel_first(const IrpxPacket *p, const IrpxEntry *e)
{
    if (!p->irp || e->sealed || p->cancels < 2)
        return FALSE;
    if (p->routine && !p->irp->CancelRoutine)
        return TRUE;
    return p->open && p->open != e && p->open->op == IRPX_CANCEL && !p->open->sealed && p->open->seat != irpx.me;
}

BOOLEAN IrpxCancelIrp(PIRP Irp)
{
    irpx_enter();
    IrpxPacket *p = irpx_packet(Irp, NULL);
    IrpxEntry *e = irpx_begin(IRPX_CANCEL, p, IRPX_ORIGINATOR);
    const uint64_t use = p->use;
    /* One of the kit's, as a cancel-safe queue sets: it isn't seen. */
    const BOOLEAN other = Irp->CancelRoutine && !p->routine;
    IrpxEntry *outer = irpx.seats[irpx.me].cancel;
    if (!p->canceller)
        p->canceller = e;
    p->cancels++;
    irpx.seats[irpx.me].cancel = e;
    irpx_leave();
    const BOOLEAN was = IoCancelIrp(Irp);
    irpx_enter();
    irpx.seats[irpx.me].cancel = outer;
    for (int i = 0; i < 1000000 && !was && p->use == use && other_cancel_first(p, e); i++)
        irpx_pause();
    if (p->use == use) {
        p->cancels--;
        p->flag = TRUE;
        if (p->canceller == e)
            p->canceller = NULL;
    }
    irpx_answer(e, IRPX_CANCELLED, was && !other);
    if (p->use == use && !irpx_top())
        irpx_look(p);
    irpx_leave();
    return was;
}
