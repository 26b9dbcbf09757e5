/* calls.c: preparing, marking, sending and completing a packet. */
#include "recording.h"

PIO_STACK_LOCATION IrpxGetNextLocation(PIRP Irp, const char *File)
{
    irpx_enter();
    IrpxPacket *p = irpx_packet(Irp, File);
    irpx_planning(p);
    p->touched = TRUE;
    PIO_STACK_LOCATION next = IoGetNextIrpStackLocation(Irp);
    irpx_leave();
    return next;
}

VOID IrpxCopyToNext(PIRP Irp, const char *File)
{
    irpx_enter();
    IrpxPacket *p = irpx_packet(Irp, File);
    IrpxFrame *f = irpx_planning(p);
    p->want = NULL;
    if (f)
        p->copied = TRUE;
    else {
        irpx_answer(irpx_begin(IRPX_COPY, p, irpx_party(p, File)), IRPX_DONE, 0);
        p->prepared = IRPX_FILLED;
        if (Irp->CurrentLocation > 1 && Irp->CurrentLocation <= p->size)
            irpx_fill_below(p, Irp->CurrentLocation, NULL);
    }
    IoCopyCurrentIrpStackLocationToNext(Irp);
    irpx_leave();
}

VOID IrpxSkip(PIRP Irp, const char *File)
{
    irpx_enter();
    IrpxPacket *p = irpx_packet(Irp, File);
    IrpxFrame *f = irpx_planning(p);
    if (f && (f->cancel || p->skipped)) {
        irpx_settle(p);
        f = NULL;
    }
    irpx_prepare_nothing(p);
    if (f)
        p->skipped = TRUE;
    else {
        irpx_answer(irpx_begin(IRPX_SKIP, p, irpx_party(p, File)), IRPX_DONE, 0);
        p->prepared = IRPX_SKIPPED;
    }
    IoSkipCurrentIrpStackLocation(Irp);
    irpx_leave();
}

static IrpxSetting *new_setting(PIO_COMPLETION_ROUTINE fn, PVOID raw, UCHAR flags)
{
    IrpxSetting *set = irpx_take(sizeof *set);
    if (!set) {
        irpx_lose();
        return NULL;
    }
    *set = (IrpxSetting){ .next = irpx.settings, .fn = fn, .raw = raw, .context = irpx_number_of(raw), .flags = flags };
    irpx.settings = set;
    return set;
}

VOID IrpxSetRoutine(PIRP Irp, PIO_COMPLETION_ROUTINE Routine, PVOID Context, BOOLEAN Success, BOOLEAN Error,
                    BOOLEAN Cancel, const char *File)
{
    const UCHAR flags = (UCHAR)((Success ? SL_INVOKE_ON_SUCCESS : 0) | (Error ? SL_INVOKE_ON_ERROR : 0) |
                                (Cancel ? SL_INVOKE_ON_CANCEL : 0));
    irpx_enter();
    IrpxPacket *p = irpx_packet(Irp, File);
    irpx_planning(p);
    p->want = Routine ? new_setting(Routine, Context, flags) : NULL;
    if (p->want)
        IoSetCompletionRoutine(Irp, irpx_routine, p->want, Success, Error, Cancel);
    else
        IoSetCompletionRoutine(Irp, Routine, Context, Success, Error, Cancel);
    irpx_leave();
}

VOID IrpxMarkPending(PIRP Irp, const char *File)
{
    irpx_enter();
    IrpxPacket *p = irpx_packet(Irp, File);
    IrpxFrame *f = p->asking;
    if (f && f == irpx_top() && f->asked->kind != IRPX_CANCELLING && !p->skipped)
        f->marked = TRUE;
    else {
        irpx_settle(p);
        irpx_answer(irpx_begin(IRPX_MARK, p, irpx_party(p, File)), IRPX_DONE, 0);
    }
    IoMarkIrpPending(Irp);
    irpx_leave();
}

/* What the owner wrote by hand into the next location becomes a SetNext, and what it set a SetRoutine. */
static void flush_next(IrpxPacket *p, int by, int next)
{
    if (next < 1 || next > p->size)
        return;
    const IO_STACK_LOCATION *raw = irpx_at(p->irp, next);
    const uint64_t word = irpx_word_of(raw);
    IrpxLocation *l = &p->at[next];
    if (p->prepared != IRPX_SKIPPED && (p->touched || p->prepared == IRPX_FILLED) &&
        (p->prepared == IRPX_NOTHING || raw->MajorFunction != l->major || word != l->word)) {
        IrpxEntry *e = irpx_begin(IRPX_SET_NEXT, p, by);
        e->major = l->major = raw->MajorFunction;
        e->word = l->word = word;
        l->set = NULL;
        irpx_answer(e, IRPX_DONE, 0);
    }
    if (p->want) {
        IrpxEntry *e = irpx_begin(IRPX_SET_ROUTINE, p, by);
        e->set = l->set = p->want;
        irpx_answer(e, IRPX_DONE, 0);
    }
}

/* Whether the dispatch passes the packet to the device below by one plan, and has done no more to it. */
static BOOLEAN is_plan(const IrpxPacket *p, const IrpxFrame *f, PDEVICE_OBJECT target, int next)
{
    if (!f || f->cancel || next < 1 || next > p->size || f->asked->device < 0 ||
        target->AttachedDevice != irpx.devices[f->asked->device].raw)
        return FALSE;
    if (p->skipped)
        return !f->marked && !p->want;
    const IrpxLocation *here = &p->at[f->asked->location];
    return (p->copied || p->touched) && irpx_at(p->irp, next)->MajorFunction == here->major &&
        p->sent_word == here->word;
}

static void pass_down(IrpxPacket *p, IrpxFrame *f)
{
    IrpxAsked *a = f->asked;
    a->plan = p->skipped ? IRPX_SKIPS : f->marked ? IRPX_FORWARD_PEND : IRPX_FORWARD;
    a->set = p->want;
    f->settled = TRUE;
    p->asking = NULL;
    if (p->want)
        p->want->by = a;
    if (!p->skipped)
        irpx_fill_below(p, a->location, p->want);
}

NTSTATUS IrpxCallDriver(PDEVICE_OBJECT Target, PIRP Irp, const char *File)
{
    irpx_enter();
    IrpxPacket *p = irpx_packet(Irp, File);
    const int d = irpx_device(Target), by = irpx_party(p, File), next = Irp->CurrentLocation - 1;
    IrpxFrame *f = irpx_planning(p);
    IrpxEntry *e = NULL;
    p->sent_word = next >= 1 && next <= p->size ? irpx_word_of(irpx_at(Irp, next)) : 0;
    irpx_wrap(Target->DriverObject);
    if (is_plan(p, f, Target, next))
        pass_down(p, f);
    else {
        irpx_settle(p);
        flush_next(p, by, next);
        p->open = e = irpx_begin(IRPX_CALL, p, by);
        e->other = d;
    }
    p->sent_status = (ULONG)Irp->IoStatus.Status;
    p->sent_information = Irp->IoStatus.Information;
    irpx_prepare_nothing(p);
    const uint64_t use = p->use;
    irpx_leave();
    const NTSTATUS status = IoCallDriver(Target, Irp);
    if (!e)
        return status;
    irpx_enter();
    irpx_ended(p, use, e);
    irpx_answer(e, IRPX_STATUS, (ULONG)status);
    if (p->use == use && !irpx_top())
        irpx_look(p);
    irpx_leave();
    return status;
}

/* Whether this completion is the answer of the one who is asked. */
static BOOLEAN is_finish(const IrpxPacket *p, const IrpxFrame *f)
{
    if (!f || f != irpx_top())
        return FALSE;
    if (f->asked->kind == IRPX_DISPATCH)
        return !f->marked && !f->cancel && !p->skipped;
    return f->asked->kind == IRPX_CANCELLING && p->irp->IoStatus.Status == STATUS_CANCELLED;
}

VOID IrpxCompleteRequest(PIRP Irp, CCHAR Boost, const char *File)
{
    irpx_enter();
    IrpxPacket *p = irpx_old(Irp, File);
    const int by = irpx_party(p, File);
    const uint64_t use = p->use;
    IrpxFrame *f = p->asking;
    IrpxEntry *e = p->open;
    irpx_see_cancel(p);
    if (is_finish(p, f)) {
        f->asked->plan = IRPX_FINISH;
        irpx_read_status(p, &f->asked->new_status, &f->asked->new_information);
        f->settled = TRUE;
        p->asking = NULL;
    } else {
        irpx_settle(p);
        p->open = e = irpx_begin(IRPX_COMPLETE, p, by);
        e->reply = IRPX_DONE;
        irpx_read_status(p, &e->status, &e->information);
    }
    p->last = by;
    p->rising = TRUE;
    p->completing++;
    irpx_prepare_nothing(p);
    irpx_leave();
    IoCompleteRequest(Irp, Boost);
    irpx_enter();
    if (p->use == use)
        p->completing--;
    if (p->use == use && p->open == e)
        irpx_ended(p, use, e);
    irpx_leave();
}
