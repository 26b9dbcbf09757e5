/* running.c: drivers' dispatches and completion routines, as the manager calls them. */
#include "recording.h"

/* A packet that came from code without the recorder: all locations above this one are its originator's. */
static IrpxEntry *adopt(PIRP irp, int device, int j)
{
    irpx.counts.adopted++;
    IrpxPacket *p = irpx_new(irp, j, IRPX_NOBODY);
    IrpxEntry *e = irpx_begin(IRPX_REUSE, p, IRPX_ORIGINATOR);
    p->sent_status = e->status = (ULONG)irp->IoStatus.Status;
    irpx_renew(p, e);
    p->foreign = TRUE;
    p->sent_status = p->status;
    p->sent_information = irp->IoStatus.Information;
    irpx_see_cancel(p);
    e = irpx_begin(IRPX_SET_NEXT, p, IRPX_ORIGINATOR);
    e->major = p->at[j].major = irpx_at(irp, j)->MajorFunction;
    e->word = p->at[j].word = p->sent_word = irpx_word_of(irpx_at(irp, j));
    irpx_answer(e, IRPX_DONE, 0);
    p->open = e = irpx_begin(IRPX_CALL, p, IRPX_ORIGINATOR);
    e->other = device;
    return e;
}

static BOOLEAN stands_on_another(PDEVICE_OBJECT device)
{
    for (int i = 0; i < irpx.n_devices; i++)
        if (irpx.devices[i].live && irpx.devices[i].raw && irpx.devices[i].raw != device &&
            irpx.devices[i].raw->AttachedDevice == device)
            return TRUE;
    return FALSE;
}

/* What is shown is what stands in the packet. What a driver wrote there before it sent it isn't the manager's doing:
   that is shown as the record has it. */
static void show_dispatch(IrpxPacket *p, IrpxAsked *a, PDEVICE_OBJECT device)
{
    const IO_STACK_LOCATION *raw = irpx_at(p->irp, a->location);
    const uint64_t word = irpx_word_of(raw);
    a->major = raw->MajorFunction;
    if (word != p->sent_word)
        a->word = word;
    if (a->status == p->sent_status)
        a->status = p->status;
    if (a->information == p->sent_information)
        a->information = p->information;
    a->has_lower = stands_on_another(device);
}

/* A dispatch that is asked has completed its packet, unmarked, by code without the recorder. */
static void finish_unseen(IrpxPacket *p, IrpxFrame *f)
{
    f->asked->plan = IRPX_FINISH;
    f->settled = TRUE;
    p->asking = NULL;
    p->rising = TRUE;
}

static NTSTATUS dispatch_returned(IrpxPacket *p, IrpxFrame *f, NTSTATUS status)
{
    const int d = f->asked->device;
    const BOOLEAN unseen = d >= 0 && !irpx.devices[d].seen;
    irpx_pop(f);
    for (int i = 1; i <= p->size; i++)
        if (p->at[i].frame == f)
            p->at[i].frame = NULL;
    f->returning = TRUE;
    if (p->asking == f && unseen && status != STATUS_PENDING) {
        finish_unseen(p, f); /* nobody was asked, so it has ended: its memory may be gone */
        f->asked->new_status = p->status = (ULONG)status;
    } else if (p->asking == f)
        irpx_settle(p);
    if (unseen && f->settled && p->open == f->entry && !p->asking)
        irpx_ended(p, f->use, f->entry);
    return f->forced && !f->marked ? STATUS_PENDING : status;
}

/* The one dispatch of all drivers, for all majors. */
NTSTATUS NTAPI irpx_dispatch(PDEVICE_OBJECT device, PIRP irp)
{
    irpx_enter();
    const int d = irpx_device(device), j = irp->CurrentLocation, k = d < 0 ? 0 : irpx.devices[d].driver;
    const UCHAR major = irpx_at(irp, j)->MajorFunction;
    IrpxPacket *p = irpx_find(irp);
    IrpxEntry *mine = NULL;
    if (!p || !p->open || p->asking || p->rising) {
        mine = adopt(irp, d, j);
        p = mine->p;
    }
    IrpxAsked *a = irpx_ask(p, IRPX_DISPATCH, d, j);
    IrpxFrame f;
    a->id = irpx.drivers[k].id[major];
    show_dispatch(p, a, device);
    irpx_push(&f, p, a);
    p->asking = &f;
    if (j > 0 && j <= p->size)
        p->at[j].frame = &f;
    PDRIVER_DISPATCH fn = irpx.drivers[k].fn[major];
    irpx_leave();
    NTSTATUS status = fn(device, irp);
    irpx_enter();
    status = dispatch_returned(p, &f, status);
    if (mine) {
        mine->reply = IRPX_STATUS;
        mine->answer = (ULONG)status;
        if (p->open == mine && !p->asking)
            irpx_ended(p, f.use, mine);
    }
    irpx_leave();
    return status;
}

/* Where nobody has called for it, the packet was completed by code without the recorder, or is asked once too often. */
static void see_completion(IrpxPacket *p)
{
    IrpxFrame *f = p->asking;
    if (f && f->asked->kind == IRPX_DISPATCH && f->seat == irpx.me && !f->marked && !p->irp->PendingReturned) {
        finish_unseen(p, f);
        irpx_read_status(p, &f->asked->new_status, &f->asked->new_information);
    } else
        irpx_settle(p);
    if (p->open)
        return;
    p->open = irpx_begin(IRPX_COMPLETE, p, p->owner);
    p->open->reply = IRPX_DONE;
    irpx_read_status(p, &p->open->status, &p->open->information);
}

NTSTATUS NTAPI irpx_routine(PDEVICE_OBJECT device, PIRP irp, PVOID context)
{
    IrpxSetting *s = context;
    irpx_enter();
    IrpxPacket *p = irpx_find(irp);
    if (!p) {
        irpx_leave();
        return s->fn(device, irp, s->raw);
    }
    see_completion(p);
    const int j = irp->CurrentLocation - 1;
    IrpxAsked *a = irpx_ask(p, IRPX_ROUTINE, irpx_device(device), j);
    IrpxFrame f;
    a->set = s;
    a->returned = irp->PendingReturned;
    irpx_push(&f, p, a);
    f.had = j > 0 && j < p->size && (irpx_at(irp, j + 1)->Control & SL_PENDING_RETURNED);
    p->asking = &f;
    p->rising = TRUE;
    irpx_prepare_nothing(p);
    irpx_leave();
    const NTSTATUS answer = s->fn(device, irp, s->raw);
    irpx_enter();
    irpx_pop(&f);
    if (!f.settled && answer == STATUS_MORE_PROCESSING_REQUIRED)
        irpx_settle(p);
    else if (!f.settled) {
        p->asking = NULL;
        irpx_routine_answered(p, &f, IRPX_CONTINUE);
        if (j == p->size)
            irpx_ended(p, p->use, p->open);
    }
    irpx_leave();
    return answer;
}
