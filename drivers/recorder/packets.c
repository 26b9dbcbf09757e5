/* packets.c: what is known of each packet; allocating, freeing, reusing one; a look at its memory. */
#include "recording.h"

PIO_STACK_LOCATION irpx_at(PIRP irp, int j) { return (PIO_STACK_LOCATION)(irp + 1) + (j - 1); }

IrpxPacket *irpx_find(PIRP irp)
{
    for (unsigned i = irpx.n_packets; i > 0; i--)
        if (irpx.packets[i - 1]->irp == irp)
            return irpx.packets[i - 1];
    return NULL;
}

/* A new use begins: all but the slot is as of a new packet. The entry's reply names it. */
void irpx_renew(IrpxPacket *p, IrpxEntry *e)
{
    const IrpxPacket was = { .irp = p->irp, .slot = p->slot, .size = p->size, .allocator = p->allocator };
    memset(p, 0, sizeof *p);
    p->irp = was.irp;
    p->slot = was.slot;
    p->size = was.size;
    p->allocator = was.allocator;
    p->owner = p->last = IRPX_ORIGINATOR;
    p->use = irpx.next_use++;
    p->status = e->status;
    e->slot = p->slot;
    irpx_answer(e, IRPX_IRP_REF, p->use);
}

void irpx_free(IrpxPacket *p)
{
    if (p->open && !p->asking)
        irpx_ended(p, p->use, p->open);
    irpx_answer(irpx_begin(IRPX_FREED, p, IRPX_ORIGINATOR), IRPX_DONE, 0);
    p->gone = p->irp;
    p->irp = NULL;
}

/* A free slot; else a new one; else that of a packet that has ended, which the manager frees without telling. */
static IrpxPacket *free_slot(void)
{
    for (unsigned i = 0; i < irpx.n_packets; i++)
        if (!irpx.packets[i]->irp)
            return irpx.packets[i];
    if (irpx.n_packets < IRPX_LIVE) {
        IrpxPacket *p = irpx_take(sizeof *p);
        if (p) {
            p->slot = irpx.n_packets;
            irpx.packets[irpx.n_packets++] = p;
            return p;
        }
    }
    for (unsigned i = 0; i < irpx.n_packets; i++)
        if (irpx.packets[i]->owner == IRPX_ENDED) {
            irpx_free(irpx.packets[i]);
            return irpx.packets[i];
        }
    return NULL;
}

/* A packet that is seen first now. One that stood at its address was freed by the manager; that is told only here. */
IrpxPacket *irpx_new(PIRP irp, int size, int allocator)
{
    static IrpxPacket nowhere;
    IrpxPacket *p = irpx_find(irp);
    if (p)
        irpx_free(p);
    else
        p = free_slot();
    if (!p) {
        irpx_lose();
        p = &nowhere;
    }
    p->irp = irp;
    p->size = size < IRPX_SIZE ? size : IRPX_SIZE;
    p->allocator = allocator;
    IrpxEntry *e = irpx_begin(IRPX_ALLOCATE, NULL, IRPX_ORIGINATOR);
    e->other = size;
    irpx_renew(p, e);
    return p;
}

/* One that isn't known was made by code without the recorder, which may have filled its top location. */
IrpxPacket *irpx_packet(PIRP irp, const char *file)
{
    IrpxPacket *p = irpx_find(irp);
    if (!p) {
        p = irpx_new(irp, irp->CurrentLocation - 1, irpx_calling_driver(file));
        p->foreign = p->touched = TRUE;
    }
    return p;
}

/* One that was freed is told under its old name. */
IrpxPacket *irpx_old(PIRP irp, const char *file)
{
    IrpxPacket *p = irpx_find(irp);
    for (unsigned i = 0; i < irpx.n_packets && !p; i++)
        if (!irpx.packets[i]->irp && irpx.packets[i]->gone == irp) {
            p = irpx.packets[i];
            p->irp = irp;
        }
    return p ? p : irpx_packet(irp, file);
}

void irpx_prepare_nothing(IrpxPacket *p)
{
    p->prepared = IRPX_NOTHING;
    p->touched = p->copied = p->skipped = FALSE;
    p->want = NULL;
}

/* The location below is a copy of this one, with that routine. */
void irpx_fill_below(IrpxPacket *p, int from, IrpxSetting *set)
{
    p->at[from - 1] = (IrpxLocation){ p->at[from].major, p->at[from].word, set, NULL };
}

/* The manager has returned. Where nobody decided to keep the packet, it has ended. */
void irpx_ended(IrpxPacket *p, uint64_t use, IrpxEntry *e)
{
    if (p->use == use && p->open == e) {
        p->open = NULL;
        p->rising = FALSE;
        p->owner = IRPX_ENDED;
    }
    irpx_seal(e);
}

/* What the packet's own memory says. The status is the record's: the owner may have written the raw one since. */
void irpx_look(IrpxPacket *p)
{
    PIRP irp = p->irp;
    if (!irpx_options.looks || !irp || p->owner == IRPX_ENDED || p->open || p->canceller || p->ghost)
        return;
    IrpxEntry *e = irpx_begin(IRPX_LOOK, p, p->owner);
    e->other = irp->CurrentLocation;
    e->status = p->status;
    e->information = p->information;
    e->routine = irp->CancelRoutine ? p->cancel : NULL;
    e->returned = irp->PendingReturned;
    e->marked = e->other > 0 && e->other <= p->size && (irpx_at(irp, e->other)->Control & SL_PENDING_RETURNED);
    irpx_answer(e, IRPX_SEEN, (uint64_t)(irp->Cancel != 0));
}

PIRP IrpxAllocateIrp(CCHAR Size, BOOLEAN Quota, const char *File)
{
    PIRP irp = IoAllocateIrp(Size, Quota);
    if (irp) {
        irpx_enter();
        irpx_new(irp, Size, irpx_calling_driver(File));
        irpx_leave();
    }
    return irp;
}

VOID IrpxFreeIrp(PIRP Irp)
{
    irpx_enter();
    IrpxPacket *p = irpx_old(Irp, NULL);
    irpx_settle(p);
    irpx_free(p);
    irpx_leave();
    IoFreeIrp(Irp);
}

VOID IrpxReuseIrp(PIRP Irp, NTSTATUS Status)
{
    irpx_enter();
    IrpxPacket *p = irpx_packet(Irp, NULL);
    irpx_settle(p);
    if (p->open && !p->asking)
        irpx_ended(p, p->use, p->open);
    IrpxEntry *e = irpx_begin(IRPX_REUSE, p, IRPX_ORIGINATOR);
    e->status = (ULONG)Status;
    irpx_renew(p, e);
    irpx_leave();
    IoReuseIrp(Irp, Status);
}

/* The manager has filled the top location; what stood at this address before has been freed. */
static PIRP built(PIRP irp, const char *file)
{
    if (!irp)
        return NULL;
    irpx_enter();
    IrpxPacket *p = irpx_new(irp, irp->CurrentLocation - 1, irpx_calling_driver(file));
    p->foreign = p->touched = TRUE;
    irpx_leave();
    return irp;
}

PIRP IrpxBuildControl(ULONG Code, PDEVICE_OBJECT Device, PVOID In, ULONG InLength, PVOID Out, ULONG OutLength,
                      BOOLEAN Internal, PKEVENT Event, PIO_STATUS_BLOCK Status, const char *File)
{
    return built(IoBuildDeviceIoControlRequest(Code, Device, In, InLength, Out, OutLength, Internal, Event, Status), File);
}

PIRP IrpxBuildSynchronous(ULONG Major, PDEVICE_OBJECT Device, PVOID Buffer, ULONG Length, PLARGE_INTEGER Offset,
                          PKEVENT Event, PIO_STATUS_BLOCK Status, const char *File)
{
    return built(IoBuildSynchronousFsdRequest(Major, Device, Buffer, Length, Offset, Event, Status), File);
}

PIRP IrpxBuildAsynchronous(ULONG Major, PDEVICE_OBJECT Device, PVOID Buffer, ULONG Length, PLARGE_INTEGER Offset,
                           PIO_STATUS_BLOCK Status, const char *File)
{
    return built(IoBuildAsynchronousFsdRequest(Major, Device, Buffer, Length, Offset, Status), File);
}
