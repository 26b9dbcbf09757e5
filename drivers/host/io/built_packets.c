/* built_packets.c: packets that the I/O manager and the power manager make for a driver, and free at their end. */
#include "explore/explore.h"
#include "ke/ke.h"
#include "mm/mm.h"
#include "pnp/pnp.h"

typedef struct {
    PREQUEST_POWER_COMPLETE complete;
    PVOID context;
    PDEVICE_OBJECT device;
    UCHAR minor;
    POWER_STATE state;
} Wish;
static const WDM_SITE nowhere;

/* At its end the packet's buffer is copied to where its builder wants what was read: at most `room` bytes. */
static void write_back(PIRP irp, PVOID to, ULONG room)
{
    Call c;
    irp->UserBuffer = to;
    enter_host(&c, "IoBuild", nowhere);
    Packet *p = find(irp);
    p->buffer.writes_back = true;
    irp->RequestorMode = KernelMode; /* a driver's */
    irp->Flags &= (ULONG)(IRP_BUFFERED_IO | IRP_DEALLOCATE_BUFFER | IRP_INPUT_OPERATION);
    p->built.is_threaded = irp->UserEvent != NULL;
    p->buffer.room = room;
    leave_host();
}

PIRP WdmBuildControl(ULONG Code, PDEVICE_OBJECT Device, PVOID In, ULONG InLength, PVOID Out, ULONG OutLength,
                     BOOLEAN Internal, PKEVENT Event, PIO_STATUS_BLOCK Iosb, WDM_SITE at)
{
    const UCHAR major = Internal ? IRP_MJ_INTERNAL_DEVICE_CONTROL : IRP_MJ_DEVICE_CONTROL;
    PIRP irp = WdmBuild(Device, major, 0, InLength > OutLength ? InLength : OutLength, Iosb, Event, at);
    if (!irp)
        return NULL;
    PIO_STACK_LOCATION next = WdmIoGetNextIrpStackLocation(irp, at);
    next->FileObject = irp->Tail.Overlay.OriginalFileObject = NULL; /* as Windows has it: nobody opened a file */
    next->Parameters.DeviceIoControl.IoControlCode = Code;
    next->Parameters.DeviceIoControl.InputBufferLength = InLength;
    next->Parameters.DeviceIoControl.OutputBufferLength = OutLength;
    if (METHOD_FROM_CTL_CODE(Code) == METHOD_NEITHER)
        next->Parameters.DeviceIoControl.Type3InputBuffer = In;
    else if (In && irp->AssociatedIrp.SystemBuffer)
        memcpy(irp->AssociatedIrp.SystemBuffer, In, InLength);
    write_back(irp, Out, METHOD_FROM_CTL_CODE(Code) == METHOD_NEITHER ? 0 : OutLength);
    return irp;
}

/* The I/O manager locks the caller's own buffer: what is read for a device of direct I/O is there at once. */
static void describe(PMDL mdl, PVOID buffer, ULONG length)
{
    Call c;
    enter_host(&c, "IoBuild", nowhere);
    MmInitializeMdl(mdl, buffer, length);
    mdl->MdlFlags |= MDL_PAGES_LOCKED;
    lock_block(buffer, 1);
    leave_host();
}

PIRP WdmBuildFsd(ULONG Major, PDEVICE_OBJECT Device, PVOID Buffer, ULONG Length, PLARGE_INTEGER Offset, PKEVENT Event,
                 PIO_STATUS_BLOCK Iosb, WDM_SITE at)
{
    PIRP irp = WdmBuild(Device, (UCHAR)Major, 0, Length, Iosb, Event, at);
    if (!irp)
        return NULL;
    WdmIoGetNextIrpStackLocation(irp, at)->FileObject = irp->Tail.Overlay.OriginalFileObject = NULL;
    if (Offset)
        WdmIoGetNextIrpStackLocation(irp, at)->Parameters.Read.ByteOffset = *Offset;
    if (Buffer && irp->MdlAddress)
        describe(irp->MdlAddress, Buffer, Length);
    else if (Buffer && Major == IRP_MJ_WRITE && irp->AssociatedIrp.SystemBuffer)
        memcpy(irp->AssociatedIrp.SystemBuffer, Buffer, Length);
    write_back(irp, Buffer, Major == IRP_MJ_READ && !(Buffer && irp->MdlAddress) ? Length : 0);
    return irp;
}

/* No event: its builder's own routine keeps it and frees it, with IoFreeIrp, and before that its MDL or system buffer. */
PIRP WdmBuildAsynchronousFsd(ULONG Major, PDEVICE_OBJECT Device, PVOID Buffer, ULONG Length, PLARGE_INTEGER Offset,
                             PIO_STATUS_BLOCK Iosb, WDM_SITE at)
{
    PIRP irp = WdmBuildFsd(Major, Device, Buffer, Length, Offset, NULL, Iosb, at);
    if (irp) {
        Call c;
        enter_host(&c, "IoBuildAsynchronousFsdRequest", at);
        lend_buffers(find(irp), Buffer, Length, Major == IRP_MJ_READ);
        leave_host();
    }
    return irp;
}

/* The power packet is up: its asker is called, and it is freed. */
static NTSTATUS power_done(PDEVICE_OBJECT Device, PIRP Irp, PVOID Context)
{
    Wish *w = Context;
    IO_STATUS_BLOCK iosb = Irp->IoStatus;
    (void)Device;
    WdmIoFreeIrp(Irp, nowhere);
    if (w->complete)
        w->complete(w->device, w->minor, w->state, w->context, &iosb);
    free_host_memory(w);
    return STATUS_MORE_PROCESSING_REQUIRED;
}

NTSTATUS WdmPoRequestPowerIrp(PDEVICE_OBJECT Device, UCHAR Minor, POWER_STATE State, PREQUEST_POWER_COMPLETE Complete,
                              PVOID Context, PIRP *Out, WDM_SITE at)
{
    Call c;
    enter_host(&c, "PoRequestPowerIrp", at);
    leave_host();
    PDEVICE_OBJECT top = IoGetAttachedDevice(Device);
    Wish *w = host_memory(sizeof *w);
    PIRP irp = w ? WdmBuild(top, IRP_MJ_POWER, Minor, 0, NULL, NULL, at) : NULL;
    if (!irp) {
        free_host_memory(w);
        return STATUS_INSUFFICIENT_RESOURCES;
    }
    *w = (Wish){ Complete, Context, Device, Minor, State };
    PIO_STACK_LOCATION next = WdmIoGetNextIrpStackLocation(irp, at);
    next->Parameters.Power.Type = DevicePowerState;
    next->Parameters.Power.State = State;
    if (Out)
        *Out = irp;
    WdmIoSetCompletionRoutine(irp, power_done, w, SL_INVOKE_ON_SUCCESS | SL_INVOKE_ON_ERROR | SL_INVOKE_ON_CANCEL, at);
    if (self.irql > APC_LEVEL && top->Flags & DO_POWER_PAGABLE)
        send_at_passive_level(top, irp, at);
    else
        WdmIoCallDriver(top, irp, at);
    return STATUS_PENDING;
}
