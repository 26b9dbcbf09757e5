/* own_packets.c: what a driver may do with packets of its own: a location of its own, whose device its routine gets; an
   asynchronous packet whose MDL or system buffer it frees; a cancel routine before any send; a location by hand. WRONG=1 frees
   the packet with the pages of its MDL still locked, WRONG=2 sends one with a cancel routine, WRONG=3 completes one whose routine
   doesn't keep it, WRONG=4 one whose routine isn't for what it is completed with, WRONG=5 looks at another flag to see whether the
   system buffer is its own. */
#include "filter.h"

typedef struct { PDEVICE_OBJECT Owner; KEVENT Done; UCHAR Data[16]; } COPY;
static LONG cancels;

static VOID FreeBuffers(PIRP Own)
{
    PMDL mdl = Own->MdlAddress;
    if (mdl) {
        if (WRONG != 1)
            MmUnlockPages(mdl);
        IoFreeMdl(mdl); /* told 1: MdlLocked */
        Own->MdlAddress = NULL;
    } else if (Own->AssociatedIrp.SystemBuffer && (Own->Flags & (WRONG == 5 ? IRP_PAGING_IO : IRP_DEALLOCATE_BUFFER)))
        ExFreePool(Own->AssociatedIrp.SystemBuffer);
}

static NTSTATUS CopyDone(PDEVICE_OBJECT DeviceObject, PIRP Own, PVOID Context)
{
    COPY *copy = Context;
    UNREFERENCED_PARAMETER(DeviceObject);
    FreeBuffers(Own);
    IoFreeIrp(Own);
    KeSetEvent(&copy->Done, IO_NO_INCREMENT, FALSE);
    return STATUS_MORE_PROCESSING_REQUIRED;
}

static NTSTATUS OwnDone(PDEVICE_OBJECT DeviceObject, PIRP Own, PVOID Context)
{
    COPY *copy = Context;
    WDM_CHECK(DeviceObject == copy->Owner);
    WDM_CHECK(IoGetCurrentIrpStackLocation(Own)->Parameters.Others.Argument1 == copy);
    if (Own->PendingReturned)
        IoMarkIrpPending(Own);
    KeSetEvent(&copy->Done, IO_NO_INCREMENT, FALSE);
    return STATUS_MORE_PROCESSING_REQUIRED;
}

static NTSTATUS KeepOwn(PDEVICE_OBJECT DeviceObject, PIRP Own, PVOID Context)
{
    UNREFERENCED_PARAMETER(DeviceObject), UNREFERENCED_PARAMETER(Own);
    ++*(LONG *)Context;
    return WRONG == 3 ? STATUS_CONTINUE_COMPLETION : STATUS_MORE_PROCESSING_REQUIRED;
}

static VOID CancelOwn(PDEVICE_OBJECT DeviceObject, PIRP Own)
{
    UNREFERENCED_PARAMETER(DeviceObject);
    IoReleaseCancelSpinLock(Own->CancelIrql);
    WDM_CHECK(Own->Cancel && !Own->CancelRoutine);
    cancels++;
}

/* A packet that is never sent: it is cancelled, and completed by hand. */
static VOID PlayWithOwn(VOID)
{
    LONG kept = 0;
    PIRP own = IoAllocateIrp(1, FALSE);
    if (!own)
        return;
    IoSetCancelRoutine(own, CancelOwn);
    WDM_CHECK(IoCancelIrp(own) && own->Cancel);
    IoReuseIrp(own, STATUS_SUCCESS);
    IoSetCompletionRoutine(own, KeepOwn, &kept, WRONG != 4, TRUE, TRUE);
    --own->CurrentLocation;
    --own->Tail.Overlay.CurrentStackLocation;
    IoCompleteRequest(own, IO_NO_INCREMENT); /* told 3: NotKept */ /* told 4: NotKept */
    WDM_CHECK(kept == 1 && own->CurrentLocation == 2);
    IoFreeIrp(own);
}

static NTSTATUS Copy(PDEVICE_OBJECT DeviceObject, COPY *Made)
{
    LARGE_INTEGER offset = { .QuadPart = 0 };
    PIRP own = IoBuildAsynchronousFsdRequest(IRP_MJ_WRITE, LowerOf(DeviceObject), Made->Data, sizeof Made->Data, &offset, NULL); /* told 5: PoolLeak */
    if (!own)
        return STATUS_INSUFFICIENT_RESOURCES;
    KeInitializeEvent(&Made->Done, NotificationEvent, FALSE);
    IoSetCompletionRoutine(own, CopyDone, Made, TRUE, TRUE, TRUE);
    IoCallDriver(LowerOf(DeviceObject), own);
    KeWaitForSingleObject(&Made->Done, Executive, KernelMode, FALSE, NULL);
    return STATUS_SUCCESS;
}

static NTSTATUS SendOwn(PDEVICE_OBJECT DeviceObject, COPY *Made)
{
    PIRP own = IoAllocateIrp((CCHAR)(LowerOf(DeviceObject)->StackSize + 1), FALSE);
    if (!own)
        return STATUS_INSUFFICIENT_RESOURCES;
    IoSetNextIrpStackLocation(own);
    IoGetCurrentIrpStackLocation(own)->DeviceObject = DeviceObject;
    IoGetCurrentIrpStackLocation(own)->Parameters.Others.Argument1 = Made;
    Made->Owner = DeviceObject;
    KeInitializeEvent(&Made->Done, NotificationEvent, FALSE);
    IoGetNextIrpStackLocation(own)->MajorFunction = IRP_MJ_FLUSH_BUFFERS;
    IoSetCompletionRoutine(own, OwnDone, Made, TRUE, TRUE, TRUE);
    if (WRONG == 2)
        IoSetCancelRoutine(own, CancelOwn);
    IoCallDriver(LowerOf(DeviceObject), own); /* told 2: CancelRoutineSet */
    KeWaitForSingleObject(&Made->Done, Executive, KernelMode, FALSE, NULL);
    IoFreeIrp(own);
    return STATUS_SUCCESS;
}

static NTSTATUS Read(PDEVICE_OBJECT DeviceObject, PIRP Irp)
{
    COPY copy = { 0 }, own = { 0 };
    NTSTATUS status = Copy(DeviceObject, &copy);
    if (NT_SUCCESS(status))
        status = SendOwn(DeviceObject, &own);
    PlayWithOwn();
    return Complete(Irp, status, 0);
}

static VOID RunOver(ULONG LowerFlags)
{
    PDEVICE_OBJECT pdo = WdmCreateBottomOf(WDM_BOTTOM_LATE);
    pdo->Flags = (pdo->Flags & ~(ULONG)(DO_BUFFERED_IO | DO_DIRECT_IO)) | LowerFlags;
    PDRIVER_OBJECT filter = WdmLoadDriver("filter", FilterEntry);
    WdmAddDevice(filter, pdo);
    WdmPlugIn(pdo);
    WDM_CHECK(WdmSend(IoGetAttachedDevice(pdo), IRP_MJ_READ, 0, 16) == STATUS_SUCCESS);
    WdmUnplug(pdo, FALSE);
    WdmUnloadDriver(filter);
}

int main(void)
{
    RunOver(DO_DIRECT_IO);
    RunOver(DO_BUFFERED_IO);
    WDM_CHECK(cancels == 2);
    return WdmFinish();
}
