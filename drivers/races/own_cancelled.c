/* own_cancelled.c: 1 preemption, NoIrp. A timer cancels the driver's own packet, which its completion routine frees; that
   cancels the timer, and doesn't look whether its call runs already. Time passes early before the routine cancels the
   timer, which counts as its preemption; the timer's call comes to its cancel, waits while the packet is on its way up,
   and finds it freed. */
#include "race.h"

typedef struct { PDEVICE_OBJECT Lower; PIRP Request, Own; KTIMER Timer; KDPC Dpc; LONG Left; } EXTENSION, *PEXTENSION;

static VOID LetGo(PEXTENSION Ext)
{
    if (InterlockedDecrement(&Ext->Left))
        return;
    IoFreeIrp(Ext->Own);
    Complete(Ext->Request, STATUS_SUCCESS, 0);
}

static VOID TooLong(PKDPC Dpc, PVOID Context, PVOID A, PVOID B)
{
    PEXTENSION ext = Context;
    UNREFERENCED_PARAMETER(Dpc), UNREFERENCED_PARAMETER(A), UNREFERENCED_PARAMETER(B);
    IoCancelIrp(ext->Own);
#ifdef RIGHT
    LetGo(ext);
#endif
}

static NTSTATUS OwnDone(PDEVICE_OBJECT DeviceObject, PIRP Irp, PVOID Context)
{
    PEXTENSION ext = Context;
    UNREFERENCED_PARAMETER(DeviceObject), UNREFERENCED_PARAMETER(Irp);
    const BOOLEAN was_set = KeCancelTimer(&ext->Timer);
#ifdef RIGHT
    if (was_set)
        LetGo(ext);
#else
    UNREFERENCED_PARAMETER(was_set); /* the fault: where it wasn't set, its call comes or runs */
#endif
    LetGo(ext);
    return STATUS_MORE_PROCESSING_REQUIRED;
}

static NTSTATUS Read(PDEVICE_OBJECT DeviceObject, PIRP Irp)
{
    PEXTENSION ext = DeviceObject->DeviceExtension;
    IoMarkIrpPending(Irp);
    ext->Request = Irp;
    ext->Own = IoAllocateIrp(ext->Lower->StackSize, FALSE);
#ifdef RIGHT
    ext->Left = 2;
#else
    ext->Left = 1;
#endif
    IoGetNextIrpStackLocation(ext->Own)->MajorFunction = IRP_MJ_READ;
    IoSetCompletionRoutine(ext->Own, OwnDone, ext, TRUE, TRUE, TRUE);
    KeSetTimer(&ext->Timer, Milliseconds(5), &ext->Dpc);
    IoCallDriver(ext->Lower, ext->Own);
    return STATUS_PENDING;
}

NTSTATUS DriverEntry(PDRIVER_OBJECT DriverObject, PUNICODE_STRING RegistryPath)
{
    UNREFERENCED_PARAMETER(RegistryPath);
    DriverObject->MajorFunction[IRP_MJ_READ] = Read;
    return STATUS_SUCCESS;
}

int main(void)
{
    PDRIVER_OBJECT driver = WdmLoadDriver("own_cancelled", DriverEntry);
    PDEVICE_OBJECT bottom = WdmCreateBottom(FALSE), top;
    IoCreateDevice(driver, sizeof(EXTENSION), NULL, FILE_DEVICE_UNKNOWN, 0, FALSE, &top);
    PEXTENSION ext = top->DeviceExtension;
    ext->Lower = IoAttachDeviceToDeviceStack(top, bottom);
    KeInitializeTimer(&ext->Timer);
    KeInitializeDpc(&ext->Dpc, TooLong, ext);
    WdmSend(top, IRP_MJ_READ, 0, 4);
    return WdmFinish();
}
