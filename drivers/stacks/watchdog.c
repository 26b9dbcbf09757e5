/* watchdog.c: a driver that sends a packet of its own for each request, and cancels it by a timer where the device
   below takes too long. Whoever comes last, the timer's call or the routine, frees the packet and completes the
   request. */
#include "common.h"

typedef struct { PDEVICE_OBJECT Self, Lower; } EXTENSION, *PEXTENSION;
typedef struct { PIRP Request, Own; KTIMER Timer; KDPC Dpc; LONG Left; NTSTATUS Status; ULONG_PTR Information; } WATCH;

static VOID LetGo(WATCH *w)
{
    if (InterlockedDecrement(&w->Left))
        return;
    IoFreeIrp(w->Own);
    Complete(w->Request, w->Status, w->Information);
    ExFreePool(w);
}

static VOID TooLong(PKDPC Dpc, PVOID Context, PVOID A, PVOID B)
{
    WATCH *w = Context;
    UNREFERENCED_PARAMETER(Dpc), UNREFERENCED_PARAMETER(A), UNREFERENCED_PARAMETER(B);
    IoCancelIrp(w->Own);
    LetGo(w);
}

static NTSTATUS OwnDone(PDEVICE_OBJECT DeviceObject, PIRP Irp, PVOID Context)
{
    WATCH *w = Context;
    UNREFERENCED_PARAMETER(DeviceObject);
    w->Status = Irp->IoStatus.Status;
    w->Information = Irp->IoStatus.Information;
    if (KeCancelTimer(&w->Timer))
        LetGo(w); /* its call won't come */
    LetGo(w);
    return STATUS_MORE_PROCESSING_REQUIRED;
}

static NTSTATUS Read(PDEVICE_OBJECT DeviceObject, PIRP Irp)
{
    PEXTENSION ext = DeviceObject->DeviceExtension;
    PIO_STACK_LOCATION stack = IoGetCurrentIrpStackLocation(Irp), next;
    WATCH *w = ExAllocatePool2(POOL_FLAG_NON_PAGED, sizeof *w, 'hctW');
    PIRP own = IoAllocateIrp(ext->Lower->StackSize, FALSE);
    if (!w || !own)
        return Complete(Irp, STATUS_INSUFFICIENT_RESOURCES, 0);
    w->Request = Irp;
    w->Own = own;
    w->Left = 2;
    KeInitializeTimer(&w->Timer);
    KeInitializeDpc(&w->Dpc, TooLong, w);
    IoMarkIrpPending(Irp);
    next = IoGetNextIrpStackLocation(own);
    next->MajorFunction = IRP_MJ_READ;
    next->Parameters.Read.Length = stack->Parameters.Read.Length;
    IoSetCompletionRoutine(own, OwnDone, w, TRUE, TRUE, TRUE);
    KeSetTimer(&w->Timer, Milliseconds(1), &w->Dpc);
    IoCallDriver(ext->Lower, own);
    return STATUS_PENDING;
}

static NTSTATUS AddDevice(PDRIVER_OBJECT DriverObject, PDEVICE_OBJECT Pdo)
{
    PDEVICE_OBJECT device;
    NTSTATUS status = IoCreateDevice(DriverObject, sizeof(EXTENSION), NULL, FILE_DEVICE_UNKNOWN, 0, FALSE, &device);
    if (!NT_SUCCESS(status))
        return status;
    ((PEXTENSION)device->DeviceExtension)->Lower = IoAttachDeviceToDeviceStack(device, Pdo);
    device->Flags &= ~(ULONG)DO_DEVICE_INITIALIZING;
    return STATUS_SUCCESS;
}

NTSTATUS DriverEntry(PDRIVER_OBJECT DriverObject, PUNICODE_STRING RegistryPath)
{
    UNREFERENCED_PARAMETER(RegistryPath);
    DriverObject->MajorFunction[IRP_MJ_READ] = Read;
    return STATUS_SUCCESS;
}

int main(void)
{
    PDRIVER_OBJECT driver = WdmLoadDriver("watchdog", DriverEntry);
    PDEVICE_OBJECT bottom = WdmCreateBottom(TRUE), top;
    AddDevice(driver, bottom);
    top = IoGetAttachedDevice(bottom);
    for (ULONG i = 0; i < WdmRounds(20); i++) {
        REQUEST r;
        Start(&r, top, IRP_MJ_READ, i);
        Finish(&r);
    }
    return WdmFinish();
}
