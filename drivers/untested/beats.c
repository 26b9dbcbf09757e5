/* beats.c: over any device. Whenever its timer goes off it sends a packet of its own down. Once the device is removed it frees
   that, and doesn't wait until it is back, which shows only where the driver below takes its time. Where RIGHT is defined it
   waits. */
#include <wdm.h>

typedef struct {
    PDEVICE_OBJECT Lower;
    PIRP Beat;
    KSPIN_LOCK Lock;
    BOOLEAN IsBusy, Stops;
    KEVENT Idle;
    KTIMER Timer;
    KDPC Dpc;
} EXTENSION, *PEXTENSION;

/* Under the lock. */
static VOID Arm(PEXTENSION Ext)
{
    const LARGE_INTEGER due = { .QuadPart = -10000 * 20 };
    KeSetTimer(&Ext->Timer, due, &Ext->Dpc);
}

static NTSTATUS BeatDone(PDEVICE_OBJECT DeviceObject, PIRP Irp, PVOID Context)
{
    PEXTENSION ext = Context;
    KIRQL irql;
    UNREFERENCED_PARAMETER(DeviceObject), UNREFERENCED_PARAMETER(Irp);
    KeAcquireSpinLock(&ext->Lock, &irql);
    ext->IsBusy = FALSE;
    if (!ext->Stops)
        Arm(ext);
    KeSetEvent(&ext->Idle, IO_NO_INCREMENT, FALSE);
    KeReleaseSpinLock(&ext->Lock, irql);
    return STATUS_MORE_PROCESSING_REQUIRED;
}

static VOID SendBeat(PKDPC Dpc, PVOID Context, PVOID One, PVOID Two)
{
    PEXTENSION ext = Context;
    UNREFERENCED_PARAMETER(Dpc), UNREFERENCED_PARAMETER(One), UNREFERENCED_PARAMETER(Two);
    KeAcquireSpinLockAtDpcLevel(&ext->Lock);
    const BOOLEAN sends = !ext->Stops && !ext->IsBusy;
    if (sends) {
        ext->IsBusy = TRUE;
        KeClearEvent(&ext->Idle);
    }
    KeReleaseSpinLockFromDpcLevel(&ext->Lock);
    if (!sends)
        return;
    IoReuseIrp(ext->Beat, STATUS_SUCCESS);
    IoGetNextIrpStackLocation(ext->Beat)->MajorFunction = IRP_MJ_FLUSH_BUFFERS;
    IoSetCompletionRoutine(ext->Beat, BeatDone, ext, TRUE, TRUE, TRUE);
    IoCallDriver(ext->Lower, ext->Beat);
}

static VOID Start(PEXTENSION Ext)
{
    KIRQL irql;
    if (Ext->Beat == NULL)
        Ext->Beat = IoAllocateIrp(Ext->Lower->StackSize, FALSE);
    KeAcquireSpinLock(&Ext->Lock, &irql);
    Ext->Stops = FALSE;
    if (Ext->Beat)
        Arm(Ext);
    KeReleaseSpinLock(&Ext->Lock, irql);
}

static VOID Stop(PEXTENSION Ext)
{
    KIRQL irql;
    KeAcquireSpinLock(&Ext->Lock, &irql);
    Ext->Stops = TRUE;
    KeReleaseSpinLock(&Ext->Lock, irql);
    KeCancelTimer(&Ext->Timer);
    KeFlushQueuedDpcs();
#ifdef RIGHT
    KeWaitForSingleObject(&Ext->Idle, Executive, KernelMode, FALSE, NULL);
    KeAcquireSpinLock(&Ext->Lock, &irql); /* its routine is out then */
    KeReleaseSpinLock(&Ext->Lock, irql);
#endif
}

static NTSTATUS Pass(PDEVICE_OBJECT DeviceObject, PIRP Irp)
{
    IoSkipCurrentIrpStackLocation(Irp);
    return IoCallDriver(((PEXTENSION)DeviceObject->DeviceExtension)->Lower, Irp);
}

static NTSTATUS StartDevice(PEXTENSION Ext, PIRP Irp)
{
    IoForwardIrpSynchronously(Ext->Lower, Irp);
    const NTSTATUS status = Irp->IoStatus.Status;
    if (NT_SUCCESS(status))
        Start(Ext);
    IoCompleteRequest(Irp, IO_NO_INCREMENT);
    return status;
}

static NTSTATUS Pnp(PDEVICE_OBJECT DeviceObject, PIRP Irp)
{
    PEXTENSION ext = DeviceObject->DeviceExtension;
    const UCHAR minor = IoGetCurrentIrpStackLocation(Irp)->MinorFunction;
    const BOOLEAN goes = minor == IRP_MN_REMOVE_DEVICE;
    if (minor == IRP_MN_START_DEVICE)
        return StartDevice(ext, Irp);
    if (goes || minor == IRP_MN_STOP_DEVICE || minor == IRP_MN_SURPRISE_REMOVAL) {
        Stop(ext);
        Irp->IoStatus.Status = STATUS_SUCCESS;
    }
    if (goes && ext->Beat)
        IoFreeIrp(ext->Beat); /* told: InFlight */
    const NTSTATUS status = Pass(DeviceObject, Irp);
    if (goes) {
        IoDetachDevice(ext->Lower);
        IoDeleteDevice(DeviceObject);
    }
    return status;
}

static NTSTATUS AddDevice(PDRIVER_OBJECT DriverObject, PDEVICE_OBJECT Pdo)
{
    PDEVICE_OBJECT device;
    const NTSTATUS status = IoCreateDevice(DriverObject, sizeof(EXTENSION), NULL, FILE_DEVICE_UNKNOWN, 0, FALSE, &device);
    if (!NT_SUCCESS(status))
        return status;
    PEXTENSION ext = device->DeviceExtension;
    KeInitializeSpinLock(&ext->Lock);
    KeInitializeEvent(&ext->Idle, NotificationEvent, TRUE);
    KeInitializeTimer(&ext->Timer);
    KeInitializeDpc(&ext->Dpc, SendBeat, ext);
    ext->Lower = IoAttachDeviceToDeviceStack(device, Pdo);
    device->Flags |= ext->Lower->Flags & (DO_BUFFERED_IO | DO_DIRECT_IO | DO_POWER_PAGABLE);
    device->Flags &= ~(ULONG)DO_DEVICE_INITIALIZING;
    return STATUS_SUCCESS;
}

static VOID Unload(PDRIVER_OBJECT DriverObject) { UNREFERENCED_PARAMETER(DriverObject); }

NTSTATUS DriverEntry(PDRIVER_OBJECT DriverObject, PUNICODE_STRING RegistryPath)
{
    UNREFERENCED_PARAMETER(RegistryPath);
    for (int i = 0; i <= IRP_MJ_MAXIMUM_FUNCTION; i++)
        DriverObject->MajorFunction[i] = Pass;
    DriverObject->MajorFunction[IRP_MJ_PNP] = Pnp;
    DriverObject->DriverExtension->AddDevice = AddDevice;
    DriverObject->DriverUnload = Unload;
    return STATUS_SUCCESS;
}
