/* clock.c: a driver in the style of the last ten years: an Ex timer times requests out, their records come from a lookaside
   list with routines of its own, an interrupt of the device's line completes them, and readers share a spin lock. WRONG=N makes
   it wrong, at the line that says what is told. */
#include "common.h"

#ifndef WRONG
#define WRONG 0
#endif
typedef struct { LIST_ENTRY Entry; PIRP Irp; } RECORD;
typedef struct {
    PDEVICE_OBJECT Self, Lower, Pdo;
    PKINTERRUPT Interrupt;
    ULONG Version; /* of the connection */
    PEX_TIMER Timer;
    LOOKASIDE_LIST_EX Records;
    EX_SPIN_LOCK Settings;
    ULONG Limit; /* milliseconds until a read is timed out; guarded by Settings */
    EX_PUSH_LOCK Control;
    KSPIN_LOCK Lock;
    LIST_ENTRY Waiting; /* guarded by Lock */
    KDPC Dpc;
    LONG Allocated;
} EXTENSION, *PEXTENSION;

static PVOID AllocateRecord(POOL_TYPE Type, SIZE_T Bytes, ULONG Tag, PLOOKASIDE_LIST_EX List)
{
    PEXTENSION ext = CONTAINING_RECORD(List, EXTENSION, Records);
    UNREFERENCED_PARAMETER(Type);
    InterlockedIncrement(&ext->Allocated);
    return ExAllocatePool2(POOL_FLAG_NON_PAGED, Bytes, Tag);
}

static VOID FreeRecord(PVOID Block, PLOOKASIDE_LIST_EX List)
{
    PEXTENSION ext = CONTAINING_RECORD(List, EXTENSION, Records);
    InterlockedDecrement(&ext->Allocated);
    ExFreePool(Block);
}

/* Completes the oldest read, or all of them. */
static VOID CompleteWaiting(PEXTENSION ext, NTSTATUS Status, BOOLEAN All)
{
    for (;;) {
        KIRQL irql;
        KeAcquireSpinLock(&ext->Lock, &irql); /* told 8, by --every-order: UsedInFreedMemory */
        RECORD *record = IsListEmpty(&ext->Waiting) ? NULL : CONTAINING_RECORD(RemoveHeadList(&ext->Waiting), RECORD, Entry);
        KeReleaseSpinLock(&ext->Lock, irql);
        if (!record)
            return;
        Complete(record->Irp, Status, NT_SUCCESS(Status) ? 4 : 0);
        ExFreeToLookasideListEx(&ext->Records, record);
        if (!All)
            return;
    }
}

static VOID TimedOut(PEX_TIMER Timer, PVOID Context)
{
    PEXTENSION ext = Context;
    UNREFERENCED_PARAMETER(Timer);
    CompleteWaiting(ext, STATUS_IO_TIMEOUT, TRUE);
    if (WRONG == 1) {
        ExDeleteTimer(ext->Timer, TRUE, TRUE, NULL); /* told 1: IrqlTooHigh */
        ext->Timer = NULL;
    }
}

static BOOLEAN Serve(PKINTERRUPT Interrupt, PVOID Context)
{
    PEXTENSION ext = Context;
    UNREFERENCED_PARAMETER(Interrupt);
    KeInsertQueueDpc(&ext->Dpc, NULL, NULL);
    return TRUE;
}

static VOID Served(PKDPC Dpc, PVOID Context, PVOID A, PVOID B)
{
    UNREFERENCED_PARAMETER(Dpc), UNREFERENCED_PARAMETER(A), UNREFERENCED_PARAMETER(B);
    CompleteWaiting(Context, STATUS_SUCCESS, FALSE);
}

static NTSTATUS Read(PDEVICE_OBJECT DeviceObject, PIRP Irp)
{
    PEXTENSION ext = DeviceObject->DeviceExtension;
    KIRQL irql;
    RECORD *record = ExAllocateFromLookasideListEx(&ext->Records);
    if (!record)
        return Complete(Irp, STATUS_INSUFFICIENT_RESOURCES, 0);
    record->Irp = Irp;
    IoMarkIrpPending(Irp);
    irql = ExAcquireSpinLockShared(&ext->Settings);
    const LONGLONG limit = ext->Limit;
    if (WRONG == 2)
        ExReleaseSpinLockExclusive(&ext->Settings, irql); /* told 2: WrongMode */
    else
        ExReleaseSpinLockShared(&ext->Settings, irql);
    KeAcquireSpinLock(&ext->Lock, &irql);
    InsertTailList(&ext->Waiting, &record->Entry);
    ExSetTimer(ext->Timer, -10000 * limit, 0, NULL);
    KeReleaseSpinLock(&ext->Lock, irql);
    return STATUS_PENDING;
}

static NTSTATUS Control(PDEVICE_OBJECT DeviceObject, PIRP Irp)
{
    PEXTENSION ext = DeviceObject->DeviceExtension;
    if (WRONG != 3)
        KeEnterCriticalRegion();
    ExAcquirePushLockExclusive(&ext->Control); /* told 3: CriticalRegion */
    KIRQL irql = ExAcquireSpinLockExclusive(&ext->Settings);
    ext->Limit = *(PULONG)Irp->AssociatedIrp.SystemBuffer;
    ExReleaseSpinLockExclusive(&ext->Settings, irql);
    ExReleasePushLockExclusive(&ext->Control);
    if (WRONG != 3)
        KeLeaveCriticalRegion();
    return Complete(Irp, STATUS_SUCCESS, 0);
}

static NTSTATUS Connect(PEXTENSION ext)
{
    IO_CONNECT_INTERRUPT_PARAMETERS parameters = { .Version = CONNECT_MESSAGE_BASED };
    parameters.MessageBased.PhysicalDeviceObject = ext->Pdo;
    parameters.MessageBased.ConnectionContext.InterruptObject = &ext->Interrupt;
    parameters.MessageBased.FallBackServiceRoutine = Serve;
    parameters.MessageBased.ServiceContext = ext;
    NTSTATUS status = IoConnectInterruptEx(&parameters); /* told 4: LeftBehind */
    ext->Version = parameters.Version; /* what it has become */
    return status;
}

static VOID Disconnect(PEXTENSION ext)
{
    IO_DISCONNECT_INTERRUPT_PARAMETERS parameters = { .Version = ext->Version };
    if (WRONG == 5)
        parameters.Version = CONNECT_MESSAGE_BASED;
    parameters.ConnectionContext.InterruptObject = ext->Interrupt;
    if (ext->Interrupt && WRONG != 4)
        IoDisconnectInterruptEx(&parameters); /* told 5: DisconnectVersion */
    ext->Interrupt = NULL;
}

static VOID Remove(PEXTENSION ext)
{
    Disconnect(ext);
    KeFlushQueuedDpcs();
    if (WRONG == 7) {
        ExDeleteTimer(ext->Timer, TRUE, FALSE, NULL);
        ExSetTimer(ext->Timer, -10000, 0, NULL); /* told 7: UsedInFreedMemory */
    } else {
        ExDeleteTimer(ext->Timer, TRUE, WRONG != 8, NULL);
    }
    CompleteWaiting(ext, STATUS_DEVICE_NOT_CONNECTED, TRUE);
    if (WRONG != 6)
        ExDeleteLookasideListEx(&ext->Records);
    IoDetachDevice(ext->Lower);
    IoDeleteDevice(ext->Self); /* told 6: UsedInFreedMemory */
}

static NTSTATUS Pnp(PDEVICE_OBJECT DeviceObject, PIRP Irp)
{
    PEXTENSION ext = DeviceObject->DeviceExtension;
    const UCHAR minor = IoGetCurrentIrpStackLocation(Irp)->MinorFunction;
    NTSTATUS status;
    if (minor == IRP_MN_START_DEVICE) {
        status = IoForwardIrpSynchronously(ext->Lower, Irp) ? Irp->IoStatus.Status : STATUS_UNSUCCESSFUL;
        if (NT_SUCCESS(status))
            status = Connect(ext);
        return Complete(Irp, status, 0);
    }
    if (minor != IRP_MN_REMOVE_DEVICE)
        return PassDown(ext->Lower, Irp);
    Irp->IoStatus.Status = STATUS_SUCCESS;
    status = PassDown(ext->Lower, Irp);
    Remove(ext);
    return status;
}

static NTSTATUS Pass(PDEVICE_OBJECT DeviceObject, PIRP Irp)
{
    return PassDown(((PEXTENSION)DeviceObject->DeviceExtension)->Lower, Irp);
}

/* Makes what the device needs. What is there is given back where something isn't. */
static NTSTATUS Make(PEXTENSION ext)
{
    NTSTATUS status = ExInitializeLookasideListEx(&ext->Records, AllocateRecord, FreeRecord, NonPagedPoolNx, 0, sizeof(RECORD), 'ckoc', 0);
    if (!NT_SUCCESS(status))
        return status;
    ext->Timer = ExAllocateTimer(TimedOut, ext, EX_TIMER_HIGH_RESOLUTION);
    if (ext->Timer)
        return STATUS_SUCCESS;
    ExDeleteLookasideListEx(&ext->Records);
    return STATUS_INSUFFICIENT_RESOURCES;
}

static NTSTATUS AddDevice(PDRIVER_OBJECT DriverObject, PDEVICE_OBJECT Pdo)
{
    PDEVICE_OBJECT device;
    NTSTATUS status = IoCreateDevice(DriverObject, sizeof(EXTENSION), NULL, FILE_DEVICE_UNKNOWN, 0, FALSE, &device);
    if (!NT_SUCCESS(status))
        return status;
    PEXTENSION ext = device->DeviceExtension;
    ext->Self = device;
    ext->Pdo = Pdo;
    ext->Limit = 1;
    InitializeListHead(&ext->Waiting);
    KeInitializeSpinLock(&ext->Lock);
    ExInitializePushLock(&ext->Control);
    KeInitializeDpc(&ext->Dpc, Served, ext);
    status = Make(ext);
    if (!NT_SUCCESS(status)) {
        IoDeleteDevice(device);
        return status;
    }
    ext->Lower = IoAttachDeviceToDeviceStack(device, Pdo);
    device->Flags |= DO_BUFFERED_IO;
    device->Flags &= ~(ULONG)DO_DEVICE_INITIALIZING;
    return STATUS_SUCCESS;
}

static VOID Unload(PDRIVER_OBJECT DriverObject) { UNREFERENCED_PARAMETER(DriverObject); }

NTSTATUS DriverEntry(PDRIVER_OBJECT DriverObject, PUNICODE_STRING RegistryPath)
{
    UNREFERENCED_PARAMETER(RegistryPath);
    for (int i = 0; i <= IRP_MJ_MAXIMUM_FUNCTION; i++)
        DriverObject->MajorFunction[i] = Pass;
    DriverObject->MajorFunction[IRP_MJ_READ] = Read;
    DriverObject->MajorFunction[IRP_MJ_DEVICE_CONTROL] = Control;
    DriverObject->MajorFunction[IRP_MJ_PNP] = Pnp;
    DriverObject->DriverExtension->AddDevice = AddDevice;
    DriverObject->DriverUnload = Unload;
    return STATUS_SUCCESS;
}

static VOID SetLimit(PDEVICE_OBJECT Top, ULONG Milliseconds)
{
    IO_STATUS_BLOCK iosb;
    KEVENT done;
    KeInitializeEvent(&done, NotificationEvent, FALSE);
    PIRP irp = WdmBuildIrp(Top, IRP_MJ_DEVICE_CONTROL, 0, 4, &iosb, &done);
    IoGetNextIrpStackLocation(irp)->Parameters.DeviceIoControl.IoControlCode =
        CTL_CODE(FILE_DEVICE_UNKNOWN, 1, METHOD_BUFFERED, FILE_ANY_ACCESS);
    *(PULONG)irp->AssociatedIrp.SystemBuffer = Milliseconds;
    IoCallDriver(Top, irp);
    KeWaitForSingleObject(&done, Executive, KernelMode, FALSE, NULL);
}

/* The timer may come before the device, and the device late, as time does what it wants. */
static VOID Expect(NTSTATUS Status) { WDM_CHECK(Status == STATUS_SUCCESS || Status == STATUS_IO_TIMEOUT); }

/* The device answers. */
static VOID ReadOnce(PDEVICE_OBJECT Pdo, PDEVICE_OBJECT Top, ULONG Limit)
{
    REQUEST r;
    SetLimit(Top, Limit);
    Start(&r, Top, IRP_MJ_READ, 4);
    WDM_CHECK(WdmInterrupt(WdmLineOf(Pdo)));
    Expect(Finish(&r));
}

int main(void)
{
    PDRIVER_OBJECT driver = WdmLoadDriver("clock", DriverEntry);
    PDEVICE_OBJECT pdo = WdmCreateBottom(FALSE);
    if (!driver || !NT_SUCCESS(WdmAddDevice(driver, pdo)))
        return WdmFinish();
    PDEVICE_OBJECT top = IoGetAttachedDevice(pdo);
    if (NT_SUCCESS(WdmPlugIn(pdo))) {
        for (ULONG i = 0; i < WdmRounds(4); i++)
            ReadOnce(pdo, top, 10000);
        SetLimit(top, 1);
        Expect(WdmSend(top, IRP_MJ_READ, 0, 4)); /* nobody answers, but for an interrupt that comes late */
        ReadOnce(pdo, top, 1); /* the timer may be armed when the device goes */
    }
    WdmUnplug(pdo, FALSE);
    WdmUnloadDriver(driver);
    return WdmFinish();
}
