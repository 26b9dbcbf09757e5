/* port.c: a port with StartIo: an interrupt tells of a byte, the device's deferred call completes the packet. How many
   bytes a read takes at most stands in the registry. */
#include "common.h"

typedef struct {
    PDEVICE_OBJECT Self;
    PKINTERRUPT Interrupt;
    UCHAR Register;   /* of the hardware: the byte that came */
    ULONG Left, Most; /* under the interrupt's lock: bytes that the packet still wants; the most of one read */
} EXTENSION, *PEXTENSION;
enum { VECTOR = 0x31 };

static BOOLEAN TakeByte(PKINTERRUPT Interrupt, PVOID Context)
{
    PEXTENSION ext = Context;
    UNREFERENCED_PARAMETER(Interrupt);
    if (!READ_REGISTER_UCHAR(&ext->Register))
        return FALSE;
    WRITE_REGISTER_UCHAR(&ext->Register, 0);
    if (ext->Left && !--ext->Left)
        IoRequestDpc(ext->Self, ext->Self->CurrentIrp, NULL);
    return TRUE;
}

static VOID ReadDone(PKDPC Dpc, PDEVICE_OBJECT DeviceObject, PIRP Irp, PVOID Context)
{
    UNREFERENCED_PARAMETER(Dpc);
    UNREFERENCED_PARAMETER(Context);
    IoStartNextPacket(DeviceObject, TRUE);
    Complete(Irp, STATUS_SUCCESS, IoGetCurrentIrpStackLocation(Irp)->Parameters.Read.Length);
}

typedef struct { PEXTENSION Ext; ULONG Length; } WISH;

static BOOLEAN SetLeft(PVOID Context)
{
    WISH *wish = Context;
    wish->Ext->Left = wish->Length < wish->Ext->Most ? wish->Length : wish->Ext->Most;
    return TRUE;
}

static VOID StartIo(PDEVICE_OBJECT DeviceObject, PIRP Irp)
{
    PEXTENSION ext = DeviceObject->DeviceExtension;
    WISH wish = { ext, IoGetCurrentIrpStackLocation(Irp)->Parameters.Read.Length };
    KIRQL irql;
    IoAcquireCancelSpinLock(&irql);
    if (DeviceObject->CurrentIrp != Irp) { /* its cancel routine ran before, and has started the next one */
        IoReleaseCancelSpinLock(irql);
        return;
    }
    const BOOLEAN is_mine = IoSetCancelRoutine(Irp, NULL) != NULL, is_cancelled = Irp->Cancel;
    IoReleaseCancelSpinLock(irql);
    if (!is_mine) /* its cancel routine has it */
        return;
    if (is_cancelled) { /* before it was started, so that its cancel routine never runs */
        IoStartNextPacket(DeviceObject, TRUE);
        Complete(Irp, STATUS_CANCELLED, 0);
        return;
    }
    KeSynchronizeExecution(ext->Interrupt, SetLeft, &wish);
}

static VOID CancelRead(PDEVICE_OBJECT DeviceObject, PIRP Irp)
{
    if (DeviceObject->CurrentIrp == Irp) {
        IoReleaseCancelSpinLock(Irp->CancelIrql);
        IoStartNextPacket(DeviceObject, TRUE);
    } else {
        KeRemoveEntryDeviceQueue(&DeviceObject->DeviceQueue, &Irp->Tail.Overlay.DeviceQueueEntry);
        IoReleaseCancelSpinLock(Irp->CancelIrql);
    }
    Complete(Irp, STATUS_CANCELLED, 0);
}

static NTSTATUS Read(PDEVICE_OBJECT DeviceObject, PIRP Irp)
{
    IoMarkIrpPending(Irp);
    IoStartPacket(DeviceObject, Irp, NULL, CancelRead);
    return STATUS_PENDING;
}

static VOID Unload(PDRIVER_OBJECT DriverObject)
{
    IoDisconnectInterrupt(((PEXTENSION)DriverObject->DeviceObject->DeviceExtension)->Interrupt);
    IoDeleteDevice(DriverObject->DeviceObject);
}

NTSTATUS DriverEntry(PDRIVER_OBJECT DriverObject, PUNICODE_STRING RegistryPath)
{
    PDEVICE_OBJECT device;
    DriverObject->MajorFunction[IRP_MJ_READ] = Read;
    DriverObject->DriverStartIo = StartIo;
    DriverObject->DriverUnload = Unload;
    NTSTATUS status = IoCreateDevice(DriverObject, sizeof(EXTENSION), NULL, FILE_DEVICE_SERIAL_PORT, 0, FALSE, &device);
    if (!NT_SUCCESS(status))
        return status;
    PEXTENSION ext = device->DeviceExtension;
    RTL_QUERY_REGISTRY_TABLE table[2] = {
        { NULL, RTL_QUERY_REGISTRY_DIRECT, L"Most", &ext->Most, REG_DWORD, &(ULONG){ 1 }, sizeof(ULONG) } };
    status = RtlQueryRegistryValues(RTL_REGISTRY_ABSOLUTE, RegistryPath->Buffer, table, NULL, NULL);
    ext->Self = device;
    IoInitializeDpcRequest(device, ReadDone);
    if (NT_SUCCESS(status))
        status = IoConnectInterrupt(&ext->Interrupt, TakeByte, ext, NULL, VECTOR, 5, 5, Latched, FALSE, 1, FALSE);
    if (!NT_SUCCESS(status))
        IoDeleteDevice(device);
    return status;
}

static void byte_comes(PDEVICE_OBJECT port)
{
    ((PEXTENSION)port->DeviceExtension)->Register = 'x';
    WdmInterrupt(VECTOR);
}

/* Bytes come until the request is done: one that comes while no packet is started is lost. */
static void finish_by_bytes(PDEVICE_OBJECT port, REQUEST *request)
{
    while (!KeReadStateEvent(&request->Done)) {
        byte_comes(port);
        Pause(1);
    }
    Finish(request);
}

int main(void)
{
    REQUEST first, second, third;
    WdmSetRegistry(L"\\Registry\\Machine\\System\\CurrentControlSet\\Services\\port", L"Most", REG_DWORD, &(ULONG){ 2 }, 4);
    PDRIVER_OBJECT driver = WdmLoadDriver("port", DriverEntry);
    PDEVICE_OBJECT port = driver->DeviceObject;
    const ULONG rounds = WdmRounds(4);
    for (ULONG i = 0; i < rounds; i++) {
        Start(&first, port, IRP_MJ_READ, 2);
        Start(&second, port, IRP_MJ_READ, 1);
        Start(&third, port, IRP_MJ_READ, 9);
        IoCancelIrp(i % 2 ? third.Irp : second.Irp);
        finish_by_bytes(port, &first);
        finish_by_bytes(port, &second);
        finish_by_bytes(port, &third);
    }
    WdmUnloadDriver(driver);
    WdmExpectEntries(5 * rounds);
    return WdmFinish();
}
