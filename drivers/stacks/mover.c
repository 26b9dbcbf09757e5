/* mover.c: a driver in the style of the last ten years for a bus master: it hands its device a descriptor in a common buffer
   with the addresses of a scatter-gather list, and puts the list back when the device interrupts. A control moves a block by an
   adapter channel with map registers. The device is the test's. WRONG=N makes it wrong, at the line that says what is told. */
#include "common.h"

#ifndef WRONG
#define WRONG 0
#endif
enum { MOST = 8, CODE = 0x222003 }; /* CODE: METHOD_NEITHER */
/* What the device reads from memory: pieces of the buffer, and in which direction. */
typedef struct { ULONG Pieces, ToDevice; struct { LONGLONG Address; ULONG Length; } At[MOST]; } DESCRIPTOR;
typedef struct {
    PDEVICE_OBJECT Self, Lower, Pdo;
    PDMA_ADAPTER Adapter;
    ULONG Registers;
    DESCRIPTOR *Descriptor;
    PHYSICAL_ADDRESS Where; /* of the descriptor, as the device sees it */
    PKINTERRUPT Interrupt;
    KDPC Dpc;
    PIRP Irp;
    PSCATTER_GATHER_LIST List;
    BOOLEAN ToDevice;
    UCHAR Block[16];
    PMDL BlockMdl;
    PVOID Base; /* of the map registers of a block that moves */
} EXTENSION, *PEXTENSION;

/* What the test's device knows of this one. */
static PHYSICAL_ADDRESS register_of_device;
static volatile LONG doorbell;

static VOID ListReady(PDEVICE_OBJECT DeviceObject, PIRP Irp, PSCATTER_GATHER_LIST List, PVOID Context)
{
    PEXTENSION ext = Context;
    UNREFERENCED_PARAMETER(DeviceObject), UNREFERENCED_PARAMETER(Irp);
    ext->List = List;
    ext->Descriptor->Pieces = List->NumberOfElements;
    ext->Descriptor->ToDevice = ext->ToDevice;
    for (ULONG i = 0; i < List->NumberOfElements; i++) {
        ext->Descriptor->At[i].Address = List->Elements[i].Address.QuadPart;
        ext->Descriptor->At[i].Length = List->Elements[i].Length + (WRONG == 1 && !i ? 8 : 0);
    }
    if (WRONG == 2)
        ext->Descriptor->At[0].Address = MmGetPhysicalAddress(MmGetMdlVirtualAddress(ext->Irp->MdlAddress)).QuadPart;
    WRITE_REGISTER_ULONG(&doorbell, 1);
}

static NTSTATUS Transfer(PDEVICE_OBJECT DeviceObject, PIRP Irp)
{
    PEXTENSION ext = DeviceObject->DeviceExtension;
    PIO_STACK_LOCATION stack = IoGetCurrentIrpStackLocation(Irp);
    ULONG length = stack->Parameters.Read.Length;
    PMDL mdl = Irp->MdlAddress;
    KIRQL irql;
    if (!mdl || length / PAGE_SIZE + 2 > MOST)
        return Complete(Irp, STATUS_INVALID_PARAMETER, 0);
    ext->ToDevice = stack->MajorFunction == IRP_MJ_WRITE;
    ext->Irp = Irp;
    IoMarkIrpPending(Irp);
    if (WRONG == 3)
        irql = KeGetCurrentIrql();
    else
        KeRaiseIrql(DISPATCH_LEVEL, &irql);
    if (WRONG == 4)
        length += 8;
    NTSTATUS status = ext->Adapter->DmaOperations->GetScatterGatherList( /* told 1: DmaBeyond */ /* told 3: DmaIrql */ /* told 4: DmaBeyond */
        ext->Adapter, DeviceObject, mdl, MmGetMdlVirtualAddress(mdl), length, ListReady, ext, ext->ToDevice);
    if (WRONG != 3)
        KeLowerIrql(irql);
    if (!NT_SUCCESS(status)) {
        ext->Irp = NULL;
        Complete(Irp, status, 0);
    }
    return STATUS_PENDING;
}

static BOOLEAN Serve(PKINTERRUPT Interrupt, PVOID Context)
{
    PEXTENSION ext = Context;
    UNREFERENCED_PARAMETER(Interrupt);
    KeInsertQueueDpc(&ext->Dpc, NULL, NULL);
    return TRUE;
}

/* The block has come: its registers go back. */
static VOID EndBlock(PEXTENSION ext)
{
    PDMA_OPERATIONS operations = ext->Adapter->DmaOperations;
    if (WRONG != 9)
        operations->FlushAdapterBuffers(ext->Adapter, ext->BlockMdl, ext->Base, ext->Block, sizeof ext->Block, FALSE);
    operations->FreeMapRegisters(ext->Adapter, ext->Base, 2); /* told 9: DmaNotFlushed */
    ext->Base = NULL;
    Complete(ext->Irp, STATUS_SUCCESS, 0);
}

/* The device has done: the list goes back before the request is completed. */
static VOID Served(PKDPC Dpc, PVOID Context, PVOID A, PVOID B)
{
    PEXTENSION ext = Context;
    PIRP irp = ext->Irp;
    UNREFERENCED_PARAMETER(Dpc), UNREFERENCED_PARAMETER(A), UNREFERENCED_PARAMETER(B);
    if (!irp)
        return;
    if (ext->Base) {
        EndBlock(ext);
        return;
    }
    PDMA_OPERATIONS operations = ext->Adapter->DmaOperations;
    irp->IoStatus.Status = STATUS_SUCCESS;
    irp->IoStatus.Information = IoGetCurrentIrpStackLocation(irp)->Parameters.Read.Length;
    ext->Irp = NULL;
    if (WRONG != 5 && WRONG != 6)
        operations->PutScatterGatherList(ext->Adapter, ext->List, WRONG == 7 ? !ext->ToDevice : ext->ToDevice); /* told 7: DmaDirection */
    if (WRONG == 8)
        operations->PutScatterGatherList(ext->Adapter, ext->List, ext->ToDevice); /* told 8: DmaFreedTwice */
    IoCompleteRequest(irp, IO_NO_INCREMENT); /* told 5: DmaKept */ /* told 6: DmaKept */
    if (WRONG == 5)
        operations->PutScatterGatherList(ext->Adapter, ext->List, ext->ToDevice);
}

static IO_ALLOCATION_ACTION Move(PDEVICE_OBJECT DeviceObject, PIRP Irp, PVOID Base, PVOID Context)
{
    PEXTENSION ext = Context;
    ULONG length = sizeof ext->Block;
    UNREFERENCED_PARAMETER(DeviceObject), UNREFERENCED_PARAMETER(Irp);
    ext->Base = Base;
    ext->Descriptor->Pieces = 1;
    ext->Descriptor->ToDevice = FALSE;
    ext->Descriptor->At[0].Address =
        ext->Adapter->DmaOperations->MapTransfer(ext->Adapter, ext->BlockMdl, Base, ext->Block, &length, FALSE).QuadPart;
    ext->Descriptor->At[0].Length = length;
    WRITE_REGISTER_ULONG(&doorbell, 1);
    return DeallocateObjectKeepRegisters;
}

/* A block, which lies in one page. */
static NTSTATUS Control(PDEVICE_OBJECT DeviceObject, PIRP Irp)
{
    PEXTENSION ext = DeviceObject->DeviceExtension;
    KIRQL irql;
    ext->Irp = Irp;
    IoMarkIrpPending(Irp);
    KeRaiseIrql(DISPATCH_LEVEL, &irql);
    NTSTATUS status = ext->Adapter->DmaOperations->AllocateAdapterChannel(ext->Adapter, DeviceObject, 2, Move, ext);
    KeLowerIrql(irql);
    if (!NT_SUCCESS(status)) {
        ext->Irp = NULL;
        Complete(Irp, status, 0);
    }
    return STATUS_PENDING;
}

static NTSTATUS Connect(PEXTENSION ext)
{
    IO_CONNECT_INTERRUPT_PARAMETERS parameters = { .Version = CONNECT_LINE_BASED };
    parameters.LineBased.PhysicalDeviceObject = ext->Pdo;
    parameters.LineBased.InterruptObject = &ext->Interrupt;
    parameters.LineBased.ServiceRoutine = Serve;
    parameters.LineBased.ServiceContext = ext;
    return IoConnectInterruptEx(&parameters);
}

/* Gives back what Begin got, as far as it is there. */
static VOID End(PEXTENSION ext)
{
    IO_DISCONNECT_INTERRUPT_PARAMETERS parameters = { .Version = CONNECT_LINE_BASED };
    parameters.ConnectionContext.InterruptObject = ext->Interrupt;
    if (ext->Interrupt)
        IoDisconnectInterruptEx(&parameters);
    ext->Interrupt = NULL;
    if (ext->BlockMdl)
        IoFreeMdl(ext->BlockMdl);
    ext->BlockMdl = NULL;
    if (ext->Descriptor && WRONG != 10)
        ext->Adapter->DmaOperations->FreeCommonBuffer(ext->Adapter, sizeof *ext->Descriptor, ext->Where, ext->Descriptor, FALSE);
    ext->Descriptor = NULL;
    if (ext->Adapter && WRONG != 11)
        ext->Adapter->DmaOperations->PutDmaAdapter(ext->Adapter); /* told 10: DmaKept */
    ext->Adapter = NULL;
}

static NTSTATUS Begin(PEXTENSION ext)
{
    DEVICE_DESCRIPTION description = { .Version = DEVICE_DESCRIPTION_VERSION, .Master = TRUE, .ScatterGather = TRUE,
                                       .Dma32BitAddresses = TRUE, .InterfaceType = PCIBus, .MaximumLength = 6 * PAGE_SIZE };
    ext->Adapter = IoGetDmaAdapter(ext->Pdo, &description, &ext->Registers); /* told 11: LeftBehind */ /* told 2: DmaBeyond */
    if (!ext->Adapter)
        return STATUS_INSUFFICIENT_RESOURCES;
    ext->Descriptor = ext->Adapter->DmaOperations->AllocateCommonBuffer(ext->Adapter, sizeof *ext->Descriptor, &ext->Where, FALSE);
    ext->BlockMdl = IoAllocateMdl(ext->Block, sizeof ext->Block, FALSE, FALSE, NULL);
    NTSTATUS status = ext->Descriptor && ext->BlockMdl ? Connect(ext) : STATUS_INSUFFICIENT_RESOURCES;
    if (!NT_SUCCESS(status)) {
        ext->Interrupt = NULL;
        End(ext);
        return status;
    }
    MmBuildMdlForNonPagedPool(ext->BlockMdl);
    register_of_device = ext->Where;
    return STATUS_SUCCESS;
}

static NTSTATUS Pnp(PDEVICE_OBJECT DeviceObject, PIRP Irp)
{
    PEXTENSION ext = DeviceObject->DeviceExtension;
    const UCHAR minor = IoGetCurrentIrpStackLocation(Irp)->MinorFunction;
    NTSTATUS status;
    if (minor == IRP_MN_START_DEVICE) {
        status = IoForwardIrpSynchronously(ext->Lower, Irp) ? Irp->IoStatus.Status : STATUS_UNSUCCESSFUL;
        if (NT_SUCCESS(status))
            status = Begin(ext);
        return Complete(Irp, status, 0);
    }
    if (minor != IRP_MN_REMOVE_DEVICE)
        return PassDown(ext->Lower, Irp);
    Irp->IoStatus.Status = STATUS_SUCCESS;
    status = PassDown(ext->Lower, Irp);
    End(ext);
    KeFlushQueuedDpcs();
    IoDetachDevice(ext->Lower);
    IoDeleteDevice(ext->Self);
    return status;
}

static NTSTATUS Pass(PDEVICE_OBJECT DeviceObject, PIRP Irp)
{
    return PassDown(((PEXTENSION)DeviceObject->DeviceExtension)->Lower, Irp);
}

static NTSTATUS AddDevice(PDRIVER_OBJECT DriverObject, PDEVICE_OBJECT Pdo)
{
    PDEVICE_OBJECT device;
    NTSTATUS status = IoCreateDevice(DriverObject, sizeof(EXTENSION), NULL, FILE_DEVICE_UNKNOWN, 0, FALSE, &device);
    if (!NT_SUCCESS(status))
        return status;
    PEXTENSION ext = device->DeviceExtension;
    ext->Self = device;
    ext->Pdo = Pdo;
    KeInitializeDpc(&ext->Dpc, Served, ext);
    ext->Lower = IoAttachDeviceToDeviceStack(device, Pdo);
    device->Flags |= DO_DIRECT_IO;
    device->Flags &= ~(ULONG)DO_DEVICE_INITIALIZING;
    return STATUS_SUCCESS;
}

static VOID Unload(PDRIVER_OBJECT DriverObject) { UNREFERENCED_PARAMETER(DriverObject); }

NTSTATUS DriverEntry(PDRIVER_OBJECT DriverObject, PUNICODE_STRING RegistryPath)
{
    UNREFERENCED_PARAMETER(RegistryPath);
    for (int i = 0; i <= IRP_MJ_MAXIMUM_FUNCTION; i++)
        DriverObject->MajorFunction[i] = Pass;
    DriverObject->MajorFunction[IRP_MJ_READ] = DriverObject->MajorFunction[IRP_MJ_WRITE] = Transfer;
    DriverObject->MajorFunction[IRP_MJ_DEVICE_CONTROL] = Control;
    DriverObject->MajorFunction[IRP_MJ_PNP] = Pnp;
    DriverObject->DriverExtension->AddDevice = AddDevice;
    DriverObject->DriverUnload = Unload;
    return STATUS_SUCCESS;
}

static UCHAR store[2 * PAGE_SIZE]; /* of the device */

/* The device: reads its descriptor, and moves what it says between memory and its store. */
static VOID RunDevice(PDEVICE_OBJECT Pdo)
{
    DESCRIPTOR descriptor;
    ULONG at = 0;
    WdmDmaRead(Pdo, register_of_device, &descriptor, sizeof descriptor);
    for (ULONG i = 0; i < descriptor.Pieces && i < MOST; i++) {
        const PHYSICAL_ADDRESS address = { .QuadPart = descriptor.At[i].Address };
        if (descriptor.ToDevice)
            WdmDmaRead(Pdo, address, store + at, descriptor.At[i].Length);
        else
            WdmDmaWrite(Pdo, address, store + at, descriptor.At[i].Length);
        at += descriptor.At[i].Length;
    }
}

/* The device was told to do something: it does, and interrupts. */
static VOID Answer(PDEVICE_OBJECT Pdo, NTSTATUS Status)
{
    if (Status != STATUS_PENDING || doorbell != 1)
        return;
    doorbell = 0;
    RunDevice(Pdo);
    WDM_CHECK(WdmInterrupt(WdmLineOf(Pdo)));
}

/* A request that spans two pages: what the device has in its store afterwards, or in memory, is what was sent. */
static VOID MoveBuffer(PDEVICE_OBJECT Pdo, PDEVICE_OBJECT Top, UCHAR Major, ULONG Length)
{
    REQUEST r;
    KeInitializeEvent(&r.Done, NotificationEvent, FALSE);
    r.Irp = WdmBuildIrp(Top, Major, 0, Length, NULL, NULL);
    PUCHAR bytes = MmGetMdlVirtualAddress(r.Irp->MdlAddress);
    for (ULONG i = 0; i < Length; i++) {
        bytes[i] = (UCHAR)(Major == IRP_MJ_WRITE ? i + Length : 0);
        store[i] = (UCHAR)(Major == IRP_MJ_WRITE ? 0 : 3 * i + Length);
    }
    IoSetCompletionRoutine(r.Irp, KeepRequest, &r, TRUE, TRUE, TRUE);
    Answer(Pdo, IoCallDriver(Top, r.Irp));
    KeWaitForSingleObject(&r.Done, Executive, KernelMode, FALSE, NULL);
    WDM_CHECK(r.Status == STATUS_SUCCESS && r.Information == Length && !memcmp(bytes, store, Length));
    IoFreeIrp(r.Irp);
}

static VOID MoveBlock(PDEVICE_OBJECT Pdo, PDEVICE_OBJECT Top)
{
    IO_STATUS_BLOCK iosb;
    KEVENT done;
    PEXTENSION ext = Top->DeviceExtension;
    KeInitializeEvent(&done, NotificationEvent, FALSE);
    for (ULONG i = 0; i < sizeof ext->Block; i++)
        store[i] = (UCHAR)(7 * i + 1);
    PIRP irp = WdmBuildIrp(Top, IRP_MJ_DEVICE_CONTROL, 0, 0, &iosb, &done);
    IoGetNextIrpStackLocation(irp)->Parameters.DeviceIoControl.IoControlCode = CODE;
    Answer(Pdo, IoCallDriver(Top, irp));
    KeWaitForSingleObject(&done, Executive, KernelMode, FALSE, NULL);
    WDM_CHECK(iosb.Status == STATUS_SUCCESS && !memcmp(ext->Block, store, sizeof ext->Block));
}

int main(void)
{
    PDRIVER_OBJECT driver = WdmLoadDriver("mover", DriverEntry);
    PDEVICE_OBJECT pdo = WdmCreateBottom(FALSE);
    if (!driver || !NT_SUCCESS(WdmAddDevice(driver, pdo)))
        return WdmFinish();
    PDEVICE_OBJECT top = IoGetAttachedDevice(pdo);
    if (NT_SUCCESS(WdmPlugIn(pdo))) {
        for (ULONG i = 0; i < WdmRounds(3); i++) {
            MoveBuffer(pdo, top, IRP_MJ_WRITE, PAGE_SIZE + 100 + i);
            MoveBuffer(pdo, top, IRP_MJ_READ, PAGE_SIZE + 200 + i);
        }
        MoveBlock(pdo, top);
    }
    WdmUnplug(pdo, FALSE);
    WdmUnloadDriver(driver);
    return WdmFinish();
}
