/* direct.c: files with contexts, requests whose buffers are described by MDLs, and an MDL of a part sent below. */
#include "common.h"

typedef struct { LONG Requests; } CONTEXT, *PCONTEXT;
typedef struct { PDEVICE_OBJECT Lower; PFILE_OBJECT LowerFile; } EXTENSION, *PEXTENSION;
static PDEVICE_OBJECT upper, lower;
#define FILL CTL_CODE(FILE_DEVICE_UNKNOWN, 0x800, METHOD_OUT_DIRECT, FILE_ANY_ACCESS)

/* The lower device fills what it gets; it never sees more than a part. */
static NTSTATUS LowerRead(PDEVICE_OBJECT DeviceObject, PIRP Irp)
{
    UNREFERENCED_PARAMETER(DeviceObject);
    PVOID to = MmGetSystemAddressForMdlSafe(Irp->MdlAddress, NormalPagePriority);
    RtlFillMemory(to, MmGetMdlByteCount(Irp->MdlAddress), 7);
    return Complete(Irp, STATUS_SUCCESS, MmGetMdlByteCount(Irp->MdlAddress));
}

static NTSTATUS PartDone(PDEVICE_OBJECT DeviceObject, PIRP Irp, PVOID Context)
{
    UNREFERENCED_PARAMETER(DeviceObject);
    *(ULONG_PTR *)Context = Irp->IoStatus.Information;
    IoFreeMdl(Irp->MdlAddress);
    Irp->MdlAddress = NULL;
    IoFreeIrp(Irp);
    return STATUS_MORE_PROCESSING_REQUIRED;
}

/* Reads a part of the caller's buffer from the device below. Returns how many bytes came. */
static ULONG_PTR ReadPart(PEXTENSION Ext, PMDL Whole, ULONG From, ULONG Length)
{
    ULONG_PTR read = 0;
    PUCHAR at = (PUCHAR)MmGetMdlVirtualAddress(Whole) + From;
    PIRP irp = IoAllocateIrp(Ext->Lower->StackSize, FALSE);
    PMDL part = irp ? IoAllocateMdl(at, Length, FALSE, FALSE, NULL) : NULL;
    if (!part) {
        if (irp)
            IoFreeIrp(irp);
        return 0;
    }
    IoBuildPartialMdl(Whole, part, at, Length);
    irp->MdlAddress = part;
    IoGetNextIrpStackLocation(irp)->MajorFunction = IRP_MJ_READ;
    IoGetNextIrpStackLocation(irp)->Parameters.Read.Length = Length;
    IoSetCompletionRoutine(irp, PartDone, &read, TRUE, TRUE, TRUE);
    IoCallDriver(Ext->Lower, irp);
    return read;
}

static NTSTATUS Control(PDEVICE_OBJECT DeviceObject, PIRP Irp)
{
    PEXTENSION ext = DeviceObject->DeviceExtension;
    PIO_STACK_LOCATION stack = IoGetCurrentIrpStackLocation(Irp);
    PCONTEXT context = stack->FileObject->FsContext;
    InterlockedIncrement(&context->Requests);
    if (stack->Parameters.DeviceIoControl.IoControlCode != FILL || !Irp->MdlAddress)
        return Complete(Irp, STATUS_INVALID_DEVICE_REQUEST, 0);
    const ULONG half = MmGetMdlByteCount(Irp->MdlAddress) / 2;
    return Complete(Irp, STATUS_SUCCESS, ReadPart(ext, Irp->MdlAddress, 0, half) +
                    ReadPart(ext, Irp->MdlAddress, half, half));
}

static NTSTATUS Create(PDEVICE_OBJECT DeviceObject, PIRP Irp)
{
    PCONTEXT context = ExAllocatePool2(POOL_FLAG_NON_PAGED, sizeof *context, 'tceD');
    UNREFERENCED_PARAMETER(DeviceObject);
    IoGetCurrentIrpStackLocation(Irp)->FileObject->FsContext = context;
    return Complete(Irp, context ? STATUS_SUCCESS : STATUS_INSUFFICIENT_RESOURCES, 0);
}

static NTSTATUS Close(PDEVICE_OBJECT DeviceObject, PIRP Irp)
{
    PIO_STACK_LOCATION stack = IoGetCurrentIrpStackLocation(Irp);
    UNREFERENCED_PARAMETER(DeviceObject);
    if (stack->MajorFunction == IRP_MJ_CLOSE)
        ExFreePoolWithTag(stack->FileObject->FsContext, 'tceD');
    return Complete(Irp, STATUS_SUCCESS, 0);
}

static NTSTATUS PassUp(PDEVICE_OBJECT DeviceObject, PIRP Irp)
{
    UNREFERENCED_PARAMETER(DeviceObject);
    return Complete(Irp, STATUS_SUCCESS, 0);
}

static NTSTATUS LowerEntry(PDRIVER_OBJECT DriverObject, PUNICODE_STRING RegistryPath)
{
    UNICODE_STRING name = RTL_CONSTANT_STRING(L"\\Device\\Lower");
    UNREFERENCED_PARAMETER(RegistryPath);
    DriverObject->MajorFunction[IRP_MJ_READ] = LowerRead;
    DriverObject->MajorFunction[IRP_MJ_CREATE] = DriverObject->MajorFunction[IRP_MJ_CLEANUP] =
        DriverObject->MajorFunction[IRP_MJ_CLOSE] = PassUp;
    return IoCreateDevice(DriverObject, 0, &name, FILE_DEVICE_UNKNOWN, 0, FALSE, &lower);
}

static VOID Unload(PDRIVER_OBJECT DriverObject)
{
    ObDereferenceObject(((PEXTENSION)DriverObject->DeviceObject->DeviceExtension)->LowerFile);
    IoDeleteDevice(DriverObject->DeviceObject);
}

NTSTATUS DriverEntry(PDRIVER_OBJECT DriverObject, PUNICODE_STRING RegistryPath)
{
    UNICODE_STRING name = RTL_CONSTANT_STRING(L"\\Device\\Lower");
    UNREFERENCED_PARAMETER(RegistryPath);
    DriverObject->MajorFunction[IRP_MJ_CREATE] = Create;
    DriverObject->MajorFunction[IRP_MJ_CLEANUP] = DriverObject->MajorFunction[IRP_MJ_CLOSE] = Close;
    DriverObject->MajorFunction[IRP_MJ_DEVICE_CONTROL] = Control;
    DriverObject->DriverUnload = Unload;
    NTSTATUS status = IoCreateDevice(DriverObject, sizeof(EXTENSION), NULL, FILE_DEVICE_UNKNOWN, 0, FALSE, &upper);
    PEXTENSION ext = NT_SUCCESS(status) ? upper->DeviceExtension : NULL;
    if (ext)
        status = IoGetDeviceObjectPointer(&name, FILE_READ_DATA, &ext->LowerFile, &ext->Lower);
    if (ext && !NT_SUCCESS(status))
        IoDeleteDevice(upper);
    return status;
}

/* Each file has a context of its own. */
static BOOLEAN counts(PFILE_OBJECT file, LONG wanted) { return ((PCONTEXT)file->FsContext)->Requests == wanted; }

int main(void)
{
    PDRIVER_OBJECT below = WdmLoadDriver("below", LowerEntry), driver = WdmLoadDriver("direct", DriverEntry);
    PFILE_OBJECT one = WdmOpenFile(upper), two = WdmOpenFile(upper); /* NULL where there is no memory */
    BOOLEAN is_right = wcslen(L"abc") == 3;
    WdmUseFile(one);
    const LONG rounds = (LONG)WdmRounds(3);
    for (LONG i = 0; one && i < rounds; i++)
        WdmControl(upper, FILL, 4096 * 3);
    WdmUseFile(two);
    if (two)
        is_right &= WdmControl(upper, FILL + 1, 16) == STATUS_INVALID_DEVICE_REQUEST && counts(two, 1);
    if (one)
        is_right &= counts(one, rounds);
    if (two)
        WdmCloseFile(two);
    if (one)
        WdmCloseFile(one);
    WdmUnloadDriver(driver);
    IoDeleteDevice(below->DeviceObject);
    WdmExpectEntries(5 * (size_t)rounds + 5);
    return WdmFinish() || !is_right;
}
