/* enumerate.c: a bus driver whose two children the Plug and Play manager finds, starts, stops and removes. The bus loses
   its second child and gets another one; at the end it is removed, or taken out by surprise. */
#include "common.h"

enum { MAX_CHILDREN = 4 };

typedef enum { STARTED, STOPPED, GONE } STATE;
typedef struct { BOOLEAN IsChild, IsPresent; STATE State; ULONG Number; PDEVICE_OBJECT Self, Bus; UNICODE_STRING Link; } CHILD, *PCHILD;
typedef struct {
    BOOLEAN IsChild;
    PDEVICE_OBJECT Self, Lower, Pdo;
    FAST_MUTEX Lock; /* guards what follows */
    PDEVICE_OBJECT Children[MAX_CHILDREN];
    ULONG Count, Made;
} BUS, *PBUS;

static const GUID OurInterface = { 0x6c3f5a10, 0x41b2, 0x4d0e, { 0x9a, 0x57, 0x2e, 0x10, 0xd8, 0x44, 0x7b, 0x02 } };
static PBUS TheBus;
static BOOLEAN WasWrong; /* what the test saw */

static VOID AddChild(PBUS Bus)
{
    PDEVICE_OBJECT device;
    if (!NT_SUCCESS(IoCreateDevice(Bus->Self->DriverObject, sizeof(CHILD), NULL, FILE_DEVICE_UNKNOWN, 0, FALSE, &device)))
        return;
    PCHILD child = device->DeviceExtension;
    *child = (CHILD){ .IsChild = TRUE, .IsPresent = TRUE, .State = STOPPED, .Self = device, .Bus = Bus->Self };
    ExAcquireFastMutex(&Bus->Lock);
    child->Number = ++Bus->Made;
    Bus->Children[Bus->Count++] = device;
    ExReleaseFastMutex(&Bus->Lock);
    device->Flags &= ~(ULONG)DO_DEVICE_INITIALIZING;
}

static VOID ForgetChild(PBUS Bus, PDEVICE_OBJECT Device)
{
    ULONG i = 0;
    ExAcquireFastMutex(&Bus->Lock);
    while (i < Bus->Count && Bus->Children[i] != Device)
        i++;
    if (i < Bus->Count)
        Bus->Children[i] = Bus->Children[--Bus->Count];
    ExReleaseFastMutex(&Bus->Lock);
}

static NTSTATUS ReportChildren(PBUS Bus, PIRP Irp)
{
    PDEVICE_RELATIONS relations = ExAllocatePoolWithTag(PagedPool, sizeof(DEVICE_RELATIONS) +
                                                        MAX_CHILDREN * sizeof(PDEVICE_OBJECT), 'sleR');
    if (relations == NULL)
        return Complete(Irp, STATUS_INSUFFICIENT_RESOURCES, 0);
    relations->Count = 0;
    ExAcquireFastMutex(&Bus->Lock);
    for (ULONG i = 0; i < Bus->Count; i++)
        if (((PCHILD)Bus->Children[i]->DeviceExtension)->IsPresent) {
            ObReferenceObject(Bus->Children[i]);
            relations->Objects[relations->Count++] = Bus->Children[i];
        }
    ExReleaseFastMutex(&Bus->Lock);
    Irp->IoStatus.Status = STATUS_SUCCESS;
    Irp->IoStatus.Information = (ULONG_PTR)relations;
    return PassDown(Bus->Lower, Irp);
}

static NTSTATUS AnswerId(PCHILD Child, PIRP Irp)
{
    static const WCHAR id[] = L"TESTBUS\\Port\0";
    const BUS_QUERY_ID_TYPE type = IoGetCurrentIrpStackLocation(Irp)->Parameters.QueryId.IdType;
    if (type > BusQueryInstanceID)
        return Complete(Irp, Irp->IoStatus.Status, 0);
    PWSTR text = ExAllocatePoolWithTag(PagedPool, sizeof id, 'diSB');
    if (text == NULL)
        return Complete(Irp, STATUS_INSUFFICIENT_RESOURCES, 0);
    RtlCopyMemory(text, id, sizeof id);
    if (type == BusQueryInstanceID) {
        text[0] = (WCHAR)('0' + Child->Number);
        text[1] = 0;
    }
    return Complete(Irp, STATUS_SUCCESS, (ULONG_PTR)text);
}

/* Windows names a child's interface by the ids that its bus answered; one that comes again has the name again. */
static VOID OpenInterface(PCHILD Child)
{
    WCHAR name[] = L"\\??\\TESTBUS#Port#1#{6c3f5a10-41b2-4d0e-9a57-2e10d8447b02}";
    UNICODE_STRING wanted;
    name[17] = (WCHAR)('0' + Child->Number);
    RtlInitUnicodeString(&wanted, name);
    if (Child->Link.Buffer || !NT_SUCCESS(IoRegisterDeviceInterface(Child->Self, &OurInterface, NULL, &Child->Link)))
        return;
    WasWrong |= !RtlEqualUnicodeString(&wanted, &Child->Link, FALSE);
    IoSetDeviceInterfaceState(&Child->Link, TRUE);
}

static VOID CloseInterface(PCHILD Child)
{
    if (Child->Link.Buffer == NULL)
        return;
    IoSetDeviceInterfaceState(&Child->Link, FALSE);
    RtlFreeUnicodeString(&Child->Link);
    Child->Link.Buffer = NULL;
}

static NTSTATUS RemoveChild(PCHILD Child, PIRP Irp)
{
    const BOOLEAN goes = !Child->IsPresent;
    PDEVICE_OBJECT device = Child->Self;
    CloseInterface(Child);
    Child->State = GONE;
    if (goes)
        ForgetChild(Child->Bus->DeviceExtension, device);
    Complete(Irp, STATUS_SUCCESS, 0);
    if (goes)
        IoDeleteDevice(device);
    return STATUS_SUCCESS;
}

static NTSTATUS ChildPnp(PCHILD Child, PIRP Irp)
{
    PIO_STACK_LOCATION stack = IoGetCurrentIrpStackLocation(Irp);
    switch (stack->MinorFunction) {
    case IRP_MN_START_DEVICE:
        Child->State = STARTED;
        OpenInterface(Child);
        return Complete(Irp, STATUS_SUCCESS, 0);
    case IRP_MN_STOP_DEVICE:
        Child->State = STOPPED;
        return Complete(Irp, STATUS_SUCCESS, 0);
    case IRP_MN_QUERY_STOP_DEVICE:
    case IRP_MN_CANCEL_STOP_DEVICE:
    case IRP_MN_QUERY_REMOVE_DEVICE:
    case IRP_MN_CANCEL_REMOVE_DEVICE:
        return Complete(Irp, STATUS_SUCCESS, 0);
    case IRP_MN_SURPRISE_REMOVAL:
        Child->State = GONE;
        return Complete(Irp, STATUS_SUCCESS, 0);
    case IRP_MN_QUERY_ID:
        return AnswerId(Child, Irp);
    case IRP_MN_QUERY_CAPABILITIES:
        stack->Parameters.DeviceCapabilities.Capabilities->SurpriseRemovalOK = TRUE;
        stack->Parameters.DeviceCapabilities.Capabilities->UniqueID = TRUE;
        return Complete(Irp, STATUS_SUCCESS, 0);
    case IRP_MN_REMOVE_DEVICE:
        return RemoveChild(Child, Irp);
    default:
        return Complete(Irp, Irp->IoStatus.Status, Irp->IoStatus.Information);
    }
}

/* The children that are left go with the bus. */
static NTSTATUS RemoveBus(PBUS Bus, PIRP Irp)
{
    PDEVICE_OBJECT lower = Bus->Lower, self = Bus->Self;
    while (Bus->Count)
        IoDeleteDevice(Bus->Children[--Bus->Count]);
    Irp->IoStatus.Status = STATUS_SUCCESS;
    const NTSTATUS status = PassDown(lower, Irp);
    IoDetachDevice(lower);
    IoDeleteDevice(self);
    return status;
}

static NTSTATUS BusPnp(PBUS Bus, PIRP Irp)
{
    PIO_STACK_LOCATION stack = IoGetCurrentIrpStackLocation(Irp);
    if (stack->MinorFunction == IRP_MN_REMOVE_DEVICE)
        return RemoveBus(Bus, Irp);
    if (stack->MinorFunction == IRP_MN_QUERY_DEVICE_RELATIONS && stack->Parameters.QueryDeviceRelations.Type == BusRelations)
        return ReportChildren(Bus, Irp);
    if (stack->MinorFunction <= IRP_MN_CANCEL_STOP_DEVICE || stack->MinorFunction == IRP_MN_SURPRISE_REMOVAL)
        Irp->IoStatus.Status = STATUS_SUCCESS;
    return PassDown(Bus->Lower, Irp);
}

static NTSTATUS Pnp(PDEVICE_OBJECT DeviceObject, PIRP Irp)
{
    const PBUS bus = DeviceObject->DeviceExtension;
    return bus->IsChild ? ChildPnp(DeviceObject->DeviceExtension, Irp) : BusPnp(bus, Irp);
}

/* A child that isn't started has nothing to read. */
static NTSTATUS Read(PDEVICE_OBJECT DeviceObject, PIRP Irp)
{
    const PBUS bus = DeviceObject->DeviceExtension;
    if (!bus->IsChild)
        return PassDown(bus->Lower, Irp);
    const PCHILD child = DeviceObject->DeviceExtension;
    if (child->State != STARTED)
        return Complete(Irp, STATUS_DELETE_PENDING, 0);
    return Complete(Irp, STATUS_SUCCESS, min(child->Number, IoGetCurrentIrpStackLocation(Irp)->Parameters.Read.Length));
}

/* Power and WMI. */
static NTSTATUS Other(PDEVICE_OBJECT DeviceObject, PIRP Irp)
{
    const PBUS bus = DeviceObject->DeviceExtension;
    if (!bus->IsChild)
        return PassDown(bus->Lower, Irp);
    const BOOLEAN is_power = IoGetCurrentIrpStackLocation(Irp)->MajorFunction == IRP_MJ_POWER;
    return Complete(Irp, is_power ? STATUS_SUCCESS : Irp->IoStatus.Status, Irp->IoStatus.Information);
}

static NTSTATUS AddDevice(PDRIVER_OBJECT DriverObject, PDEVICE_OBJECT Pdo)
{
    PDEVICE_OBJECT device;
    NTSTATUS status = IoCreateDevice(DriverObject, sizeof(BUS), NULL, FILE_DEVICE_BUS_EXTENDER, 0, FALSE, &device);
    if (!NT_SUCCESS(status))
        return status;
    PBUS bus = TheBus = device->DeviceExtension;
    bus->Self = device;
    bus->Pdo = Pdo;
    ExInitializeFastMutex(&bus->Lock);
    bus->Lower = IoAttachDeviceToDeviceStack(device, Pdo);
    device->Flags &= ~(ULONG)DO_DEVICE_INITIALIZING;
    AddChild(bus);
    AddChild(bus);
    return STATUS_SUCCESS;
}

NTSTATUS DriverEntry(PDRIVER_OBJECT DriverObject, PUNICODE_STRING RegistryPath)
{
    UNREFERENCED_PARAMETER(RegistryPath);
    DriverObject->MajorFunction[IRP_MJ_READ] = Read;
    DriverObject->MajorFunction[IRP_MJ_PNP] = Pnp;
    DriverObject->MajorFunction[IRP_MJ_POWER] = DriverObject->MajorFunction[IRP_MJ_SYSTEM_CONTROL] = Other;
    DriverObject->DriverExtension->AddDevice = AddDevice;
    return STATUS_SUCCESS;
}

/* What the bus sees: its second child is pulled out, and another one is plugged in. */
static VOID ChangeChildren(PBUS Bus)
{
    ExAcquireFastMutex(&Bus->Lock);
    if (Bus->Count > 1)
        ((PCHILD)Bus->Children[1]->DeviceExtension)->IsPresent = FALSE;
    ExReleaseFastMutex(&Bus->Lock);
    AddChild(Bus);
    IoInvalidateDeviceRelations(Bus->Pdo, BusRelations);
}

static ULONG read_children(PDEVICE_OBJECT bottom)
{
    PDEVICE_OBJECT children[MAX_CHILDREN];
    const ULONG n = WdmGetChildren(bottom, children, MAX_CHILDREN);
    for (ULONG i = 0; i < n; i++)
        WdmSend(IoGetAttachedDevice(children[i]), IRP_MJ_READ, 0, 16);
    return n;
}

static void use(PDRIVER_OBJECT driver, BOOLEAN surprise)
{
    PDEVICE_OBJECT bottom = WdmCreateBottom(FALSE);
    if (!NT_SUCCESS(WdmAddDevice(driver, bottom))) {
        IoDeleteDevice(bottom);
        return;
    }
    WdmPlugIn(bottom);
    const ULONG first = read_children(bottom);
    ChangeChildren(TheBus);
    WdmSettlePlugAndPlay();
    const ULONG second = read_children(bottom);
    WdmStopAndStart(bottom);
    WdmUnplug(bottom, surprise);
    IoDeleteDevice(bottom);
    WasWrong |= first != 2 || second != 2;
}

int main(void)
{
    PDRIVER_OBJECT driver = WdmLoadDriver("enumerate", DriverEntry);
    use(driver, FALSE);
    use(driver, TRUE);
    WdmExpectEntries(852);
    return WdmFinish() || WasWrong;
}
