/* bus.c: Wine's test of a bus, under the host's Plug and Play manager: what a program asks of it, a child that comes, is
   opened, pends a request, and goes. */
#include "common.h"
#include "driver.h"

/* The device that the program makes, whose id is the program's, upon the host's bottom device. */
static NTSTATUS answer_id(PIRP irp)
{
    static const WCHAR id[] = L"ROOT\\WINETEST";
    PVOID text = ExAllocatePoolWithTag(PagedPool, sizeof id, 0x746F6F52);
    const NTSTATUS status = text ? STATUS_SUCCESS : STATUS_INSUFFICIENT_RESOURCES;
    if (text)
        memcpy(text, id, sizeof id);
    irp->IoStatus.Status = status;
    irp->IoStatus.Information = (ULONG_PTR)text;
    IoCompleteRequest(irp, IO_NO_INCREMENT);
    return status;
}

static NTSTATUS root(PDEVICE_OBJECT device, PIRP irp)
{
    PDEVICE_OBJECT lower = *(PDEVICE_OBJECT *)device->DeviceExtension;
    PIO_STACK_LOCATION stack = IoGetCurrentIrpStackLocation(irp);
    const UCHAR minor = stack->MajorFunction == IRP_MJ_PNP ? stack->MinorFunction : 0xff;
    if (minor == IRP_MN_QUERY_ID && stack->Parameters.QueryId.IdType == BusQueryDeviceID)
        return answer_id(irp);
    IoSkipCurrentIrpStackLocation(irp);
    const NTSTATUS status = IoCallDriver(lower, irp);
    if (minor == IRP_MN_REMOVE_DEVICE) {
        IoDetachDevice(lower);
        IoDeleteDevice(device);
    }
    return status;
}

static NTSTATUS add_root(PDRIVER_OBJECT driver, PDEVICE_OBJECT pdo)
{
    PDEVICE_OBJECT device;
    const NTSTATUS status = IoCreateDevice(driver, sizeof device, NULL, FILE_DEVICE_UNKNOWN, 0, FALSE, &device);
    if (!NT_SUCCESS(status))
        return status;
    PDEVICE_OBJECT lower = IoAttachDeviceToDeviceStack(device, pdo);
    *(PDEVICE_OBJECT *)device->DeviceExtension = lower;
    device->Flags |= lower->Flags & (DO_BUFFERED_IO | DO_DIRECT_IO | DO_POWER_PAGABLE);
    device->Flags &= ~(ULONG)DO_DEVICE_INITIALIZING;
    return STATUS_SUCCESS;
}

static NTSTATUS load_root(PDRIVER_OBJECT driver, PUNICODE_STRING path)
{
    (void)path;
    for (int i = 0; i <= IRP_MJ_MAXIMUM_FUNCTION; i++)
        driver->MajorFunction[i] = root;
    driver->DriverExtension->AddDevice = add_root;
    return STATUS_SUCCESS;
}

static void use_child(PDEVICE_OBJECT bus, PDEVICE_OBJECT child, int id)
{
    PFILE_OBJECT file = WdmOpenFile(child);
    Control(child, IOCTL_WINETEST_CHILD_GET_ID, NULL, 0, sizeof id);
    if (file)
        WdmCloseFile(file);
    file = WdmOpenFile(child);
    Request *pended = Prepare(child, IRP_MJ_DEVICE_CONTROL, IOCTL_WINETEST_CHILD_MARK_PENDING, NULL, 0, 0);
    IoCallDriver(child, pended->irp);
    Control(bus, IOCTL_WINETEST_BUS_REMOVE_CHILD, &id, sizeof id, 0);
    Control(child, IOCTL_WINETEST_CHILD_CHECK_REMOVED, NULL, 0, 0);
    Wait(pended, 100);
    if (file)
        WdmCloseFile(file);
    WdmSettlePlugAndPlay();
}

int main(void)
{
    int id = 1;
    PDEVICE_OBJECT children[4];
    WdmMakeSection(L"\\BaseNamedObjects\\winetest_ntoskrnl_section", 4096);
    WdmMakeFile(L"\\??\\C:\\windows\\winetest_ntoskrnl_okfile");
    PDRIVER_OBJECT driver = WdmLoadByName("driver_pnp");
    PDEVICE_OBJECT bottom = WdmCreateBottom(FALSE);
    WdmAddDevice(WdmLoadDriver("root", load_root), bottom);
    PDEVICE_OBJECT pdo = IoGetAttachedDevice(bottom);
    WdmAddDevice(driver, pdo);
    WdmPlugIn(pdo);
    PDEVICE_OBJECT bus = IoGetAttachedDevice(pdo);
    PFILE_OBJECT file = WdmOpenFile(bus);
    static const ULONG asked[] = { IOCTL_WINETEST_BUS_MAIN, IOCTL_WINETEST_BUS_REGISTER_IFACE,
                                   IOCTL_WINETEST_BUS_ENABLE_IFACE, IOCTL_WINETEST_BUS_DISABLE_IFACE };
    for (size_t i = 0; i < sizeof asked / sizeof *asked; i++)
        Control(bus, asked[i], NULL, 0, 0);
    Control(bus, IOCTL_WINETEST_BUS_ADD_CHILD, &id, sizeof id, 0);
    WdmSettlePlugAndPlay();
    if (WdmGetChildren(pdo, children, 4))
        use_child(bus, IoGetAttachedDevice(children[0]), id);
    if (file)
        WdmCloseFile(file);
    WdmUnplug(pdo, FALSE);
    return WdmFinish();
}
