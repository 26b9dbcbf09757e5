/* irps.c: Wine's test of the I/O manager, as far as it has to do with packets: `main` has it send and cancel packets of its
   own; `cancel` and `before` cancel one that it holds, after and before it comes; `status` has it return all that it can. */
#include "common.h"
#include "driver.h"

static PDEVICE_OBJECT top;

static void return_statuses(void)
{
    static const struct return_status_params wanted[] = {
        { STATUS_SUCCESS, STATUS_SUCCESS, FALSE }, { STATUS_UNSUCCESSFUL, STATUS_UNSUCCESSFUL, FALSE },
        { STATUS_SUCCESS, STATUS_UNSUCCESSFUL, FALSE }, { STATUS_PENDING, STATUS_SUCCESS, TRUE },
        { STATUS_SUCCESS, STATUS_SUCCESS, TRUE },
    };
    for (int i = 0; i < (int)ARRAYSIZE(wanted); i++)
        Control(top, IOCTL_WINETEST_RETURN_STATUS_BUFFERED, &wanted[i], sizeof wanted[i], 16);
}

static void cancel(BOOLEAN before)
{
    Request *r = Prepare(top, IRP_MJ_DEVICE_CONTROL, IOCTL_WINETEST_TEST_CANCEL, NULL, 0, 4);
    if (before)
        IoCancelIrp(r->irp);
    IoCallDriver(top, r->irp);
    if (!before)
        IoCancelIrp(r->irp);
    Wait(r, 300);
}

int main(int argc, char **argv)
{
    WdmMakeSection(L"\\BaseNamedObjects\\winetest_ntoskrnl_section", 4096);
    WdmMakeFile(L"\\??\\C:\\windows\\winetest_ntoskrnl_okfile");
    PDEVICE_OBJECT lower = WdmLoadByName("driver")->DeviceObject;
    while (lower->NextDevice)
        lower = lower->NextDevice;
    top = IoGetAttachedDevice(lower);
    PFILE_OBJECT file = WdmOpenFile(top);
    if (Does(argc, argv, "main"))
        Control(top, IOCTL_WINETEST_MAIN_TEST, "", 1, 64);
    if (Does(argc, argv, "cancel"))
        cancel(FALSE);
    if (Does(argc, argv, "before"))
        cancel(TRUE);
    if (Does(argc, argv, "status"))
        return_statuses();
    if (file && !Does(argc, argv, "before"))
        WdmCloseFile(file);
    return WdmFinish();
}
