/* Each handle has its own count, also for a read between IRP_MJ_CLEANUP and IRP_MJ_CLOSE; and nothing is left behind. */
#include "../lesson_test.h"

static REQUEST r;

static BOOLEAN reads(PDEVICE_OBJECT device, PFILE_OBJECT file)
{
    WdmUseFile(file);
    send(&r, device, IRP_MJ_READ, 16);
    wait_for(&r);
    WdmUseFile(NULL);
    return r.Iosb.Status == STATUS_SUCCESS;
}

static void tell(PDEVICE_OBJECT device, UCHAR major, PFILE_OBJECT file)
{
    WdmUseFile(file);
    WdmSend(device, major, 0, 0);
    WdmUseFile(NULL);
}

WDM_TEST(each_handle_has_its_own_count)
{
    PDRIVER_OBJECT driver = WdmLoadByName(DRIVER);
    PFILE_OBJECT a = WdmOpenFile(driver->DeviceObject), b = WdmOpenFile(driver->DeviceObject);
    if (a)
        WDM_CHECK(reads(driver->DeviceObject, a) && reads(driver->DeviceObject, a) && !reads(driver->DeviceObject, a));
    if (b)
        WDM_CHECK(reads(driver->DeviceObject, b));
    PFILE_OBJECT nobody_reads_it = WdmOpenFile(driver->DeviceObject);
    if (nobody_reads_it)
        WdmCloseFile(nobody_reads_it);
    if (a)
        WdmCloseFile(a);
    if (b)
        WdmCloseFile(b);
    unload(driver);
}

/* A driver above has a reference to the file, and reads when the handle is closed already. */
WDM_TEST(a_read_comes_behind_the_cleanup)
{
    PDRIVER_OBJECT driver = WdmLoadByName(DRIVER);
    PFILE_OBJECT a = WdmOpenFile(driver->DeviceObject);
    reads(driver->DeviceObject, a);
    tell(driver->DeviceObject, IRP_MJ_CLEANUP, a);
    WDM_CHECK(reads(driver->DeviceObject, a) && !reads(driver->DeviceObject, a));
    tell(driver->DeviceObject, IRP_MJ_CLOSE, a);
    unload(driver);
}
