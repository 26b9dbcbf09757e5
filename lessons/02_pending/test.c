/* A work item answers each read with its length, and nothing is left: no work item, no pool. */
#include "../lesson_test.h"

WDM_TEST(reads_are_answered_with_their_length)
{
    static REQUEST a, b;
    PDRIVER_OBJECT driver = WdmLoadByName(DRIVER);
    send(&a, driver->DeviceObject, IRP_MJ_READ, 4), send(&b, driver->DeviceObject, IRP_MJ_READ, 8);
    wait_for(&a), wait_for(&b);
    WDM_CHECK(a.Iosb.Status == STATUS_SUCCESS && a.Iosb.Information == 4);
    WDM_CHECK(b.Iosb.Status == STATUS_SUCCESS && b.Iosb.Information == 8);
    unload(driver);
}

WDM_TEST(a_read_meets_its_work_item)
{
    static REQUEST a;
    PDRIVER_OBJECT driver = WdmLoadByName(DRIVER);
    send(&a, driver->DeviceObject, IRP_MJ_READ, 4);
    wait_for(&a);
    unload(driver);
}
