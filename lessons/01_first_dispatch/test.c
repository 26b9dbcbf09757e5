/* Each request is answered, and the packet says so, whatever it said before. */
#include "../lesson_test.h"

WDM_TEST(each_request_succeeds)
{
    static const UCHAR majors[] = { IRP_MJ_CREATE, IRP_MJ_READ, IRP_MJ_WRITE, IRP_MJ_CLEANUP, IRP_MJ_CLOSE };
    static REQUEST r;
    PDRIVER_OBJECT driver = WdmLoadByName(DRIVER);
    for (size_t i = 0; i < sizeof majors; i++) {
        build(&r, driver->DeviceObject, majors[i], 0)->IoStatus.Status = STATUS_UNSUCCESSFUL;
        IoCallDriver(driver->DeviceObject, r.Irp);
        if (!WDM_CHECK(has_status(&r, STATUS_SUCCESS)))
            return;
    }
    unload(driver);
}
