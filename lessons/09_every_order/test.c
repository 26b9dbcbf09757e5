/* A read is held until the next request, or until it is cancelled: then each ends, and no other is lost. */
#include "../lesson_test.h"

static REQUEST a, b;

WDM_TEST(the_next_request_answers_the_read)
{
    PDRIVER_OBJECT driver = WdmLoadByName(DRIVER);
    send(&a, driver->DeviceObject, IRP_MJ_READ, 4);
    WDM_CHECK(!is_done(&a));
    WdmSend(driver->DeviceObject, IRP_MJ_WRITE, 0, 4);
    if (!WDM_CHECK(has_status(&a, STATUS_SUCCESS)))
        WdmCancelRequest(a.Irp);
    unload(driver);
}

WDM_TEST(a_cancelled_read_ends_as_cancelled)
{
    PDRIVER_OBJECT driver = WdmLoadByName(DRIVER);
    send(&a, driver->DeviceObject, IRP_MJ_READ, 4);
    WdmCancelRequest(a.Irp);
    WDM_CHECK(has_status(&a, STATUS_CANCELLED));
    unload(driver);
}

WDM_TEST(in_every_order_a_cancel_meets_the_next_read)
{
    PDRIVER_OBJECT driver = WdmLoadByName(DRIVER);
    send(&a, driver->DeviceObject, IRP_MJ_READ, 4);
    build(&b, driver->DeviceObject, IRP_MJ_READ, 4);
    meet(cancel_it, &a, send_it, &b);
    WDM_CHECK(is_done(&a));
    WdmSend(driver->DeviceObject, IRP_MJ_WRITE, 0, 4);
    if (!WDM_CHECK(has_status(&b, STATUS_SUCCESS)))
        WdmCancelRequest(b.Irp);
    unload(driver);
}

WDM_TEST(in_every_order_a_cancel_meets_a_write)
{
    PDRIVER_OBJECT driver = WdmLoadByName(DRIVER);
    send(&a, driver->DeviceObject, IRP_MJ_READ, 4);
    meet(cancel_it, &a, write_once, driver->DeviceObject);
    WDM_CHECK(is_done(&a));
    unload(driver);
}

WDM_TEST(in_every_order_a_read_meets_its_cancel)
{
    PDRIVER_OBJECT driver = WdmLoadByName(DRIVER);
    build(&a, driver->DeviceObject, IRP_MJ_READ, 4);
    meet(cancel_it, &a, send_it, &a);
    WdmSend(driver->DeviceObject, IRP_MJ_WRITE, 0, 4);
    WDM_CHECK(is_done(&a));
    unload(driver);
}

WDM_TEST(in_every_order_a_write_meets_a_read_that_is_cancelled)
{
    pthread_t t;
    PDRIVER_OBJECT driver = WdmLoadByName(DRIVER);
    build(&a, driver->DeviceObject, IRP_MJ_READ, 4);
    pthread_create(&t, NULL, cancel_it, &a);
    meet(write_once, driver->DeviceObject, send_it, &a);
    pthread_join(t, NULL);
    WdmSend(driver->DeviceObject, IRP_MJ_WRITE, 0, 4);
    WDM_CHECK(is_done(&a));
    unload(driver);
}
