/* Three reads wait in the queue. One is cancelled, and two writes answer the others, the oldest one first. Then two reads
   wait, and a write comes while the older one is cancelled; or their handle is closed. */
#include "../lesson_test.h"

static REQUEST a, b, c;

static BOOLEAN is_answered(REQUEST *r) { return has_status(r, STATUS_SUCCESS); }

WDM_TEST(three_reads_wait_and_the_oldest_is_answered_first)
{
    PDRIVER_OBJECT driver = WdmLoadByName(DRIVER);
    const PDEVICE_OBJECT device = driver->DeviceObject;
    send(&a, device, IRP_MJ_READ, 4), send(&b, device, IRP_MJ_READ, 4), send(&c, device, IRP_MJ_READ, 4);
    if (!WDM_CHECK(!is_done(&a) && !is_done(&b) && !is_done(&c)))
        return;
    WdmCancelRequest(b.Irp);
    WDM_CHECK(has_status(&b, STATUS_CANCELLED));
    WdmSend(device, IRP_MJ_WRITE, 0, 4);
    WDM_CHECK(is_answered(&a) && !is_answered(&c));
    WdmSend(device, IRP_MJ_WRITE, 0, 4);
    WDM_CHECK(is_answered(&c));
    unload(driver);
}

/* Either read may get the answer, but one of them does. A last write answers what is left. */
WDM_TEST(a_write_that_meets_a_cancel_answers_one_of_two_reads)
{
    pthread_t canceller;
    const PDEVICE_OBJECT device = WdmLoadByName(DRIVER)->DeviceObject;
    send(&a, device, IRP_MJ_READ, 4), send(&b, device, IRP_MJ_READ, 4);
    pthread_create(&canceller, NULL, cancel_it, &a);
    write_once(device);
    pthread_join(canceller, NULL);
    WDM_CHECK(is_answered(&a) || is_answered(&b));
    WdmSend(device, IRP_MJ_WRITE, 0, 4);
}

/* The write answers the read, or ends before it comes. */
WDM_TEST(in_every_order_a_read_meets_a_write)
{
    PDRIVER_OBJECT driver = WdmLoadByName(DRIVER);
    build(&a, driver->DeviceObject, IRP_MJ_READ, 4);
    meet(write_once, driver->DeviceObject, send_it, &a);
    WdmSend(driver->DeviceObject, IRP_MJ_WRITE, 0, 4);
    WDM_CHECK(is_answered(&a));
    unload(driver);
}

WDM_TEST(a_closed_handle_has_no_reads_left)
{
    PDRIVER_OBJECT driver = WdmLoadByName(DRIVER);
    PFILE_OBJECT file = WdmOpenFile(driver->DeviceObject);
    send(&a, driver->DeviceObject, IRP_MJ_READ, 4), send(&b, driver->DeviceObject, IRP_MJ_READ, 4);
    WdmCloseFile(file);
    WDM_CHECK(has_status(&a, STATUS_CANCELLED) && has_status(&b, STATUS_CANCELLED));
    unload(driver);
}

WDM_TEST(in_every_order_a_cancel_meets_the_end_of_its_handle)
{
    pthread_t canceller;
    const PDEVICE_OBJECT device = WdmLoadByName(DRIVER)->DeviceObject;
    PFILE_OBJECT file = WdmOpenFile(device);
    send(&a, device, IRP_MJ_READ, 4);
    pthread_create(&canceller, NULL, cancel_it, &a);
    WdmCloseFile(file);
    pthread_join(canceller, NULL);
    WDM_CHECK(has_status(&a, STATUS_CANCELLED));
}
