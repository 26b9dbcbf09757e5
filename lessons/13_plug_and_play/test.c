/* The device answers reads while it is started: not before, not while somebody asks for it, not while it is stopped, and not when
   it is gone; and again where the question came to nothing. */
#include "../lesson_test.h"

static PDEVICE_OBJECT bottom, top;

static BOOLEAN answers_reads(void)
{
    const NTSTATUS status = WdmSend(top, IRP_MJ_READ, 0, 4);
    return NT_SUCCESS(status);
}

static BOOLEAN tell(UCHAR minor)
{
    const NTSTATUS status = pnp(top, minor);
    return NT_SUCCESS(status);
}

WDM_TEST(it_stops_and_starts_again)
{
    top = stack(&bottom);
    WDM_CHECK(!answers_reads());
    WDM_CHECK(tell(IRP_MN_START_DEVICE) && answers_reads());
    WDM_CHECK(tell(IRP_MN_QUERY_STOP_DEVICE) && !answers_reads());
    WDM_CHECK(tell(IRP_MN_STOP_DEVICE) && !answers_reads());
    WDM_CHECK(tell(IRP_MN_START_DEVICE) && answers_reads());
    take_away(top, bottom);
}

WDM_TEST(a_stop_comes_to_nothing)
{
    top = stack(&bottom);
    tell(IRP_MN_START_DEVICE);
    tell(IRP_MN_QUERY_STOP_DEVICE);
    WDM_CHECK(tell(IRP_MN_CANCEL_STOP_DEVICE) && answers_reads());
    take_away(top, bottom);
}

WDM_TEST(a_removal_comes_to_nothing)
{
    top = stack(&bottom);
    tell(IRP_MN_START_DEVICE);
    WDM_CHECK(tell(IRP_MN_QUERY_REMOVE_DEVICE) && !answers_reads());
    WDM_CHECK(tell(IRP_MN_CANCEL_REMOVE_DEVICE) && answers_reads());
    take_away(top, bottom);
}

/* It was stopped before anybody asked to remove it. */
WDM_TEST(a_stopped_device_stays_stopped)
{
    top = stack(&bottom);
    tell(IRP_MN_START_DEVICE);
    tell(IRP_MN_QUERY_STOP_DEVICE);
    tell(IRP_MN_STOP_DEVICE);
    WDM_CHECK(tell(IRP_MN_QUERY_REMOVE_DEVICE) && tell(IRP_MN_CANCEL_REMOVE_DEVICE) && !answers_reads());
    WDM_CHECK(tell(IRP_MN_START_DEVICE) && answers_reads());
    take_away(top, bottom);
}

/* A driver above said no, so the question didn't come down here; and the device hasn't started. */
WDM_TEST(a_cancel_without_a_query_starts_nothing)
{
    top = stack(&bottom);
    WDM_CHECK(tell(IRP_MN_CANCEL_REMOVE_DEVICE) && !answers_reads());
    WDM_CHECK(tell(IRP_MN_QUERY_REMOVE_DEVICE) && tell(IRP_MN_CANCEL_REMOVE_DEVICE) && !answers_reads());
    take_away(top, bottom);
}

WDM_TEST(the_device_is_gone)
{
    top = stack(&bottom);
    tell(IRP_MN_START_DEVICE);
    WDM_CHECK(tell(IRP_MN_SURPRISE_REMOVAL) && !answers_reads());
    take_away(top, bottom);
}

WDM_TEST(it_is_not_started_where_the_drivers_below_fail)
{
    top = stack(&bottom);
    below.Status = STATUS_IO_DEVICE_ERROR;
    WDM_CHECK(!tell(IRP_MN_START_DEVICE));
    below.Status = STATUS_SUCCESS;
    WDM_CHECK(!answers_reads());
    take_away(top, bottom);
}

WDM_TEST(a_removal_takes_the_device_away)
{
    top = stack(&bottom);
    PDRIVER_OBJECT driver = top->DriverObject;
    tell(IRP_MN_START_DEVICE);
    tell(IRP_MN_REMOVE_DEVICE);
    WDM_CHECK(bottom->AttachedDevice == NULL);
    IoDeleteDevice(bottom);
    unload(driver);
}

/* Two devices are asked at once. The other one was never started. */
WDM_TEST(each_device_has_its_own_state)
{
    PDEVICE_OBJECT other = NULL;
    top = stack(&bottom);
    tell(IRP_MN_START_DEVICE);
    IoCreateDevice(bottom->DriverObject, 0, NULL, FILE_DEVICE_UNKNOWN, 0, FALSE, &other);
    other->Flags &= ~(ULONG)DO_DEVICE_INITIALIZING;
    WdmAddDevice(top->DriverObject, other);
    tell(IRP_MN_QUERY_REMOVE_DEVICE);
    pnp(IoGetAttachedDevice(other), IRP_MN_QUERY_REMOVE_DEVICE);
    WDM_CHECK(tell(IRP_MN_CANCEL_REMOVE_DEVICE) && answers_reads());
    take_away(IoGetAttachedDevice(other), other);
    take_away(top, bottom);
}
