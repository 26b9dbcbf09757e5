/* The device answers reads from the time on at which the drivers below have started, and not before; and not where they
   failed. */
#include "../lesson_test.h"

static BOOLEAN answers_reads(PDEVICE_OBJECT top)
{
    const NTSTATUS status = WdmSend(top, IRP_MJ_READ, 0, 4);
    return NT_SUCCESS(status);
}

/* The drivers below take their time, and then answer with a status. `is_new`: it wasn't started before. */
static void start_later(PDEVICE_OBJECT top, NTSTATUS status, BOOLEAN is_new)
{
    static REQUEST r;
    LARGE_INTEGER a_moment = { .QuadPart = -10000LL * 20 };
    below.HoldsStarts = TRUE;
    pthread_t sender = send_until_held(&r, top, IRP_MJ_PNP, IRP_MN_START_DEVICE);
    KeDelayExecutionThread(KernelMode, FALSE, &a_moment);
    WDM_CHECK(!is_done(&r));
    WDM_CHECK(!is_new || !answers_reads(top));
    answer(status, 0);
    wait_for(&r);
    pthread_join(sender, NULL);
    WDM_CHECK(r.Iosb.Status == status);
    below.HoldsStarts = FALSE;
}

WDM_TEST(it_starts_when_the_drivers_below_have_started)
{
    PDEVICE_OBJECT bottom, top = stack(&bottom);
    WDM_CHECK(!answers_reads(top));
    start_later(top, STATUS_SUCCESS, TRUE);
    WDM_CHECK(answers_reads(top));
    take_away(top, bottom);
}

WDM_TEST(it_starts_a_second_time)
{
    PDEVICE_OBJECT bottom, top = stack(&bottom);
    start_later(top, STATUS_SUCCESS, TRUE);
    pnp(top, IRP_MN_QUERY_STOP_DEVICE), pnp(top, IRP_MN_STOP_DEVICE);
    start_later(top, STATUS_SUCCESS, FALSE);
    WDM_CHECK(answers_reads(top));
    take_away(top, bottom);
}

/* However long the drivers below take. */
WDM_TEST(in_every_order_it_waits_for_the_drivers_below)
{
    static REQUEST r;
    PDEVICE_OBJECT bottom, top = stack(&bottom);
    below.HoldsStarts = TRUE;
    pthread_t sender = send_until_held(&r, top, IRP_MJ_PNP, IRP_MN_START_DEVICE);
    answer(STATUS_SUCCESS, 0);
    wait_for(&r);
    pthread_join(sender, NULL);
    take_away(top, bottom);
}

WDM_TEST(it_starts_when_they_start_at_once)
{
    PDEVICE_OBJECT bottom, top = stack(&bottom);
    WDM_CHECK(pnp(top, IRP_MN_START_DEVICE) == STATUS_SUCCESS);
    WDM_CHECK(answers_reads(top));
    take_away(top, bottom);
}

WDM_TEST(it_does_not_start_where_they_fail_later)
{
    PDEVICE_OBJECT bottom, top = stack(&bottom);
    start_later(top, STATUS_IO_DEVICE_ERROR, TRUE);
    WDM_CHECK(!answers_reads(top));
    take_away(top, bottom);
}

WDM_TEST(it_does_not_start_where_they_fail_at_once)
{
    PDEVICE_OBJECT bottom, top = stack(&bottom);
    below.Status = STATUS_IO_DEVICE_ERROR;
    WDM_CHECK(pnp(top, IRP_MN_START_DEVICE) == STATUS_IO_DEVICE_ERROR);
    below.Status = STATUS_SUCCESS;
    WDM_CHECK(!answers_reads(top));
    take_away(top, bottom);
}
