/* Bytes has the sum of what reads were answered with, whether they were answered at once, later, or with an error;
   and where two come back at once. */
#include "../lesson_test.h"

extern volatile LONG Bytes;

static PDEVICE_OBJECT bottom, top;
static REQUEST a, b;

/* A read that the device below holds, and answers then. */
static void read_later(NTSTATUS status, ULONG_PTR information)
{
    pthread_t sender = send_until_held(&a, top, IRP_MJ_READ, 0);
    answer(status, information);
    wait_for(&a);
    pthread_join(sender, NULL);
}

static void *answer_five(void *context)
{
    answer(STATUS_SUCCESS, 5);
    return context;
}

WDM_TEST(bytes_has_the_sum)
{
    top = stack(&bottom);
    pnp(top, IRP_MN_START_DEVICE);
    below.Information = 3;
    send(&a, top, IRP_MJ_READ, 8);
    WDM_CHECK(has_status(&a, STATUS_SUCCESS) && a.Iosb.Information == 3);
    WDM_CHECK(Bytes == 3);
    below.HoldsReads = TRUE;
    read_later(STATUS_SUCCESS, 5);
    WDM_CHECK(Bytes == 8);
    read_later(STATUS_IO_DEVICE_ERROR, 0);
    WDM_CHECK(a.Iosb.Status == STATUS_IO_DEVICE_ERROR && Bytes == 8);
    take_away(top, bottom);
}

WDM_TEST(in_every_order_two_reads_come_back)
{
    pthread_t senders[2], other;
    top = stack(&bottom);
    pnp(top, IRP_MN_START_DEVICE);
    below.HoldsReads = TRUE;
    senders[0] = send_until_held(&a, top, IRP_MJ_READ, 0), senders[1] = send_until_held(&b, top, IRP_MJ_READ, 0);
    pthread_create(&other, NULL, answer_five, NULL);
    answer(STATUS_SUCCESS, 3);
    pthread_join(other, NULL), pthread_join(senders[0], NULL), pthread_join(senders[1], NULL);
    WDM_CHECK(is_done(&a) && is_done(&b));
    WDM_CHECK(Bytes == 3 + 5);
    take_away(top, bottom);
}
