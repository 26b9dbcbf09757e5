/* The removal waits for each read that is below, and who comes behind the removal is told so. */
#include "../lesson_test.h"

static PDEVICE_OBJECT bottom, top;
static REQUEST a, b, removal;

static void begin(void)
{
    top = stack(&bottom);
    pnp(top, IRP_MN_START_DEVICE);
    below.HoldsReads = TRUE;
}

static void *remove_it(void *context)
{
    build(&removal, top, IRP_MJ_PNP, 0);
    IoGetNextIrpStackLocation(removal.Irp)->MinorFunction = IRP_MN_REMOVE_DEVICE;
    IoCallDriver(top, removal.Irp);
    wait_for(&removal);
    return context;
}

static void wait_a_moment(LONG milliseconds)
{
    LARGE_INTEGER time = { .QuadPart = -10000LL * milliseconds };
    KeDelayExecutionThread(KernelMode, FALSE, &time);
}

static void *answer_with_an_error(void *context)
{
    answer(STATUS_DELETE_PENDING, 0);
    return context;
}

/* Whoever sends behind the removal has a reference to the device. */
WDM_TEST(a_request_behind_the_removal_is_refused)
{
    begin();
    ObReferenceObject(top);
    remove_it(NULL);
    WDM_CHECK(!NT_SUCCESS(WdmSend(top, IRP_MJ_READ, 0, 4)));
    WDM_CHECK(!NT_SUCCESS(WdmSend(top, IRP_MJ_WRITE, 0, 4)));
    WDM_CHECK(below.NReads == 0);
    ObDereferenceObject(top);
    IoDeleteDevice(bottom);
}

/* The device below ends both reads once the removal has come to it. Nobody refers to the device when it goes. */
WDM_TEST(in_every_order_the_removal_waits_for_two_reads)
{
    pthread_t remover, other, senders[2];
    begin();
    senders[0] = send_until_held(&a, top, IRP_MJ_READ, 0), senders[1] = send_until_held(&b, top, IRP_MJ_READ, 0);
    pthread_create(&remover, NULL, remove_it, NULL);
    KeWaitForSingleObject(&below.GotRemove, Executive, KernelMode, FALSE, NULL);
    pthread_create(&other, NULL, answer_with_an_error, NULL);
    answer(STATUS_SUCCESS, 8);
    pthread_join(other, NULL), pthread_join(remover, NULL);
    pthread_join(senders[0], NULL), pthread_join(senders[1], NULL);
    WDM_CHECK(is_done(&a) && is_done(&b));
    IoDeleteDevice(bottom);
}

/* The second read comes while the removal waits for the first. */
WDM_TEST(a_read_comes_while_the_removal_waits)
{
    pthread_t remover, senders[2];
    begin();
    senders[0] = send_until_held(&a, top, IRP_MJ_READ, 0);
    pthread_create(&remover, NULL, remove_it, NULL);
    KeWaitForSingleObject(&below.GotRemove, Executive, KernelMode, FALSE, NULL);
    wait_a_moment(20);
    senders[1] = send_until_held(&b, top, IRP_MJ_READ, 0);
    while (answer(STATUS_DELETE_PENDING, 0))
        ;
    pthread_join(remover, NULL), pthread_join(senders[0], NULL), pthread_join(senders[1], NULL);
    WDM_CHECK(is_done(&a) && is_done(&b) && !NT_SUCCESS(b.Iosb.Status));
    IoDeleteDevice(bottom);
}

static void meets_the_removal(UCHAR major)
{
    pthread_t remover;
    begin();
    below.HoldsReads = FALSE;
    ObReferenceObject(top);
    build(&a, top, major, 4);
    pthread_create(&remover, NULL, remove_it, NULL);
    send_it(&a);
    pthread_join(remover, NULL);
    WDM_CHECK(is_done(&a));
    ObDereferenceObject(top);
    IoDeleteDevice(bottom);
}

WDM_TEST(in_every_order_a_read_meets_the_removal) { meets_the_removal(IRP_MJ_READ); }
WDM_TEST(in_every_order_a_write_meets_the_removal) { meets_the_removal(IRP_MJ_WRITE); }
