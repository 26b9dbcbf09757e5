/* threads.c: `threads N ROUNDS` sends to bus, toaster and filter from N - 1 threads, while one more is the hardware and
   cancels. WDM_SHAKE is the seed by which the host mixes the threads. The transcript goes to standard output. */
#include "recorder.h"
#include "ending.h"
#include "wdm_test.h"
#include <pthread.h>
#include <sched.h>

enum { MOST = 16 };
DRIVER_INITIALIZE bus_DriverEntry, toaster_DriverEntry, filter_DriverEntry;
NTSTATUS BusCreatePdo(PDRIVER_OBJECT DriverObject, PDEVICE_OBJECT *Pdo);
BOOLEAN BusDataArrived(PDEVICE_OBJECT Pdo, ULONG Bytes);

typedef struct { PIRP irp; KEVENT done; } Request;
static PDEVICE_OBJECT pdo, top;
static pthread_mutex_t shared = PTHREAD_MUTEX_INITIALIZER;
static PIRP in_flight[MOST]; /* what may be cancelled, for each sender; under `shared` */
static LONG running;
static int n_senders, rounds;

static NTSTATUS keep_for_me(PDEVICE_OBJECT device, PIRP irp, PVOID context)
{
    (void)device, (void)irp;
    KeSetEvent(&((Request *)context)->done, IO_NO_INCREMENT, FALSE);
    return STATUS_MORE_PROCESSING_REQUIRED;
}

static void show(int sender, PIRP irp)
{
    pthread_mutex_lock(&shared);
    in_flight[sender] = irp;
    pthread_mutex_unlock(&shared);
}

/* A packet of the test's own, which it keeps at the end and frees. */
static void send_own(int sender, UCHAR major, ULONG length, BOOLEAN cancelled)
{
    Request r;
    KeInitializeEvent(&r.done, NotificationEvent, FALSE);
    r.irp = IoAllocateIrp(top->StackSize, FALSE);
    PIO_STACK_LOCATION next = IoGetNextIrpStackLocation(r.irp);
    next->MajorFunction = major;
    next->Parameters.Read.Length = length;
    IoSetCompletionRoutine(r.irp, keep_for_me, &r, TRUE, TRUE, TRUE);
    if (cancelled)
        IoCancelIrp(r.irp);
    show(sender, r.irp);
    IoCallDriver(top, r.irp);
    KeWaitForSingleObject(&r.done, Executive, KernelMode, FALSE, NULL);
    show(sender, NULL);
    IoFreeIrp(r.irp);
}

static void *sender(void *number)
{
    const int n = (int)(intptr_t)number;
    for (int i = 0; i < rounds; i++) {
        send_own(n, IRP_MJ_READ, (ULONG)(10 * i + n + 1), i % 9 == 8);
        if (i % 3 == 0)
            send_own(n, IRP_MJ_WRITE, (ULONG)i % 5, FALSE);
        if (i % 4 == 0)
            send_own(n, IRP_MJ_DEVICE_CONTROL, 16, FALSE);
    }
    InterlockedDecrement(&running);
    return NULL;
}

/* It also sends packets that the recorder doesn't see being made. */
static void *hardware(void *nothing)
{
    unsigned chance = 7;
    (void)nothing;
    while (InterlockedExchangeAdd(&running, 0) > 0) {
        if (rand_r(&chance) % 2)
            BusDataArrived(pdo, 8);
        else {
            pthread_mutex_lock(&shared);
            PIRP irp = in_flight[rand_r(&chance) % (unsigned)n_senders];
            if (irp)
                IoCancelIrp(irp);
            pthread_mutex_unlock(&shared);
        }
        if (rand_r(&chance) % 8 == 0)
            WdmSend(top, IRP_MJ_WRITE, 0, 3);
        sched_yield();
    }
    return NULL;
}

static void run_threads(void)
{
    pthread_t t[MOST];
    running = n_senders;
    for (int i = 0; i < n_senders; i++)
        pthread_create(&t[i], NULL, sender, (void *)(intptr_t)i);
    pthread_create(&t[n_senders], NULL, hardware, NULL);
    for (int i = 0; i <= n_senders; i++)
        pthread_join(t[i], NULL);
}

int main(int argc, char **argv)
{
    n_senders = argc > 1 ? atoi(argv[1]) - 1 : 1;
    rounds = argc > 2 ? atoi(argv[2]) : 10;
    if (n_senders < 1 || n_senders >= MOST)
        return 2;
    begin_to_watch();
    irpx_options.pend = TRUE; /* the toaster's start forwards and waits */
    PDRIVER_OBJECT bus = WdmLoadDriver("bus", bus_DriverEntry), toaster = WdmLoadDriver("toaster", toaster_DriverEntry),
                   filter = WdmLoadDriver("filter", filter_DriverEntry);
    BusCreatePdo(bus, &pdo);
    toaster->DriverExtension->AddDevice(toaster, pdo);
    filter->DriverExtension->AddDevice(filter, pdo);
    top = IoGetAttachedDevice(pdo);
    WdmSend(top, IRP_MJ_PNP, IRP_MN_START_DEVICE, 0);
    WdmSend(top, IRP_MJ_CREATE, 0, 0); /* the toaster has no dispatch for it */
    run_threads();
    WdmSend(top, IRP_MJ_PNP, IRP_MN_REMOVE_DEVICE, 0);
    IoDeleteDevice(pdo);
    write_transcript();
    IrpxForget();
    _Exit(0); /* the host would tell that nobody called WdmFinish */
}
