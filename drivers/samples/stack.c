/* stack.c [ROUNDS]: a test of bus, toaster and filter, on one thread, or with a second one that is the hardware. */
#include "wdm_test.h"
#include <pthread.h>
#include <sched.h>

DRIVER_INITIALIZE bus_DriverEntry, toaster_DriverEntry, filter_DriverEntry;
NTSTATUS BusCreatePdo(PDRIVER_OBJECT DriverObject, PDEVICE_OBJECT *Pdo);
BOOLEAN BusDataArrived(PDEVICE_OBJECT Pdo, ULONG Bytes);

typedef struct { PIRP irp; KEVENT done; } Request;
static PDEVICE_OBJECT pdo;
static pthread_mutex_t shared = PTHREAD_MUTEX_INITIALIZER;
static PIRP in_flight; /* what the second thread may cancel; under `shared` */
static LONG over;

static NTSTATUS keep_for_me(PDEVICE_OBJECT device, PIRP irp, PVOID context)
{
    Request *r = context;
    (void)device, (void)irp;
    KeSetEvent(&r->done, IO_NO_INCREMENT, FALSE);
    return STATUS_MORE_PROCESSING_REQUIRED;
}

/* Sends a read that its sender keeps at the end, so that it can be cancelled safely. */
static Request *start_read(ULONG length, BOOLEAN cancelled)
{
    Request *r = calloc(1, sizeof *r);
    PDEVICE_OBJECT top = IoGetAttachedDevice(pdo);
    KeInitializeEvent(&r->done, NotificationEvent, FALSE);
    r->irp = WdmBuildIrp(top, IRP_MJ_READ, 0, length, NULL, NULL);
    IoSetCompletionRoutine(r->irp, keep_for_me, r, TRUE, TRUE, TRUE);
    if (cancelled)
        IoCancelIrp(r->irp);
    pthread_mutex_lock(&shared);
    in_flight = r->irp;
    pthread_mutex_unlock(&shared);
    IoCallDriver(top, r->irp);
    return r;
}

static void finish_read(Request *r)
{
    KeWaitForSingleObject(&r->done, Executive, KernelMode, FALSE, NULL);
    pthread_mutex_lock(&shared);
    in_flight = NULL;
    pthread_mutex_unlock(&shared);
    IoFreeIrp(r->irp);
    free(r);
}

static void *hardware(void *context)
{
    unsigned chance = 7;
    (void)context;
    while (!__atomic_load_n(&over, __ATOMIC_SEQ_CST)) {
        if (rand_r(&chance) % 2)
            BusDataArrived(pdo, 8);
        else {
            pthread_mutex_lock(&shared);
            if (in_flight)
                IoCancelIrp(in_flight);
            pthread_mutex_unlock(&shared);
        }
        if (rand_r(&chance) % 8 == 0)
            WdmSend(IoGetAttachedDevice(pdo), IRP_MJ_WRITE, 0, 3);
        sched_yield();
    }
    return NULL;
}

static void run_rounds(PDEVICE_OBJECT top, int rounds)
{
    pthread_t t;
    pthread_create(&t, NULL, hardware, NULL);
    for (int i = 0; i < rounds; i++) {
        finish_read(start_read((ULONG)i + 1, FALSE));
        if (i % 4 == 0)
            WdmControl(top, 0, 16);
    }
    InterlockedExchange(&over, 1);
    pthread_join(t, NULL);
}

/* One read ends with data, one is cancelled while it waits, one before it is sent. */
static void run_once(void)
{
    Request *a = start_read(10, FALSE), *b = start_read(20, FALSE), *c;
    BusDataArrived(pdo, 10);
    IoCancelIrp(b->irp);
    finish_read(a);
    finish_read(b);
    c = start_read(30, TRUE);
    if (!KeReadStateEvent(&c->done))
        BusDataArrived(pdo, 30);
    finish_read(c);
}

int main(int argc, char **argv)
{
    PDRIVER_OBJECT bus = WdmLoadDriver("bus", bus_DriverEntry), toaster = WdmLoadDriver("toaster", toaster_DriverEntry),
                   filter = WdmLoadDriver("filter", filter_DriverEntry);
    if (!NT_SUCCESS(BusCreatePdo(bus, &pdo)))
        return WdmFinish();
    toaster->DriverExtension->AddDevice(toaster, pdo);
    filter->DriverExtension->AddDevice(filter, pdo);
    PDEVICE_OBJECT top = IoGetAttachedDevice(pdo);
    WdmSend(top, IRP_MJ_PNP, IRP_MN_START_DEVICE, 0);
    WdmSend(top, IRP_MJ_PNP, IRP_MN_QUERY_CAPABILITIES, 0); /* which nobody answers */
    WdmSend(top, IRP_MJ_POWER, IRP_MN_SET_POWER, 0);
    WdmSend(top, IRP_MJ_WRITE, 0, 5);
    WdmSend(top, IRP_MJ_WRITE, 0, 0);
    WdmSend(top, IRP_MJ_CREATE, 0, 0); /* the toaster has no dispatch for it */
    WdmControl(top, 0, 16);
    if (argc > 1)
        run_rounds(top, (int)WdmRounds((ULONG)atoi(argv[1])));
    else
        run_once();
    WdmSend(top, IRP_MJ_PNP, IRP_MN_REMOVE_DEVICE, 0);
    IoDeleteDevice(pdo);
    WdmExpectEntries(60);
    return WdmFinish();
}
