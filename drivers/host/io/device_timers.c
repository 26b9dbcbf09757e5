/* device_timers.c: a device's own timer (IoInitializeTimer), over the host's timers. */
#include "explore/explore.h"
#include "ke/ke.h"

typedef struct DeviceTimer {
    KTIMER timer;
    KDPC dpc;
    PDEVICE_OBJECT device;
    PIO_TIMER_ROUTINE routine;
    PVOID context;
    struct DeviceTimer *next;
} DeviceTimer;
static DeviceTimer *device_timers;

/* A device's own timer goes off each second. */
static VOID device_timer(PKDPC Dpc, PVOID Context, PVOID A, PVOID B)
{
    DeviceTimer *t = Context;
    (void)Dpc, (void)A, (void)B;
    t->routine(t->device, t->context);
}

NTSTATUS IoInitializeTimer(PDEVICE_OBJECT Device, PIO_TIMER_ROUTINE Routine, PVOID Context)
{
    DeviceTimer *t = host_memory(sizeof *t);
    if (!t)
        return STATUS_INSUFFICIENT_RESOURCES;
    t->device = Device;
    t->routine = Routine;
    t->context = Context;
    KeInitializeTimerEx(&t->timer, NotificationTimer);
    t->dpc = (KDPC){ .DeferredRoutine = device_timer, .DeferredContext = t, .HostDriver = Device->DriverObject->HostNumber };
    hold_host("IoInitializeTimer", &device_timers, WRITES);
    t->next = device_timers;
    device_timers = t;
    pthread_mutex_unlock(&host_lock);
    return STATUS_SUCCESS;
}

static DeviceTimer *timer_of(PDEVICE_OBJECT device)
{
    hold_host("a device's timer", &device_timers, READS);
    DeviceTimer *t = device_timers;
    while (t && t->device != device)
        t = t->next;
    pthread_mutex_unlock(&host_lock);
    return t;
}

VOID IoStartTimer(PDEVICE_OBJECT Device)
{
    DeviceTimer *t = timer_of(Device);
    if (t)
        WdmKeSetTimer(&t->timer, (LARGE_INTEGER){ .QuadPart = -10000000 }, 1000, &t->dpc, (WDM_SITE){ 0 });
}

VOID IoStopTimer(PDEVICE_OBJECT Device)
{
    DeviceTimer *t = timer_of(Device);
    if (t)
        KeCancelTimer(&t->timer);
}
