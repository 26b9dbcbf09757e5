/* timers_asleep.c: timers that are armed when their device's driver lets the power go, and go off meanwhile. Under G. */
#include "ke/ke.h"
#include "pnp/pnp.h"
#include "record/record.h"

enum { MAX_ASLEEP = 64 };
static struct { PKTIMER timer; int device; } asleep[MAX_ASLEEP];
static int n_asleep;
static unsigned long n_rung;

void forget_asleep(const KTIMER *timer)
{
    for (int i = 0; i < n_asleep; i++)
        if (asleep[i].timer == timer)
            asleep[i--] = asleep[--n_asleep];
}

static bool is_set_device(const IO_STACK_LOCATION *l)
{
    return l->MajorFunction == IRP_MJ_POWER && l->MinorFunction == IRP_MN_SET_POWER &&
        l->Parameters.Power.Type == DevicePowerState;
}

static bool lies_in_extension(const void *it, const DEVICE_OBJECT *device)
{
    const char *begin = device->DeviceExtension;
    return (const char *)it >= begin && (const char *)it < begin + device->HostExtensionSize;
}

/* Whether the timer, its deferred call or what that is given lies in the device's extension, or is the device. */
static bool is_timer_of(const KTIMER *t, const DEVICE_OBJECT *device)
{
    return t->Dpc && (lies_in_extension(t, device) || lies_in_extension(t->Dpc, device) ||
                      lies_in_extension(t->Dpc->DeferredContext, device) || t->Dpc->DeferredContext == device);
}

/* A request comes to the device: its power is there from now on, where it says so. */
void power_comes(const IO_STACK_LOCATION *l, int device)
{
    if (!is_set_device(l))
        return;
    for (int i = 0; i < n_asleep; i++)
        if (asleep[i].device == device)
            asleep[i--] = asleep[--n_asleep];
}

/* Its dispatch passes a request on: what it does to its device it has done before. A driver that only stands over it, and isn't
   in charge of its power, may go on. */
void power_goes(const IO_STACK_LOCATION *l, int device)
{
    power_comes(l, device);
    if (!is_set_device(l) || l->Parameters.Power.State.DeviceState <= PowerDeviceD0 || !is_reported_off(device))
        return;
    for (PKTIMER t = armed_timers(); t && n_asleep < MAX_ASLEEP; t = t->HostNext)
        if (is_timer_of(t, devices[device].raw))
            asleep[n_asleep].timer = t, asleep[n_asleep++].device = device;
}

/* The clock's thread: a timer is due. */
void tell_asleep(const KTIMER *t)
{
    for (int i = 0; i < n_asleep; i++)
        if (asleep[i].timer == t) {
            n_rung++;
            note("a timer in D3", "the timer that was set at %s goes off while %s has no power: call KeCancelTimer before the "
                 "power goes, since %s may touch the device", place(*t->HostSet), who(asleep[i].device),
                 function_name((void *)t->Dpc->DeferredRoutine));
        }
}

ULONG next_timer_asleep(void)
{
    PKTIMER next = NULL;
    hold_host("the host's own test", &asleep, SYNCS);
    for (int i = 0; i < n_asleep; i++)
        if (!next || asleep[i].timer->DueTime.QuadPart < next->DueTime.QuadPart)
            next = asleep[i].timer;
    const LONGLONG left = next ? (next->DueTime.QuadPart - now_in_100ns()) / 10000 + 1 : 0;
    pthread_mutex_unlock(&host_lock);
    return !next ? 0 : left > 1 ? (ULONG)left : 1;
}

unsigned long timers_rung_asleep(void)
{
    hold_host("the host's own test", &asleep, SYNCS);
    const unsigned long n = n_rung;
    pthread_mutex_unlock(&host_lock);
    return n;
}
