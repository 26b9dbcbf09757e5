/* power_manager.c: the thread that sends what drivers ask for by PoRequestPowerIrp at DISPATCH_LEVEL to a stack that wants
   its power packets at PASSIVE_LEVEL, and the states that drivers report. Both are under G. */
#include "explore/explore.h"
#include "ke/ke.h"
#include "record/record.h"
#include "rules/rules.h"

static POWER_STATE reported[MAX_DEVICES][2]; /* of a device: of the system, of the device; unspecified at first */

/* Returns what was reported before. */
POWER_STATE PoSetPowerState(PDEVICE_OBJECT Device, POWER_STATE_TYPE Type, POWER_STATE State)
{
    Call c;
    enter_host(&c, "PoSetPowerState", (WDM_SITE){ 0 });
    POWER_STATE *const kept = &reported[device_number(Device)][Type == DevicePowerState];
    const POWER_STATE before = *kept;
    *kept = State;
    leave_host();
    return before;
}

/* Under G: whether its driver, which then is in charge of its power, said that the device has none. */
bool is_reported_off(int device) { return reported[device][true].DeviceState > PowerDeviceD0; }

enum { MAX_WAITING = 64 };
typedef struct { PDEVICE_OBJECT top; PIRP irp; WDM_SITE at; } Sending;

static Condition packets_came = { &host_lock, PTHREAD_COND_INITIALIZER };
static Sending waiting[MAX_WAITING];
static int n_waiting;
static bool runs, is_at_work;

bool power_manager_is_idle(void) { return !n_waiting && !is_at_work; }

static bool has_packet(const void *unused)
{
    (void)unused;
    return n_waiting > 0;
}

static Sending next_packet(void)
{
    const Wait w = { .ready = has_packet, .on = &packets_came, .patience = IDLES, .what = "the power manager's packets" };
    Call c;
    enter_host(&c, "the power manager", (WDM_SITE){ 0 });
    is_at_work = false;
    tell_waiters(&host_settled);
    touch(&n_waiting, SYNCS);
    wait_for(&w);
    touch(&n_waiting, SYNCS);
    const Sending next = waiting[0];
    memmove(waiting, waiting + 1, (size_t)--n_waiting * sizeof *waiting);
    is_at_work = true;
    leave_host();
    return next;
}

static void *manage(void *unused)
{
    (void)unused;
    for (;;) {
        const Sending s = next_packet();
        WdmIoCallDriver(s.top, s.irp, s.at);
    }
    return NULL;
}

void send_at_passive_level(PDEVICE_OBJECT top, PIRP irp, WDM_SITE at)
{
    Call c;
    enter_host(&c, "PoRequestPowerIrp", at);
    if (n_waiting == MAX_WAITING)
        reach_limit("more than 64 packets for the power manager");
    waiting[n_waiting++] = (Sending){ top, irp, at };
    touch(&n_waiting, SYNCS);
    if (!runs)
        runs = !start_thread(manage, NULL, "power manager", NULL, NULL);
    tell_waiters(&packets_came);
    leave_host();
}
