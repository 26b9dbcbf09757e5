/* plug_and_play_orders.c: the thread of the Plug and Play manager, and what it is told to do. The queue is under G. */
#include "pnp/plug_and_play.h"
#include "pnp/pnp.h"
#include "explore/explore.h"
#include "io/io.h"
#include "ke/ke.h"
#include "record/record.h"

enum { MAX_ORDERS = 256 };
typedef enum { LOOK_FOR_CHILDREN, PLUG_IN, STOP_AND_START, UNPLUG, SURPRISE, REMOVE_ALL } What;
typedef struct { bool is_done; NTSTATUS status; } Outcome;
typedef struct { What what; PDEVICE_OBJECT pdo; Outcome *outcome; } Order; /* outcome: NULL where nobody waits for it */

static Condition orders_came = { &host_lock, PTHREAD_COND_INITIALIZER };
static Order orders[MAX_ORDERS];
static int n_orders;
static bool runs, is_at_work;

bool plug_and_play_is_idle(void) { return !n_orders && !is_at_work; }

static bool has_order(const void *unused)
{
    (void)unused;
    return n_orders > 0;
}

static Order next_order(void)
{
    const Wait w = { .ready = has_order, .on = &orders_came, .patience = IDLES, .what = "the Plug and Play manager's orders" };
    Call c;
    enter_host(&c, "the Plug and Play manager", (WDM_SITE){ 0 });
    is_at_work = false;
    tell_waiters(&host_settled);
    touch(&n_orders, SYNCS);
    wait_for(&w);
    touch(&n_orders, SYNCS);
    const Order order = orders[0];
    memmove(orders, orders + 1, (size_t)--n_orders * sizeof *orders);
    is_at_work = true;
    leave_host();
    return order;
}

static NTSTATUS carry_out(const Order *o)
{
    switch (o->what) {
    case LOOK_FOR_CHILDREN: look_for_children(o->pdo); break;
    case PLUG_IN: return plug_in(o->pdo);
    case STOP_AND_START: stop_and_start(o->pdo); break;
    case UNPLUG: unplug(o->pdo); break;
    case SURPRISE: take_by_surprise(o->pdo); break;
    case REMOVE_ALL: remove_all(o->pdo); break;
    }
    return STATUS_SUCCESS;
}

static void tell_outcome(Outcome *outcome, NTSTATUS status)
{
    Call c;
    enter_host(&c, "the Plug and Play manager", (WDM_SITE){ 0 });
    touch(&n_orders, SYNCS);
    *outcome = (Outcome){ .is_done = true, .status = status };
    tell_waiters(&host_settled);
    leave_host();
}

static void *manage(void *unused)
{
    (void)unused;
    for (;;) {
        const Order o = next_order();
        const NTSTATUS status = carry_out(&o);
        if (o.outcome)
            tell_outcome(o.outcome, status);
    }
    return NULL;
}

/* Under G. */
static void put_order(What what, PDEVICE_OBJECT pdo, Outcome *outcome)
{
    if (n_orders == MAX_ORDERS)
        reach_limit("more than 256 orders for the Plug and Play manager");
    orders[n_orders++] = (Order){ .what = what, .pdo = pdo, .outcome = outcome };
    touch(&n_orders, SYNCS);
    if (!runs)
        runs = !start_thread(manage, NULL, "Plug and Play manager", NULL, NULL);
    tell_waiters(&orders_came);
}

static bool is_done(const void *outcome) { return ((const Outcome *)outcome)->is_done; }

/* The manager does it, and this thread waits. Where that never ends, the manager's own wait tells so. */
static NTSTATUS have_done(const char *name, What what, PDEVICE_OBJECT pdo, WDM_SITE at)
{
    Call c;
    Outcome outcome = { 0 };
    const Wait w = { .ready = is_done, .context = &outcome, .on = &host_settled, .patience = IDLES, .what = name, .at = at };
    learn_test(at.file);
    enter_host(&c, name, at);
    put_order(what, pdo, &outcome);
    wait_for(&w);
    touch(&n_orders, SYNCS);
    leave_host();
    return outcome.status;
}

NTSTATUS WdmPlug(PDEVICE_OBJECT Pdo, WDM_SITE at) { return have_done("WdmPlugIn", PLUG_IN, Pdo, at); }
VOID WdmStopStart(PDEVICE_OBJECT Pdo, WDM_SITE at) { have_done("WdmStopAndStart", STOP_AND_START, Pdo, at); }
VOID WdmGone(PDEVICE_OBJECT Pdo, WDM_SITE at) { have_done("WdmSurprise", SURPRISE, Pdo, at); }
VOID WdmRemoved(PDEVICE_OBJECT Pdo, WDM_SITE at)
{
    await_closed(Pdo, true);
    have_done("WdmRemove", REMOVE_ALL, Pdo, at);
}

VOID WdmTakeOut(PDEVICE_OBJECT Pdo, BOOLEAN Surprise, WDM_SITE at)
{
    if (!Surprise)
        await_closed(Pdo, true); /* a program that is asked for it closes its files; else the device isn't removed */
    have_done("WdmUnplug", Surprise ? SURPRISE : UNPLUG, Pdo, at);
    await_closed(Pdo, true);
    have_done("WdmUnplug", REMOVE_ALL, Pdo, at);
}

/* A test without the manager goes on without it. */
VOID WdmInvalidateRelations(PDEVICE_OBJECT Device, DEVICE_RELATION_TYPE Type, WDM_SITE at)
{
    Call c;
    enter_host(&c, "IoInvalidateDeviceRelations", at);
    if (Type == BusRelations && runs)
        put_order(LOOK_FOR_CHILDREN, Device, NULL);
    leave_host();
}

static bool is_idle(const void *unused)
{
    (void)unused;
    return plug_and_play_is_idle();
}

/* However long it takes: what follows counts on it. */
VOID WdmSettlePlugAndPlay(VOID)
{
    Call c;
    const Wait w = { .ready = is_idle, .on = &host_settled, .patience = IDLES, .what = "WdmSettlePlugAndPlay" };
    enter_host(&c, w.what, (WDM_SITE){ 0 });
    wait_for(&w);
    touch(&n_orders, SYNCS);
    leave_host();
}

VOID IoInvalidateDeviceState(PDEVICE_OBJECT Device) { (void)Device; }
