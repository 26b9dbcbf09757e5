/* leftovers.c: what a driver has left when its DriverUnload returns. On Windows its code is gone then. */
#include "rules/own.h"
#include "ke/ke.h"
#include "mm/mm.h"
#include "pnp/pnp.h"
#include "record/record.h"

static const char RULE[] = "LeftBehind";

/* Something of the driver's is there, which this call made. */
void left_behind(const char *what, const char *call, WDM_SITE at)
{
    fault_at(RULE, NULL, call, at, "%s is there after DriverUnload", what);
}

static void tell_devices(int driver)
{
    char text[100];
    for (int i = 0; i < n_devices; i++)
        if (devices[i].live && !devices[i].leaving && !devices[i].stays && devices[i].driver->HostNumber == driver) {
            snprintf(text, sizeof text, "the device %s", who(i));
            left_behind(text, "IoCreateDevice", devices[i].created);
        }
}

static void tell_own_packets(int driver)
{
    for (int i = 0; i < n_packets; i++) {
        const Packet *p = packets[i];
        const bool is_allocated = is_in_page(p->irp), is_idle = p->owner < 0 && !p->asking;
        if (p->live && p->owner != ENDED && p->allocator == driver && !p->built.by_manager && !p->stands_in.of &&
            (is_allocated || !is_idle)) /* its own memory is told of by itself */
            fault_at(RULE, p, is_allocated ? "IoAllocateIrp" : "IoInitializeIrp", p->sites.allocated,
                     "the packet is there after DriverUnload");
    }
}

/* The driver is unloaded. Under G. */
void tell_left(int driver)
{
    tell_devices(driver);
    tell_own_packets(driver);
    tell_given_left(driver);
    tell_work_left(driver);
    tell_timers_left(driver);
    tell_threads_left(driver);
    tell_links_left(driver);
    tell_sent_left(driver);
}
