/*
 * low_memory.c: allocations and mappings of drivers that fail. WDM_REFUSE=N refuses the N-th of a run; N+ that one and all behind
 * it; sS one in sixteen, by the seed S. The summary says how many allocations a run made.
 */
#include "mm/own.h"
#include "ke/ke.h"
#include "record/record.h"

int n_allocations;
static int n_refused;
static WDM_SITE first_refused;
static const char *what_refused;

static bool is_chosen(int n)
{
    static unsigned seed;
    const char *wish = options.refuse ? options.refuse : "";
    if (*wish == 's' && !seed)
        seed = (unsigned)strtoul(wish + 1, NULL, 10) * 2654435761u + 1;
    if (*wish == 's')
        return rand_r(&seed) % 16 == 0;
    const int wanted = atoi(wish);
    return wanted > 0 && (n == wanted || (n > wanted && wish[strlen(wish) - 1] == '+'));
}

/* Under G: whether this allocation of a driver fails. Packets, MDLs and handles that a test asks for by itself don't count. */
bool memory_is_refused(const char *what, WDM_SITE at)
{
    const bool may_be_a_test = !self.frames && !self.is_driver && self.driver == NOBODY && has_test(at.file);
    if (is_hosts_file(at.file) || (may_be_a_test && (!strncmp(what, "IoAllocate", 10) || !strncmp(what, "Zw", 2))))
        return false;
    remember_allocation(++n_allocations, what, at);
    if (!is_chosen(n_allocations))
        return false;
    if (!n_refused++) {
        first_refused = at;
        what_refused = what;
    }
    return true;
}

BOOLEAN WdmIsRefused(const char *Name, WDM_SITE at)
{
    Call c;
    enter_quietly(&c, Name, at);
    const bool is_refused = memory_is_refused(Name, at);
    leave_host();
    return is_refused;
}

/* Whether this run refuses memory: then a test may end early, and fewer entries are no fault. */
bool memory_was_refused(void) { return n_refused > 0; }

/* DriverEntry fails, as it may where memory is refused. Most tests can't go on, so the run ends here; the driver has
   to have given all back. */
void end_without_driver(PDRIVER_OBJECT driver)
{
    Call c;
    if (!memory_was_refused())
        return;
    enter_host(&c, "DriverEntry", (WDM_SITE){ 0 });
    tell_pool_leaks(driver->HostNumber, true);
    leave_host();
    end_process(WdmFinish());
}

/* For the end of a run. */
void tell_refused(void)
{
    if (n_refused)
        say("memory was refused %d time%s, first to %s at %s in %s", n_refused, n_refused == 1 ? "" : "s", what_refused,
            place(first_refused), first_refused.function ? first_refused.function : "?");
}
