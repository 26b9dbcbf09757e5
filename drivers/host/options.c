/* options.c: the environment of a run. drivers/run writes it (settings_of), and so do orders.py and tests. */
#include "options.h"
#include <stdlib.h>
#include <unistd.h>

Options options;

static long number(const char *name, long otherwise)
{
    const char *text = getenv(name);
    return text && *text ? strtol(text, NULL, 10) : otherwise;
}

static bool is_set(const char *name) { return getenv(name) != NULL; }

static void read_test(Options *o)
{
    o->test = getenv("WDM_TEST");
    o->scenario = is_set("WDM_SCENARIO") ? getenv("WDM_SCENARIO") : "overlap";
    o->controls = getenv("WDM_CONTROLS");
    o->candidates = getenv("WDM_CANDIDATES");
    o->on_children = getenv("WDM_ON");
    o->threads = (int)number("WDM_THREADS", 1);
    o->patience = (int)number("WDM_PATIENCE", 0) > 0 ? (int)number("WDM_PATIENCE", 0) : 3;
    o->rounds = (unsigned long)number("WDM_ROUNDS", 0);
    o->internals = is_set("WDM_INTERNAL") ? number("WDM_INTERNAL", 0) != 0 : -1;
    o->is_short = is_set("WDM_SHORT");
    o->holds_none = is_set("WDM_HOLDS_NONE");
    o->reads_codes = is_set("WDM_READS_CODES");
    o->sends_handles = is_set("WDM_HANDLES");
    o->is_wines = is_set("WDM_WINE");
    o->says = is_set("WDM_SAYS");
}

static void read_disturbances(Options *o)
{
    o->refuse = getenv("WDM_REFUSE");
    o->cancel = getenv("WDM_CANCEL");
    o->pend = getenv("WDM_PEND");
    o->shake = is_set("WDM_SHAKE") ? strtoul(getenv("WDM_SHAKE"), NULL, 10) : 0;
    o->filled = is_set("WDM_FILLED") ? (int)number("WDM_FILLED", 0) : -1;
    o->page_ends = is_set("WDM_PAGE_ENDS");
    o->routines_high = is_set("WDM_ROUTINES_HIGH");
    o->has_no_traps = is_set("WDM_NO_TRAP");
}

static void read_exploration(Options *o)
{
    o->explore = getenv("WDM_EXPLORE");
    o->schedule = getenv("WDM_SCHEDULE");
    o->chance = getenv("WDM_CHANCE");
    o->updates = getenv("WDM_UPDATES");
    o->forks = getenv("WDM_FORKS");
    o->processes = number("WDM_PROCESSES", sysconf(_SC_NPROCESSORS_ONLN));
    o->reduces = number("WDM_REDUCE", 1);
    o->goes_on = number("WDM_GO_ON", 0);
    o->goes_further = number("WDM_FURTHER", 0);
    o->part = number("WDM_PART", 0);
    o->parts = number("WDM_PARTS", 0);
    o->seconds = number("WDM_SECONDS", 0);
    o->points = (int)number("WDM_POINTS", 0);
    o->has_one_processor = is_set("WDM_ONE_PROCESSOR");
}

/* Before `main`, and before the explorer goes on into it. */
__attribute__((constructor(101))) static void read_options(void)
{
    options.transcript = getenv("WDM_TRANSCRIPT");
    options.summary = getenv("WDM_SUMMARY");
    options.report = getenv("WDM_REPORT");
    options.orders = getenv("WDM_ORDERS");
    options.classes = getenv("WDM_CLASSES");
    read_test(&options);
    read_disturbances(&options);
    read_exploration(&options);
}
