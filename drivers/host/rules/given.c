/*
 * given.c: what a driver has to give back before it is unloaded: timers, lists, adapters, registrations. What it leaves is told
 * at the call that gave it. All of it is under G.
 */
#include "rules/rules.h"
#include "explore/explore.h"
#include "ke/ke.h"
#include "record/record.h"

typedef struct Given {
    struct Given *next;
    const void *object;
    const char *what, *call;
    Holder by;
} Given;
static Given *all;

void give_out(const void *object, const char *what, const char *call, WDM_SITE at)
{
    Given *g = host_memory(sizeof *g);
    if (!g)
        give_up("out of memory");
    *g = (Given){ all, object, what, call, { calling_driver(), at } };
    all = g;
}

static Given **find_given(const void *object)
{
    Given **g = &all;
    while (*g && (*g)->object != object)
        g = &(*g)->next;
    return g;
}

bool is_given(const void *object, Holder *is)
{
    const Given *g = *find_given(object);
    if (g && is)
        *is = g->by;
    return g != NULL;
}

bool take_back(const void *object, Holder *was)
{
    Given **g = find_given(object), *gone = *g;
    if (!is_given(object, was))
        return false;
    *g = gone->next;
    free_host_memory(gone);
    return true;
}

/* A handle is closed: it may be one of ObOpenObjectByPointer. */
bool take_handle_back(HANDLE handle) { return take_back(handle, NULL); }

void tell_given_left(int driver)
{
    for (const Given *g = all; g; g = g->next)
        if (g->by.driver == driver)
            left_behind(g->what, g->call, g->by.at);
}

/* Memory goes: what lies in it, and the system still has in a list. */
void check_given_gone(const void *from, size_t size, const char *what)
{
    for (Given *g = all, *after; g; g = after) {
        const char *at = g->object;
        after = g->next;
        if (at < (const char *)from || at >= (const char *)from + size)
            continue;
        broken("UsedInFreedMemory", NULL, "%s that was made at %s is in the %s", g->what, place(g->by.at), what);
        take_back(at, NULL);
    }
}

void begin_routine(Running *r, const char *name, void *fn, int driver, int device, KIRQL irql)
{
    r->driver = self.driver;
    enter_host(&r->call, name, (WDM_SITE){ 0 });
    r->frame = (Frame){ .kind = WORK, .fn = fn, .device = device, .settled = true, .irql = irql };
    self.driver = driver;
    enter_frame(&r->frame);
    let_driver_run();
}

void end_routine(Running *r)
{
    driver_came_back();
    leave_frame();
    self.driver = r->driver;
    tell_waiters(&host_settled);
    leave_host();
}
