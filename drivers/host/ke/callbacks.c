/*
 * callbacks.c: callback objects, and power settings, which are told alike: each registration has a routine of its driver, and
 * is waited for where it is taken back. All of it is under G, but for the routines.
 */
#include "ke/ke.h"
#include "explore/explore.h"
#include "mm/mm.h"
#include "record/record.h"
#include "rtl/rtl.h"
#include "rules/rules.h"

struct _CALLBACK_OBJECT {
    struct _CALLBACK_OBJECT *next;
    UNICODE_STRING name;
    bool many;
    Registration *registered;
};
static PCALLBACK_OBJECT objects;

void add_registration(Registration **all, Registration *r, const char *what, const char *call, WDM_SITE at)
{
    r->driver = calling_driver();
    give_out(r, what, call, at);
    while (*all)
        all = &(*all)->next;
    *all = r;
}

static bool runs_nowhere(const void *registration) { return !((const Registration *)registration)->running; }

/* Whether this thread is in its routine: then it would wait for itself. */
static bool runs_here(const Registration *r)
{
    for (const Frame *f = self.frames; f; f = f->up)
        if (f->fn == r->fn)
            return true;
    return false;
}

bool remove_registration(Registration **all, Registration *r)
{
    while (*all && *all != r)
        all = &(*all)->next;
    if (!take_back(r, NULL) || !*all) {
        fault("Callback", NULL, "a registration is taken back that isn't there");
        return false;
    }
    *all = r->next;
    r->is_gone = true;
    touch(r, SYNCS);
    if (r->running && runs_here(r))
        fault("Callback", NULL, "taken back in its own routine, which this waits for");
    else if (r->running)
        wait_for_host(runs_nowhere, r);
    touch(r, SYNCS);
    return true;
}

/* The next one behind `before`, which counts as running; or NULL. */
Registration *run_next(Registration *const *all, Registration *before)
{
    Registration *r = before ? before->next : *all;
    while (r && r->is_gone)
        r = r->next;
    if (r)
        r->running++;
    touch(all, READS);
    return r;
}

void has_run(Registration *r)
{
    touch(r, SYNCS);
    r->running--;
    tell_waiters(&host_settled);
}

static PCALLBACK_OBJECT object_named(PUNICODE_STRING name)
{
    PCALLBACK_OBJECT o = objects;
    while (o && (!name || !o->name.Buffer || !RtlEqualUnicodeString(&o->name, name, TRUE)))
        o = o->next;
    return o;
}

/* Windows makes these itself. */
static bool is_systems(PUNICODE_STRING name)
{
    static const UNICODE_STRING names[] = { RTL_CONSTANT_STRING(L"\\Callback\\PowerState"),
                                            RTL_CONSTANT_STRING(L"\\Callback\\SetSystemTime"),
                                            RTL_CONSTANT_STRING(L"\\Callback\\ProcessorAdd") };
    for (size_t i = 0; name && i < ARRAYSIZE(names); i++)
        if (RtlEqualUnicodeString(&names[i], name, TRUE))
            return true;
    return false;
}

NTSTATUS WdmExCreateCallback(PCALLBACK_OBJECT *Object, POBJECT_ATTRIBUTES Attributes, BOOLEAN Create, BOOLEAN Many, WDM_SITE at)
{
    Call c;
    PUNICODE_STRING name = Attributes ? Attributes->ObjectName : NULL;
    enter_host(&c, "ExCreateCallback", at);
    touch(&objects, SYNCS);
    PCALLBACK_OBJECT o = object_named(name);
    const bool may_make = !o && (Create || is_systems(name)), is_refused = memory_is_refused(c.name, at);
    if (may_make && !is_refused && (o = host_memory(sizeof *o))) {
        o->many = Many || is_systems(name);
        o->next = objects;
        if (name)
            copy_text(&o->name, name);
        objects = o;
    }
    *Object = is_refused ? NULL : o;
    leave_host();
    if (*Object)
        WdmObReferenceObject(*Object, at);
    return *Object ? STATUS_SUCCESS : may_make || is_refused ? STATUS_INSUFFICIENT_RESOURCES : STATUS_OBJECT_NAME_NOT_FOUND;
}

PVOID WdmExRegisterCallback(PCALLBACK_OBJECT Object, PCALLBACK_FUNCTION Function, PVOID Context, WDM_SITE at)
{
    Call c;
    enter_host(&c, "ExRegisterCallback", at);
    touch(&Object->registered, SYNCS);
    Registration *r = memory_is_refused(c.name, at) || (Object->registered && !Object->many) ? NULL : host_memory(sizeof *r);
    if (r) {
        *r = (Registration){ .fn = (void *)Function, .context = Context, .of = Object };
        add_registration(&Object->registered, r, "the registration of the callback", c.name, at);
    }
    leave_host();
    return r;
}

VOID WdmExUnregisterCallback(PVOID Registered, WDM_SITE at)
{
    Call c;
    Registration *r = Registered;
    enter_host(&c, "ExUnregisterCallback", at);
    PCALLBACK_OBJECT o = r->of;
    touch(&o->registered, SYNCS);
    remove_registration(&o->registered, r);
    leave_host();
}

static Registration *next_of(PCALLBACK_OBJECT o, Registration *before, WDM_SITE at)
{
    Call c;
    enter_host(&c, "ExNotifyCallback", at);
    Registration *r = run_next(&o->registered, before);
    if (before)
        has_run(before);
    leave_host();
    return r;
}

VOID WdmExNotifyCallback(PVOID Object, PVOID Argument1, PVOID Argument2, WDM_SITE at)
{
    Registration *r = NULL;
    hands_over_now();
    while ((r = next_of(Object, r, at))) {
        Running running;
        begin_routine(&running, "a callback", r->fn, r->driver, NOBODY, self.irql);
        ((PCALLBACK_FUNCTION)r->fn)(r->context, Argument1, Argument2);
        end_routine(&running);
    }
}
