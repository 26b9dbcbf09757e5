/*
 * pofx.c: the calls of the power framework, and its rules. What isn't known of Windows is left untold: whether a registration
 * counts as an activation (so one PoFxIdleComponent too many isn't told), and whether activations may be left when the device
 * is unregistered (a note).
 */
#include "pnp/pofx.h"
#include "explore/explore.h"
#include "ke/ke.h"
#include "mm/mm.h"
#include "record/record.h"
#include "rules/rules.h"
#include <stdarg.h>

Registered *registered;

static const struct { const char *rule, *remedy, *page; } rules[] = {
    { "PoFxNotActive", "call it once for each PoFxActivateComponent", "PoFxIdleComponent function" },
    { "PoFxNotAsked", "call it once for each callback that asks for it", "Component-Level Power Management" },
    { "PoFxNotCompleted", "call it once the callback has done what it was asked, in it or later", "Component-Level Power Management" },
    { "PoFxKept", "call PoFxUnregisterDevice while IRP_MN_REMOVE_DEVICE is handled", "PoFxUnregisterDevice function" },
    { "PoFxHandle", "use the handle of PoFxRegisterDevice, and components below its ComponentCount", "PoFxRegisterDevice function" },
};

void pofx_fault(const char *rule, const char *how, ...)
{
    char text[500];
    va_list list;
    size_t i = 0;
    va_start(list, how);
    vsnprintf(text, sizeof text, how, list);
    va_end(list);
    while (strcmp(rules[i].rule, rule))
        i++;
    fault(rule, NULL, "%s. Remedy: %s (WDK: %s)", text, rules[i].remedy, rules[i].page);
}

static const char *text_of(const Due *due)
{
    static _Thread_local char text[200];
    snprintf(text, sizeof text, "%s ran, and %s wasn't called since", function_name(due->fn), due->answer);
    return text;
}

const char *due_text(const Registered *r)
{
    if (r->power_on.is_due || r->power_off.is_due)
        return text_of(r->power_on.is_due ? &r->power_on : &r->power_off);
    for (ULONG i = 0; i < r->n; i++)
        if (r->components[i].condition.is_due || r->components[i].transition.is_due)
            return text_of(r->components[i].condition.is_due ? &r->components[i].condition : &r->components[i].transition);
    return NULL;
}

void forget_due(Registered *r)
{
    r->power_on.is_due = r->power_off.is_due = false;
    for (ULONG i = 0; i < r->n; i++)
        r->components[i].condition.is_due = r->components[i].transition.is_due = false;
}

Registered *registered_as(POHANDLE handle)
{
    Registered *r = registered;
    while (r && r != handle)
        r = r->next;
    if (!r)
        pofx_fault("PoFxHandle", "no device is registered by this handle");
    else if (r->is_gone)
        broken("UsedInFreedMemory", NULL, "the device was unregistered at %s", place(r->gone));
    else
        touch(r, SYNCS);
    return r && !r->is_gone ? r : NULL;
}

Component *component_of(POHANDLE handle, ULONG number)
{
    Registered *r = registered_as(handle);
    if (r && number >= r->n)
        pofx_fault("PoFxHandle", "component %u: the device was registered at %s with %u", number, place(r->made), r->n);
    return r && number < r->n ? &r->components[number] : NULL;
}

static void needs_low_level(const char *why)
{
    if (self.irql >= DISPATCH_LEVEL)
        broken("IrqlTooHigh", NULL, "called at %s%s", level_name(self.irql), why);
}

static void copy_states(Component *c, const PO_FX_COMPONENT_IDLE_STATE *states, ULONG n)
{
    c->latency = c->residency = ~0ull;
    c->states = n ? host_memory(n * sizeof *states) : NULL;
    c->n_states = c->states ? n : 0;
    if (c->states)
        memcpy(c->states, states, n * sizeof *states);
}

static void copy_component(Component *c, const PO_FX_COMPONENT_V2 *from)
{
    c->deepest_that_wakes = from->DeepestWakeableIdleState;
    copy_states(c, from->IdleStates, from->IdleStateCount);
    if (from->ProviderCount)
        note("not there", "components that others provide for: each goes by itself");
}

/* The callbacks of all versions, and how many components there are. */
static ULONG read_device(const VOID *device, PO_FX_DEVICE_V1 *asked)
{
    const PO_FX_DEVICE_V1 *one = device;
    const PO_FX_DEVICE_V2 *two = device;
    const PO_FX_DEVICE_V3 *three = device;
    *asked = *one;
    if (one->Version == PO_FX_VERSION_V1)
        return one->ComponentCount;
    if (one->Version != PO_FX_VERSION_V2 && one->Version != PO_FX_VERSION_V3)
        return 0;
    *asked = (PO_FX_DEVICE_V1){
        .Version = two->Version,
        .ComponentActiveConditionCallback = two->ComponentActiveConditionCallback,
        .ComponentIdleConditionCallback = two->ComponentIdleConditionCallback,
        .ComponentIdleStateCallback = two->ComponentIdleStateCallback,
        .DevicePowerRequiredCallback = two->DevicePowerRequiredCallback,
        .DevicePowerNotRequiredCallback = two->DevicePowerNotRequiredCallback,
        .DeviceContext = one->Version == PO_FX_VERSION_V2 ? two->DeviceContext : three->DeviceContext,
    };
    return one->Version == PO_FX_VERSION_V2 ? two->ComponentCount : three->ComponentCount;
}

static void read_components(Registered *r, const VOID *device)
{
    const PO_FX_DEVICE_V1 *one = device;
    const PO_FX_DEVICE_V2 *two = device;
    const PO_FX_DEVICE_V3 *three = device;
    for (ULONG i = 0; i < r->n; i++)
        if (one->Version == PO_FX_VERSION_V1) {
            r->components[i].deepest_that_wakes = one->Components[i].DeepestWakeableIdleState;
            copy_states(&r->components[i], one->Components[i].IdleStates, one->Components[i].IdleStateCount);
        } else
            copy_component(&r->components[i], one->Version == PO_FX_VERSION_V2 ? &two->Components[i] : &three->Components[i]);
}

NTSTATUS WdmPoFxRegister(const VOID *Device, POHANDLE *Handle, WDM_SITE at)
{
    Call c;
    PO_FX_DEVICE_V1 asked;
    const ULONG n = read_device(Device, &asked);
    enter_host(&c, "PoFxRegisterDevice", at);
    needs_low_level("");
    touch(&registered, SYNCS);
    const bool is_refused = n && memory_is_refused(c.name, at);
    Registered *r = n && !is_refused ? host_memory(sizeof *r) : NULL;
    Component *components = r ? host_memory(n * sizeof *components) : NULL;
    if (components) {
        *r = (Registered){ .next = registered, .asked = asked, .driver = calling_driver(), .n = n, .components = components,
                           .has_power = true, .made = at };
        read_components(r, Device);
        registered = r;
        give_out(r, "the registration with the power framework", c.name, at);
    }
    *Handle = components ? r : NULL;
    leave_host();
    return components ? STATUS_SUCCESS : n ? STATUS_INSUFFICIENT_RESOURCES : STATUS_INVALID_PARAMETER;
}

VOID WdmPoFxStart(POHANDLE Handle, WDM_SITE at)
{
    Call c;
    enter_host(&c, "PoFxStartDevicePowerManagement", at);
    Registered *r = registered_as(Handle);
    if (r) {
        r->is_started = true;
        for (ULONG i = 0; i < r->n; i++) {
            r->components[i].call = c.name;
            r->components[i].at = at;
        }
        leave_to_framework(r);
    }
    leave_host();
}

static bool is_at_rest(const void *it)
{
    const Registered *r = it;
    return !r->is_walked && !due_text(r);
}

static void tell_activations(const Registered *r)
{
    for (ULONG i = 0; i < r->n; i++)
        if (r->components[i].activations)
            note("PoFx", "a device is unregistered, and component %u wants PoFxIdleComponent %d times yet, last used at %s; whether "
                 "Windows takes that isn't known", i, (int)r->components[i].activations, place(r->components[i].at));
}

/* Waits until no callback runs, and the driver has done what it was asked. */
VOID WdmPoFxUnregister(POHANDLE Handle, WDM_SITE at)
{
    Call c;
    enter_host(&c, "PoFxUnregisterDevice", at);
    needs_low_level("");
    Registered *r = registered_as(Handle);
    if (r) {
        r->is_leaving = true;
        const bool rests = is_at_rest(r) || wait_for_host(is_at_rest, r);
        r->power_on.is_due = false; /* a device that is gone may never be on again */
        if (!rests && !is_at_rest(r))
            pofx_fault("PoFxNotCompleted", "%s", due_text(r) ? due_text(r) : "a callback runs, for whose end this waits");
        tell_activations(r);
        touch(r, SYNCS);
        r->is_gone = true;
        r->is_queued = false;
        r->gone = at;
        take_back(r, NULL);
    }
    leave_host();
}

/* Memory goes, and a device is registered whose callbacks get an address in it. */
void check_pofx_gone(const void *from, size_t size, const char *what)
{
    for (Registered *r = registered; r; r = r->next) {
        const char *context = r->asked.DeviceContext;
        if (r->is_gone || context < (const char *)from || context >= (const char *)from + size)
            continue;
        pofx_fault("PoFxKept", "the device that was registered at %s has its DeviceContext in the %s", place(r->made), what);
        r->is_gone = r->is_leaving = true;
        r->gone = self.calls->at;
        take_back(r, NULL);
    }
}

static bool is_in_effect(const void *it)
{
    const Component *c = it;
    return c->activations ? c->is_active && c->was_told : !c->is_active && !c->condition.is_due;
}

/* Activated or idle, as its flags say; then without G. */
static void let_it_go_on(Registered *r, Component *c, ULONG flags)
{
    c->call = self.calls->name;
    c->at = self.calls->at;
    const bool is_started = r->is_started, waits = flags & PO_FX_FLAG_BLOCKING && is_started;
    if (waits)
        needs_low_level(", and it waits");
    if (is_started && flags & (PO_FX_FLAG_ASYNC_ONLY | PO_FX_FLAG_BLOCKING))
        leave_to_framework(r);
    r->n_waiting += waits;
    if (waits && !wait_for_host(is_in_effect, c))
        pofx_fault("PoFxNotCompleted", "%s", due_text(r) ? due_text(r) : "it waits in a callback for what comes after that");
    r->n_waiting -= waits;
    touch(r, SYNCS);
    leave_host();
    if (is_started && !(flags & (PO_FX_FLAG_ASYNC_ONLY | PO_FX_FLAG_BLOCKING)))
        walk_components(r, true);
}

VOID WdmPoFxActivate(POHANDLE Handle, ULONG Number, ULONG Flags, WDM_SITE at)
{
    Call call;
    enter_host(&call, "PoFxActivateComponent", at);
    Component *c = component_of(Handle, Number);
    if (!c) {
        leave_host();
        return;
    }
    c->activations++;
    let_it_go_on(Handle, c, Flags);
}

VOID WdmPoFxIdle(POHANDLE Handle, ULONG Number, ULONG Flags, WDM_SITE at)
{
    Call call;
    enter_host(&call, "PoFxIdleComponent", at);
    Component *c = component_of(Handle, Number);
    const bool was_active = c && c->activations > 0;
    if (was_active)
        c->activations--;
    else if (c && c->surplus++)
        pofx_fault("PoFxNotActive", "component %u: %d more calls of it than of PoFxActivateComponent", Number, (int)c->surplus);
    if (was_active)
        let_it_go_on(Handle, c, Flags);
    else
        leave_host();
}

/* The driver has done what was asked. */
static void take_answer(Registered *r, Due *due, const char *call)
{
    if (r && !due->is_due)
        pofx_fault("PoFxNotAsked", "no callback ran that waits for %s", call);
    else if (r) {
        due->is_due = false;
        leave_to_framework(r);
    }
    leave_host();
}

VOID WdmPoFxIdleConditionDone(POHANDLE Handle, ULONG Number, WDM_SITE at)
{
    Call call;
    enter_host(&call, "PoFxCompleteIdleCondition", at);
    Component *c = component_of(Handle, Number);
    take_answer(c ? Handle : NULL, c ? &c->condition : NULL, call.name);
}

VOID WdmPoFxIdleStateDone(POHANDLE Handle, ULONG Number, WDM_SITE at)
{
    Call call;
    enter_host(&call, "PoFxCompleteIdleState", at);
    Component *c = component_of(Handle, Number);
    take_answer(c ? Handle : NULL, c ? &c->transition : NULL, call.name);
}

VOID WdmPoFxPowerNotRequiredDone(POHANDLE Handle, WDM_SITE at)
{
    Call call;
    enter_host(&call, "PoFxCompleteDevicePowerNotRequired", at);
    Registered *r = registered_as(Handle);
    take_answer(r, r ? &r->power_off : NULL, call.name);
}

/* Whoever comes back to D0 says so, whether or not it was asked. */
VOID WdmPoFxPoweredOn(POHANDLE Handle, WDM_SITE at)
{
    Call call;
    enter_host(&call, "PoFxReportDevicePoweredOn", at);
    Registered *r = registered_as(Handle);
    if (r) {
        r->power_on.is_due = false;
        leave_to_framework(r);
    }
    leave_host();
}
