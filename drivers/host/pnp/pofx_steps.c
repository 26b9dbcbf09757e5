/*
 * pofx_steps.c: the power framework calls back. What a registered device needs next is decided by its components alone:
 *   - a component that is activated: the device gets its power, the component goes to F0, then its condition is active;
 *   - one that isn't any more: its condition is idle, then it goes to the deepest state that its driver's hints allow;
 *   - a device whose components all rest needs no power.
 * One thread at a time calls a device back. Until the driver has said that it is done nothing else is asked of that component,
 * nor of the device. PoFxActivateComponent and PoFxIdleComponent call a component's conditions back themselves, unless they
 * are told not to; all else comes from the framework's thread.
 */
#include "pnp/pofx.h"
#include "explore/explore.h"
#include "ke/ke.h"
#include "rules/rules.h"

typedef enum { NO_STEP, BECOMES_ACTIVE, BECOMES_IDLE, CHANGES_STATE, POWER_ON, POWER_OFF } Kind_of_step;
typedef struct { Kind_of_step kind; ULONG component, state; void *fn; } Step;

static Condition devices_came = { &host_lock, PTHREAD_COND_INITIALIZER };
static bool runs, is_at_work;

bool power_framework_is_idle(void)
{
    const Registered *r = registered;
    while (r && !r->is_queued)
        r = r->next;
    return !r && !is_at_work;
}

/* The deepest state that the hints allow. */
static ULONG deepest_state(const Component *c)
{
    ULONG s = c->n_states ? c->n_states - 1 : 0;
    while (s && (c->states[s].TransitionLatency > c->latency || c->states[s].ResidencyRequirement > c->residency ||
                 (c->wakes && s > c->deepest_that_wakes)))
        s--;
    return s;
}

static Step step_of(const Registered *r, ULONG i)
{
    const Component *c = &r->components[i];
    const ULONG deepest = deepest_state(c);
    if (c->condition.is_due || c->transition.is_due)
        return (Step){ .kind = NO_STEP };
    if (c->activations && !c->is_active && !r->has_power)
        return (Step){ POWER_ON, i, 0, (void *)r->asked.DevicePowerRequiredCallback };
    if (c->activations && !c->is_active && !c->state)
        return (Step){ BECOMES_ACTIVE, i, 0, (void *)r->asked.ComponentActiveConditionCallback };
    if (c->activations && !c->is_active)
        return (Step){ CHANGES_STATE, i, 0, (void *)r->asked.ComponentIdleStateCallback };
    if (!c->activations && c->is_active)
        return (Step){ BECOMES_IDLE, i, 0, (void *)r->asked.ComponentIdleConditionCallback };
    if (!c->activations && r->has_power && c->state != deepest)
        return (Step){ CHANGES_STATE, i, deepest, (void *)r->asked.ComponentIdleStateCallback };
    return (Step){ .kind = NO_STEP };
}

static Step next_step(const Registered *r)
{
    bool rests = true;
    if (!r->is_started || r->is_leaving || r->power_on.is_due || r->power_off.is_due)
        return (Step){ .kind = NO_STEP };
    for (ULONG i = 0; i < r->n; i++) {
        const Component *c = &r->components[i];
        const Step s = step_of(r, i);
        if (s.kind)
            return s;
        rests &= !c->activations && !c->condition.is_due && !c->transition.is_due;
    }
    return rests && r->has_power ? (Step){ POWER_OFF, 0, 0, (void *)r->asked.DevicePowerNotRequiredCallback } :
        (Step){ .kind = NO_STEP };
}

/* It is being called back. Where the driver has no such callback nothing is waited for. */
static void begin_step(Registered *r, const Step *s)
{
    Component *c = &r->components[s->component];
    r->is_walked = s->fn != NULL;
    switch (s->kind) {
    case BECOMES_ACTIVE:
        c->is_active = true;
        c->was_told = !s->fn;
        break;
    case BECOMES_IDLE:
        c->is_active = false;
        c->condition = (Due){ s->fn != NULL, "PoFxCompleteIdleCondition", s->fn };
        break;
    case CHANGES_STATE:
        c->state = s->state;
        c->transition = (Due){ s->fn != NULL, "PoFxCompleteIdleState", s->fn };
        break;
    case POWER_ON:
        r->has_power = true;
        r->power_on = (Due){ s->fn != NULL, "PoFxReportDevicePoweredOn", s->fn };
        break;
    default:
        r->has_power = false;
        r->power_off = (Due){ s->fn != NULL, "PoFxCompleteDevicePowerNotRequired", s->fn };
    }
}

/* Callbacks may be called at DISPATCH_LEVEL, and are where completion routines are. Without G. */
static void call_back(const Registered *r, const Step *s)
{
    Running running;
    PVOID context = r->asked.DeviceContext;
    begin_routine(&running, "a callback of the power framework", s->fn, r->driver, NOBODY,
                  options.routines_high ? DISPATCH_LEVEL : PASSIVE_LEVEL);
    if (s->kind == BECOMES_ACTIVE)
        r->asked.ComponentActiveConditionCallback(context, s->component);
    else if (s->kind == BECOMES_IDLE)
        r->asked.ComponentIdleConditionCallback(context, s->component);
    else if (s->kind == CHANGES_STATE)
        r->asked.ComponentIdleStateCallback(context, s->component, s->state);
    else if (s->kind == POWER_ON)
        r->asked.DevicePowerRequiredCallback(context);
    else
        r->asked.DevicePowerNotRequiredCallback(context);
    end_routine(&running);
}

/* Takes G, and gives it back. Returns the step that this thread makes. */
static Step take_step(Registered *r, bool conditions)
{
    hold_host("the power framework", r, SYNCS);
    Step s = r->is_walked ? (Step){ .kind = NO_STEP } : next_step(r);
    if (s.kind && conditions && s.kind != BECOMES_ACTIVE && s.kind != BECOMES_IDLE) {
        leave_to_framework(r);
        s.kind = NO_STEP;
    }
    if (s.kind)
        begin_step(r, &s);
    pthread_mutex_unlock(&host_lock);
    return s;
}

void walk_components(Registered *r, bool conditions)
{
    for (Step s = take_step(r, conditions); s.kind; s = take_step(r, conditions)) {
        if (!s.fn)
            continue;
        call_back(r, &s);
        hold_host("the power framework", r, SYNCS);
        r->is_walked = false;
        if (s.kind == BECOMES_ACTIVE)
            r->components[s.component].was_told = true;
        tell_waiters(&host_settled);
        pthread_mutex_unlock(&host_lock);
    }
}

static bool any_is_queued(const void *unused)
{
    (void)unused;
    const Registered *r = registered;
    while (r && !r->is_queued)
        r = r->next;
    return r != NULL;
}

/* The component of which is told that the device doesn't go on: one that is wanted, or the first one. */
static const Component *told_of(const Registered *r)
{
    for (ULONG i = 0; i < r->n; i++)
        if (r->components[i].activations && !r->components[i].is_active)
            return &r->components[i];
    return r->components;
}

/* A thread waits, and none can go on: where a driver hasn't said that it is done, that is told, and the run goes on as if it had.
   Who waits in a call of the framework tells of it there. */
bool tell_framework_waits(void)
{
    Registered *r = registered;
    while (r && (r->is_leaving || r->n_waiting || !due_text(r)))
        r = r->next;
    if (!r)
        return false;
    const Component *c = told_of(r);
    const Call then = { .up = self.calls, .name = c->call, .at = c->at };
    self.calls = (Call *)&then;
    pofx_fault("PoFxNotCompleted", "%s, and nothing goes on", due_text(r));
    self.calls = then.up;
    forget_due(r);
    leave_to_framework(r);
    return true;
}

/* The next device, once one is queued. */
static Registered *next_queued(void)
{
    const Wait w = { .ready = any_is_queued, .on = &devices_came, .patience = IDLES, .what = "the power framework's devices" };
    Call c;
    enter_host(&c, "the power framework", (WDM_SITE){ 0 });
    is_at_work = false;
    tell_waiters(&host_settled);
    touch(&registered, SYNCS);
    wait_for(&w);
    touch(&registered, SYNCS);
    Registered *r = registered;
    while (!r->is_queued)
        r = r->next;
    r->is_queued = false;
    is_at_work = true;
    leave_host();
    return r;
}

static void *manage(void *unused)
{
    (void)unused;
    for (;;)
        walk_components(next_queued(), false);
    return NULL;
}

void leave_to_framework(Registered *r)
{
    r->is_queued = true;
    touch(&registered, SYNCS);
    if (!runs)
        runs = !start_thread(manage, NULL, "power framework", NULL, NULL);
    tell_waiters(&devices_came);
    tell_waiters(&host_settled);
}
