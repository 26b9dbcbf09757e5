/* pofx.h: devices that are registered with the power framework, and what its two files share. All of it is under G, unless it
   says otherwise. */
#ifndef DRIVERS_POFX_H
#define DRIVERS_POFX_H

#include "pnp/pnp.h"
#include "wdm_pofx.h"

/* A callback was called, and its driver hasn't said yet, by this call, that it is done. */
typedef struct { bool is_due; const char *answer; void *fn; } Due;

typedef struct {
    LONG activations; /* that no PoFxIdleComponent has ended */
    LONG surplus;     /* calls of that with none to end */
    bool is_active, was_told; /* its condition; whether the callback for that has returned */
    ULONG state, deepest_that_wakes, n_states;
    PO_FX_COMPONENT_IDLE_STATE *states;
    ULONGLONG latency, residency;
    bool wakes;
    Due condition, transition;
    const char *call; /* the last one by which it was activated, idle, or managed at all */
    WDM_SITE at;
} Component;

typedef struct POHANDLE__ {
    struct POHANDLE__ *next;
    PO_FX_DEVICE_V1 asked; /* its callbacks, whatever its version */
    int driver;
    ULONG n;
    Component *components;
    bool is_started, is_leaving, is_gone; /* is_leaving: nothing is called back any more */
    bool has_power, is_walked, is_queued; /* is_walked: a thread calls it back */
    int n_waiting; /* calls that wait for it */
    Due power_off, power_on;
    WDM_SITE made, gone;
} Registered;

extern Registered *registered; /* all that were */

/* pofx_steps.c. Calls back what is to be called now. Takes G itself. Where `conditions` is set only what a component's
   conditions need is called, and the rest is left to the framework's thread. */
void walk_components(Registered *r, bool conditions);
void leave_to_framework(Registered *r);

/* pofx.c */
__attribute__((format(printf, 2, 3))) void pofx_fault(const char *rule, const char *how, ...);
const char *due_text(const Registered *r); /* what is due, in words; or NULL */
void forget_due(Registered *r);
Registered *registered_as(POHANDLE handle); /* one that may be used, or NULL, which is told; so the next one */
Component *component_of(POHANDLE handle, ULONG number);

#endif
