/* pofx_hints.c: what a driver tells the power framework of a component: how long it may take, and how long it will be idle. */
#include "pnp/pofx.h"
#include "ke/ke.h"

VOID WdmPoFxSetLatency(POHANDLE Handle, ULONG Number, ULONGLONG Latency, WDM_SITE at)
{
    Call call;
    enter_host(&call, "PoFxSetComponentLatency", at);
    Component *c = component_of(Handle, Number);
    if (c) {
        c->latency = Latency;
        leave_to_framework(Handle);
    }
    leave_host();
}

VOID WdmPoFxSetResidency(POHANDLE Handle, ULONG Number, ULONGLONG Residency, WDM_SITE at)
{
    Call call;
    enter_host(&call, "PoFxSetComponentResidency", at);
    Component *c = component_of(Handle, Number);
    if (c) {
        c->residency = Residency;
        leave_to_framework(Handle);
    }
    leave_host();
}

VOID WdmPoFxSetWake(POHANDLE Handle, ULONG Number, BOOLEAN Wakes, WDM_SITE at)
{
    Call call;
    enter_host(&call, "PoFxSetComponentWake", at);
    Component *c = component_of(Handle, Number);
    if (c) {
        c->wakes = Wakes;
        leave_to_framework(Handle);
    }
    leave_host();
}

/* It makes no difference: a device whose components rest needs no power from then on. */
VOID WdmPoFxSetTimeout(POHANDLE Handle, ULONGLONG Timeout, WDM_SITE at)
{
    Call call;
    (void)Timeout;
    enter_host(&call, "PoFxSetDeviceIdleTimeout", at);
    registered_as(Handle);
    leave_host();
}
