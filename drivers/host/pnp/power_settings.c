/* power_settings.c: power settings, whose values a test sets. Whether Windows calls a routine as soon as it is registered isn't
   known: here it is called where the value is set. */
#include "explore/explore.h"
#include "ke/ke.h"
#include "mm/mm.h"
#include "record/record.h"
#include "rules/rules.h"
#include "wdm_power.h"
#include "wdm_test.h"

static Registration *settings;

NTSTATUS WdmPoRegisterSetting(LPCGUID Setting, PPOWER_SETTING_CALLBACK Callback, PVOID Context, PVOID *Handle, WDM_SITE at)
{
    Call c;
    enter_host(&c, "PoRegisterPowerSettingCallback", at);
    touch(&settings, SYNCS);
    Registration *r = memory_is_refused(c.name, at) ? NULL : host_memory(sizeof *r);
    if (r) {
        *r = (Registration){ .fn = (void *)Callback, .context = Context, .setting = *Setting };
        add_registration(&settings, r, "the registration for the power setting", c.name, at);
    }
    *Handle = r;
    leave_host();
    return r ? STATUS_SUCCESS : STATUS_INSUFFICIENT_RESOURCES;
}

NTSTATUS WdmPoUnregisterSetting(PVOID Handle, WDM_SITE at)
{
    Call c;
    enter_host(&c, "PoUnregisterPowerSettingCallback", at);
    touch(&settings, SYNCS);
    const bool was = remove_registration(&settings, Handle);
    leave_host();
    return was ? STATUS_SUCCESS : STATUS_INVALID_PARAMETER;
}

static Registration *next_of(Registration *before)
{
    Call c;
    enter_host(&c, "WdmSetPowerSetting", (WDM_SITE){ 0 });
    Registration *r = run_next(&settings, before);
    if (before)
        has_run(before);
    leave_host();
    return r;
}

VOID WdmSetPowerSetting(LPCGUID Setting, const VOID *Value, ULONG Length)
{
    Registration *r = NULL;
    while ((r = next_of(r))) {
        Running running;
        if (memcmp(&r->setting, Setting, sizeof *Setting))
            continue;
        begin_routine(&running, "a power setting", r->fn, r->driver, NOBODY, PASSIVE_LEVEL);
        ((PPOWER_SETTING_CALLBACK)r->fn)(Setting, (PVOID)Value, Length, r->context);
        end_routine(&running);
    }
}

/* Of each thread, by its seat, the last state by which it attached. */
static PKAPC_STATE attached[MAX_SEATS];

VOID WdmKeAttach(PEPROCESS Process, PKAPC_STATE State, WDM_SITE at)
{
    Call c;
    enter_host(&c, "KeStackAttachProcess", at);
    *State = (KAPC_STATE){ Process, KeGetCurrentThread(), attached[self.seat] };
    attached[self.seat] = State;
    give_out(State, "the process that a thread is attached to", c.name, at);
    leave_host();
}

VOID WdmKeDetach(PKAPC_STATE State, WDM_SITE at)
{
    Call c;
    Holder was;
    enter_host(&c, "KeUnstackDetachProcess", at);
    if (!take_back(State, NULL))
        fault("Attached", NULL, "detached by a state with which no thread is attached");
    else if (attached[self.seat] != State) {
        is_given(attached[self.seat], &was);
        fault("Attached", NULL, "detached in another order: the last attach is that of %s",
              attached[self.seat] ? place(was.at) : "another thread");
    }
    if (attached[self.seat])
        attached[self.seat] = attached[self.seat]->HostUp;
    leave_host();
}
