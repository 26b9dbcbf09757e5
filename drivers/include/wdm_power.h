/* wdm_power.h: power settings, which a test changes; attaching to a process. */
#ifndef WDM_POWER_H
#define WDM_POWER_H

#include "wdm_io.h"

typedef NTSTATUS POWER_SETTING_CALLBACK(LPCGUID Setting, PVOID Value, ULONG Length, PVOID Context);
typedef POWER_SETTING_CALLBACK *PPOWER_SETTING_CALLBACK;
NTSTATUS WdmPoRegisterSetting(LPCGUID Setting, PPOWER_SETTING_CALLBACK Callback, PVOID Context, PVOID *Handle, WDM_SITE at);
NTSTATUS WdmPoUnregisterSetting(PVOID Handle, WDM_SITE at);
#define PoRegisterPowerSettingCallback(device, setting, callback, context, handle) \
    ((void)(device), WdmPoRegisterSetting((setting), (callback), (context), (handle), WDM_HERE))
#define PoUnregisterPowerSettingCallback(handle) WdmPoUnregisterSetting((handle), WDM_HERE)

/* There is one process: what is checked is that each attach is undone, by its own state. */
typedef struct _KAPC_STATE { PEPROCESS Process; PVOID HostThread; struct _KAPC_STATE *HostUp; } KAPC_STATE, *PKAPC_STATE,
    *PRKAPC_STATE;
VOID WdmKeAttach(PEPROCESS Process, PKAPC_STATE State, WDM_SITE at);
VOID WdmKeDetach(PKAPC_STATE State, WDM_SITE at);
#define KeStackAttachProcess(process, state) WdmKeAttach((PEPROCESS)(process), (state), WDM_HERE)
#define KeUnstackDetachProcess(state) WdmKeDetach((state), WDM_HERE)

#endif
