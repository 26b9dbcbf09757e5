/*
 * wdm_pofx.h: the power management framework. A driver registers its device with its components, and says when it needs one
 * (PoFxActivateComponent) and when it doesn't any more (PoFxIdleComponent). The framework calls back, and waits for the
 * calls by which the driver says that it is done (PoFxComplete.., PoFxReportDevicePoweredOn).
 *
 * PO_FX_DEVICE is version 1's, unless PO_FX_VERSION says 2 or 3 before this is included.
 */
#ifndef WDM_POFX_H
#define WDM_POFX_H

#include "wdm_io.h"

#define PO_FX_VERSION_V1 1
#define PO_FX_VERSION_V2 2
#define PO_FX_VERSION_V3 3
#ifndef PO_FX_VERSION
#define PO_FX_VERSION PO_FX_VERSION_V1
#endif
#define PO_FX_FLAG_BLOCKING 1
#define PO_FX_FLAG_ASYNC_ONLY 2
#define PO_FX_COMPONENT_FLAG_F0_ON_DX 1
#define PO_FX_COMPONENT_FLAG_NO_DEBOUNCE 2
#define PO_FX_UNKNOWN_POWER 0xFFFFFFFF
#define PO_FX_UNKNOWN_TIME 0xFFFFFFFFFFFFFFFF

typedef struct POHANDLE__ *POHANDLE;
typedef VOID PO_FX_COMPONENT_ACTIVE_CONDITION_CALLBACK(PVOID Context, ULONG Component);
typedef VOID PO_FX_COMPONENT_IDLE_CONDITION_CALLBACK(PVOID Context, ULONG Component);
typedef VOID PO_FX_COMPONENT_IDLE_STATE_CALLBACK(PVOID Context, ULONG Component, ULONG State);
typedef VOID PO_FX_DEVICE_POWER_REQUIRED_CALLBACK(PVOID Context);
typedef VOID PO_FX_DEVICE_POWER_NOT_REQUIRED_CALLBACK(PVOID Context);
typedef NTSTATUS PO_FX_POWER_CONTROL_CALLBACK(PVOID Context, LPCGUID Code, PVOID In, SIZE_T InSize, PVOID Out, SIZE_T OutSize,
                                              PSIZE_T Returned);
typedef VOID PO_FX_DIRECTED_POWER_UP_CALLBACK(PVOID Context, ULONG Flags);
typedef VOID PO_FX_DIRECTED_POWER_DOWN_CALLBACK(PVOID Context, ULONG Flags);
typedef PO_FX_COMPONENT_ACTIVE_CONDITION_CALLBACK *PPO_FX_COMPONENT_ACTIVE_CONDITION_CALLBACK;
typedef PO_FX_COMPONENT_IDLE_CONDITION_CALLBACK *PPO_FX_COMPONENT_IDLE_CONDITION_CALLBACK;
typedef PO_FX_COMPONENT_IDLE_STATE_CALLBACK *PPO_FX_COMPONENT_IDLE_STATE_CALLBACK;
typedef PO_FX_DEVICE_POWER_REQUIRED_CALLBACK *PPO_FX_DEVICE_POWER_REQUIRED_CALLBACK;
typedef PO_FX_DEVICE_POWER_NOT_REQUIRED_CALLBACK *PPO_FX_DEVICE_POWER_NOT_REQUIRED_CALLBACK;
typedef PO_FX_POWER_CONTROL_CALLBACK *PPO_FX_POWER_CONTROL_CALLBACK;
typedef PO_FX_DIRECTED_POWER_UP_CALLBACK *PPO_FX_DIRECTED_POWER_UP_CALLBACK;
typedef PO_FX_DIRECTED_POWER_DOWN_CALLBACK *PPO_FX_DIRECTED_POWER_DOWN_CALLBACK;

typedef struct _PO_FX_COMPONENT_IDLE_STATE {
    ULONGLONG TransitionLatency, ResidencyRequirement; /* in 100 ns */
    ULONG NominalPower;
} PO_FX_COMPONENT_IDLE_STATE, *PPO_FX_COMPONENT_IDLE_STATE;
typedef struct _PO_FX_COMPONENT_V1 {
    GUID Id;
    ULONG IdleStateCount, DeepestWakeableIdleState;
    PPO_FX_COMPONENT_IDLE_STATE IdleStates;
} PO_FX_COMPONENT_V1, *PPO_FX_COMPONENT_V1;
typedef struct _PO_FX_COMPONENT_V2 {
    GUID Id;
    ULONGLONG Flags;
    ULONG DeepestWakeableIdleState, IdleStateCount;
    PPO_FX_COMPONENT_IDLE_STATE IdleStates;
    ULONG ProviderCount;
    PULONG Providers;
} PO_FX_COMPONENT_V2, *PPO_FX_COMPONENT_V2;

typedef struct _PO_FX_DEVICE_V1 {
    ULONG Version, ComponentCount;
    PPO_FX_COMPONENT_ACTIVE_CONDITION_CALLBACK ComponentActiveConditionCallback;
    PPO_FX_COMPONENT_IDLE_CONDITION_CALLBACK ComponentIdleConditionCallback;
    PPO_FX_COMPONENT_IDLE_STATE_CALLBACK ComponentIdleStateCallback;
    PPO_FX_DEVICE_POWER_REQUIRED_CALLBACK DevicePowerRequiredCallback;
    PPO_FX_DEVICE_POWER_NOT_REQUIRED_CALLBACK DevicePowerNotRequiredCallback;
    PPO_FX_POWER_CONTROL_CALLBACK PowerControlCallback;
    PVOID DeviceContext;
    PO_FX_COMPONENT_V1 Components[ANYSIZE_ARRAY];
} PO_FX_DEVICE_V1, *PPO_FX_DEVICE_V1;
typedef struct _PO_FX_DEVICE_V2 {
    ULONG Version;
    ULONGLONG Flags;
    PPO_FX_COMPONENT_ACTIVE_CONDITION_CALLBACK ComponentActiveConditionCallback;
    PPO_FX_COMPONENT_IDLE_CONDITION_CALLBACK ComponentIdleConditionCallback;
    PPO_FX_COMPONENT_IDLE_STATE_CALLBACK ComponentIdleStateCallback;
    PPO_FX_DEVICE_POWER_REQUIRED_CALLBACK DevicePowerRequiredCallback;
    PPO_FX_DEVICE_POWER_NOT_REQUIRED_CALLBACK DevicePowerNotRequiredCallback;
    PPO_FX_POWER_CONTROL_CALLBACK PowerControlCallback;
    PVOID DeviceContext;
    ULONG ComponentCount;
    PO_FX_COMPONENT_V2 Components[ANYSIZE_ARRAY];
} PO_FX_DEVICE_V2, *PPO_FX_DEVICE_V2;
typedef struct _PO_FX_DEVICE_V3 {
    ULONG Version;
    ULONGLONG Flags;
    PPO_FX_COMPONENT_ACTIVE_CONDITION_CALLBACK ComponentActiveConditionCallback;
    PPO_FX_COMPONENT_IDLE_CONDITION_CALLBACK ComponentIdleConditionCallback;
    PPO_FX_COMPONENT_IDLE_STATE_CALLBACK ComponentIdleStateCallback;
    PPO_FX_DEVICE_POWER_REQUIRED_CALLBACK DevicePowerRequiredCallback;
    PPO_FX_DEVICE_POWER_NOT_REQUIRED_CALLBACK DevicePowerNotRequiredCallback;
    PPO_FX_POWER_CONTROL_CALLBACK PowerControlCallback;
    PPO_FX_DIRECTED_POWER_UP_CALLBACK DirectedPowerUpCallback; /* neither of these two is called */
    PPO_FX_DIRECTED_POWER_DOWN_CALLBACK DirectedPowerDownCallback;
    ULONG DirectedFxTimeoutInSeconds;
    PVOID DeviceContext;
    ULONG ComponentCount;
    PO_FX_COMPONENT_V2 Components[ANYSIZE_ARRAY];
} PO_FX_DEVICE_V3, *PPO_FX_DEVICE_V3;
#if PO_FX_VERSION == 1
typedef PO_FX_COMPONENT_V1 PO_FX_COMPONENT, *PPO_FX_COMPONENT;
typedef PO_FX_DEVICE_V1 PO_FX_DEVICE, *PPO_FX_DEVICE;
#elif PO_FX_VERSION == 2
typedef PO_FX_COMPONENT_V2 PO_FX_COMPONENT, *PPO_FX_COMPONENT;
typedef PO_FX_DEVICE_V2 PO_FX_DEVICE, *PPO_FX_DEVICE;
#else
typedef PO_FX_COMPONENT_V2 PO_FX_COMPONENT, *PPO_FX_COMPONENT;
typedef PO_FX_DEVICE_V3 PO_FX_DEVICE, *PPO_FX_DEVICE;
#endif

NTSTATUS WdmPoFxRegister(const VOID *Device, POHANDLE *Handle, WDM_SITE at);
VOID WdmPoFxStart(POHANDLE Handle, WDM_SITE at);
VOID WdmPoFxUnregister(POHANDLE Handle, WDM_SITE at);
VOID WdmPoFxActivate(POHANDLE Handle, ULONG Component, ULONG Flags, WDM_SITE at);
VOID WdmPoFxIdle(POHANDLE Handle, ULONG Component, ULONG Flags, WDM_SITE at);
VOID WdmPoFxIdleConditionDone(POHANDLE Handle, ULONG Component, WDM_SITE at);
VOID WdmPoFxIdleStateDone(POHANDLE Handle, ULONG Component, WDM_SITE at);
VOID WdmPoFxPowerNotRequiredDone(POHANDLE Handle, WDM_SITE at);
VOID WdmPoFxPoweredOn(POHANDLE Handle, WDM_SITE at);
VOID WdmPoFxSetLatency(POHANDLE Handle, ULONG Component, ULONGLONG Latency, WDM_SITE at);
VOID WdmPoFxSetResidency(POHANDLE Handle, ULONG Component, ULONGLONG Residency, WDM_SITE at);
VOID WdmPoFxSetWake(POHANDLE Handle, ULONG Component, BOOLEAN Wakes, WDM_SITE at);
VOID WdmPoFxSetTimeout(POHANDLE Handle, ULONGLONG Timeout, WDM_SITE at);
#define PoFxRegisterDevice(pdo, device, handle) ((void)(pdo), WdmPoFxRegister((PPO_FX_DEVICE){ (device) }, (handle), WDM_HERE))
#define PoFxStartDevicePowerManagement(handle) WdmPoFxStart((handle), WDM_HERE)
#define PoFxUnregisterDevice(handle) WdmPoFxUnregister((handle), WDM_HERE)
#define PoFxActivateComponent(handle, component, flags) WdmPoFxActivate((handle), (component), (flags), WDM_HERE)
#define PoFxIdleComponent(handle, component, flags) WdmPoFxIdle((handle), (component), (flags), WDM_HERE)
#define PoFxCompleteIdleCondition(handle, component) WdmPoFxIdleConditionDone((handle), (component), WDM_HERE)
#define PoFxCompleteIdleState(handle, component) WdmPoFxIdleStateDone((handle), (component), WDM_HERE)
#define PoFxCompleteDevicePowerNotRequired(handle) WdmPoFxPowerNotRequiredDone((handle), WDM_HERE)
#define PoFxReportDevicePoweredOn(handle) WdmPoFxPoweredOn((handle), WDM_HERE)
#define PoFxSetComponentLatency(handle, component, latency) WdmPoFxSetLatency((handle), (component), (latency), WDM_HERE)
#define PoFxSetComponentResidency(handle, component, residency) WdmPoFxSetResidency((handle), (component), (residency), WDM_HERE)
#define PoFxSetComponentWake(handle, component, wakes) WdmPoFxSetWake((handle), (component), (wakes), WDM_HERE)
#define PoFxSetDeviceIdleTimeout(handle, timeout) WdmPoFxSetTimeout((handle), (timeout), WDM_HERE)

#endif
