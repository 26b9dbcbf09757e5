/* wdm_timers.h: timers of Windows 8.1 and later, which call back at DISPATCH_LEVEL without a deferred call of the driver's own. */
#ifndef WDM_TIMERS_H
#define WDM_TIMERS_H

#include "wdm_ex.h"

/* The tolerance is for saving power: the host has none. */
#define KeSetCoalescableTimer(timer, due, period, tolerance, dpc) \
    ((void)(tolerance), WdmKeSetTimer((timer), (due), (LONG)(period), (dpc), WDM_HERE))

typedef struct _EX_TIMER EX_TIMER, *PEX_TIMER;
typedef VOID EXT_CALLBACK(PEX_TIMER Timer, PVOID Context);
typedef EXT_CALLBACK *PEXT_CALLBACK;
typedef VOID EXT_DELETE_CALLBACK(PVOID Context);
typedef EXT_DELETE_CALLBACK *PEXT_DELETE_CALLBACK;
typedef struct _EXT_SET_PARAMETERS { ULONG Version, Reserved; LONGLONG NoWakeTolerance; } EXT_SET_PARAMETERS,
    *PEXT_SET_PARAMETERS, KT2_SET_PARAMETERS, *PKT2_SET_PARAMETERS;
typedef struct _EXT_CANCEL_PARAMETERS *PEXT_CANCEL_PARAMETERS;
typedef struct _EXT_DELETE_PARAMETERS {
    ULONG Version, Reserved;
    PEXT_DELETE_CALLBACK DeleteCallback;
    PVOID DeleteContext;
} EXT_DELETE_PARAMETERS, *PEXT_DELETE_PARAMETERS;
#define EX_TIMER_HIGH_RESOLUTION 4
#define EX_TIMER_NO_WAKE 8
#define EX_TIMER_NOTIFICATION 0x80000000u
#define EX_TIMER_UNLIMITED_TOLERANCE (-1ll)
#define ExInitializeSetTimerParameters(parameters) ((void)(*(parameters) = (EXT_SET_PARAMETERS){ 0 }))
#define ExInitializeDeleteTimerParameters(parameters) ((void)(*(parameters) = (EXT_DELETE_PARAMETERS){ 0 }))
PEX_TIMER WdmExAllocateTimer(PEXT_CALLBACK Callback, PVOID Context, ULONG Attributes, WDM_SITE at);
BOOLEAN WdmExSetTimer(PEX_TIMER Timer, LONGLONG DueTime, LONGLONG Period, WDM_SITE at);
BOOLEAN WdmExCancelTimer(PEX_TIMER Timer, WDM_SITE at);
BOOLEAN WdmExDeleteTimer(PEX_TIMER Timer, BOOLEAN Cancel, BOOLEAN Wait, PEXT_DELETE_PARAMETERS Parameters, WDM_SITE at);
#define ExAllocateTimer(callback, context, attributes) WdmExAllocateTimer((callback), (context), (attributes), WDM_HERE)
#define ExSetTimer(timer, due, period, parameters) ((void)(parameters), WdmExSetTimer((timer), (due), (period), WDM_HERE))
#define ExCancelTimer(timer, parameters) ((void)(parameters), WdmExCancelTimer((timer), WDM_HERE))
#define ExDeleteTimer(timer, cancel, wait, parameters) \
    WdmExDeleteTimer((timer), (BOOLEAN)(cancel), (BOOLEAN)(wait), (parameters), WDM_HERE)

#endif
