/* processors.c: what drivers ask of processors, of which there is one: masks of a thread, deferred calls on each, a larger
   stack; and the system's version. */
#include "ke/ke.h"

/* A mask without an active processor changes nothing. */
KAFFINITY KeSetSystemAffinityThreadEx(KAFFINITY Affinity)
{
    const KAFFINITY before = self.affinity, wanted = Affinity & KeQueryActiveProcessors();
    if (!wanted)
        return 0;
    self.affinity = wanted;
    return before;
}

VOID KeRevertToUserAffinityThreadEx(KAFFINITY Affinity) { self.affinity = Affinity & KeQueryActiveProcessors(); }

enum { DPC_OBJECT = 0x13 }; /* as Windows numbers it */

VOID WdmKeInitializeDpc(PKDPC Dpc, PKDEFERRED_ROUTINE Routine, PVOID Context, WDM_SITE at)
{
    Call c;
    enter_host(&c, "KeInitializeDpc", at);
    *Dpc = (KDPC){ .Type = DPC_OBJECT, .Importance = MediumImportance, .DeferredRoutine = Routine, .DeferredContext = Context,
                   .HostDriver = calling_driver() };
    leave_host();
}

/* The routine runs at once, at DISPATCH_LEVEL, for the one processor. */
VOID WdmKeGenericCallDpc(PKDEFERRED_ROUTINE Routine, PVOID Context, WDM_SITE at)
{
    DEFERRED_REVERSE_BARRIER barrier = { 1, 1 };
    ULONG left = 1;
    KDPC dpc;
    WdmKeInitializeDpc(&dpc, Routine, Context, at);
    const KIRQL before = WdmKeRaiseIrqlToDpcLevel(at);
    Routine(&dpc, Context, &left, &barrier);
    WdmKeLowerIrql(before, at);
}

VOID KeSignalCallDpcDone(PVOID Count) { --*(PULONG)Count; }

/* All processors are here: the phase turns, which the highest bit tells. This one is chosen. */
LOGICAL KeSignalCallDpcSynchronize(PVOID Barrier)
{
    ((PDEFERRED_REVERSE_BARRIER)Barrier)->Barrier ^= 0x80000000;
    return TRUE;
}

/* The stack of a thread is large here. */
NTSTATUS KeExpandKernelStackAndCalloutEx(PEXPAND_STACK_CALLOUT Callout, PVOID Parameter, SIZE_T Size, BOOLEAN Wait, PVOID Context)
{
    (void)Size, (void)Wait, (void)Context;
    Callout(Parameter);
    return STATUS_SUCCESS;
}

/* The last Windows 10, without checks. */
BOOLEAN PsGetVersion(PULONG Major, PULONG Minor, PULONG Build, PUNICODE_STRING Pack)
{
    if (Major)
        *Major = 10;
    if (Minor)
        *Minor = 0;
    if (Build)
        *Build = WDM_BUILD;
    if (Pack)
        RtlInitUnicodeString(Pack, L"");
    return FALSE;
}
