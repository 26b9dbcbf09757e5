/* system_routines.c: routines that drivers look for by their names. Each is called as in the kit, so from nowhere. */
#include "ke/ke.h"
#include "record/record.h"
#include "wdm_share.h"

static const WDM_SITE nowhere;

static PVOID allocate_pool_2(ULONGLONG flags, SIZE_T bytes, ULONG tag)
{
    return WdmAllocatePool(WDM_POOL_BY(flags), bytes, tag, nowhere);
}

static NTSTATUS get_processor(ULONG index, PPROCESSOR_NUMBER number) { return KeGetProcessorNumberFromIndex(index, number); }
static ULONG count_processors(USHORT group) { return KeQueryActiveProcessorCountEx(group); }
static VOID reference(PVOID object) { WdmObReferenceObject(object, nowhere); }
static VOID dereference(PVOID object) { WdmObDereferenceObject(object, nowhere); }
static PIO_WORKITEM new_work_item(PDEVICE_OBJECT device) { return WdmIoAllocateWorkItem(device, nowhere); }
static VOID initialize_item(PVOID object, PIO_WORKITEM item) { WdmIoInitializeWorkItem(object, item, nowhere); }
static VOID uninitialize_item(PIO_WORKITEM item) { WdmIoUninitializeWorkItem(item, nowhere); }
static VOID queue_item(PIO_WORKITEM item, PIO_WORKITEM_ROUTINE_EX routine, WORK_QUEUE_TYPE queue, PVOID context)
{
    (void)queue;
    WdmIoQueueWorkItemEx(item, routine, context, nowhere);
}

static VOID initialize_dpc(PKDPC dpc, PKDEFERRED_ROUTINE routine, PVOID context)
{
    WdmKeInitializeDpc(dpc, routine, context, nowhere);
}
static VOID call_on_each(PKDEFERRED_ROUTINE routine, PVOID context) { WdmKeGenericCallDpc(routine, context, nowhere); }
static KAFFINITY active_processors(VOID) { return KeQueryActiveProcessors(); }
static NTSTATUS expand_stack(PEXPAND_STACK_CALLOUT callout, PVOID parameter, SIZE_T size)
{
    return KeExpandKernelStackAndCallout(callout, parameter, size);
}
static NTSTATUS new_extension(PDRIVER_OBJECT driver, PVOID id, ULONG bytes, PVOID *extension)
{
    return IoAllocateDriverObjectExtension(driver, id, bytes, extension);
}
static USHORT build_number = WDM_BUILD;

#define ROUTINE(name) { #name, (void *)(name) }
static const struct { const char *name; void *routine; } routines[] = {
    ROUTINE(DbgPrint), ROUTINE(DbgPrintEx), ROUTINE(vDbgPrintEx), ROUTINE(KeQuerySystemTime), ROUTINE(KeQueryInterruptTime),
    { "KeQueryUnbiasedInterruptTime", (void *)KeQueryInterruptTime }, { "KeQuerySystemTimePrecise", (void *)KeQuerySystemTime },
    ROUTINE(KeQueryTimeIncrement), ROUTINE(KeQueryPerformanceCounter), ROUTINE(KeGetCurrentIrql), ROUTINE(KeCancelTimer),
    ROUTINE(KeInitializeTimerEx), ROUTINE(KeReadStateTimer), ROUTINE(KeReadStateEvent), ROUTINE(KeClearEvent),
    ROUTINE(KeResetEvent), ROUTINE(KeFlushQueuedDpcs), ROUTINE(KeEnterCriticalRegion), ROUTINE(KeLeaveCriticalRegion),
    ROUTINE(KeAreApcsDisabled), ROUTINE(KeAreAllApcsDisabled), { "KeGetProcessorNumberFromIndex", (void *)get_processor },
    { "KeQueryActiveProcessorCountEx", (void *)count_processors }, { "KeQueryMaximumProcessorCountEx", (void *)count_processors },
    ROUTINE(IoGetAttachedDevice), ROUTINE(IoGetRelatedDeviceObject), ROUTINE(IoGetStackLimits), ROUTINE(IoSizeofWorkItem),
    { "IoAllocateWorkItem", (void *)new_work_item }, { "IoInitializeWorkItem", (void *)initialize_item },
    { "IoUninitializeWorkItem", (void *)uninitialize_item }, { "IoQueueWorkItemEx", (void *)queue_item },
    ROUTINE(IoSetDevicePropertyData), ROUTINE(IoGetDevicePropertyData), ROUTINE(PsGetCurrentProcess), ROUTINE(PsGetThreadId),
    ROUTINE(PsGetCurrentThreadId), ROUTINE(PsTerminateSystemThread), { "ObfReferenceObject", (void *)reference },
    { "ObfDereferenceObject", (void *)dereference }, { "ExAllocatePool2", (void *)allocate_pool_2 },
    { "ExAllocatePoolWithTag", (void *)(ExAllocatePoolWithTag) }, { "ExFreePoolWithTag", (void *)(ExFreePoolWithTag) },
    { "ExFreePool", (void *)(ExFreePool) }, ROUTINE(RtlInitUnicodeString), ROUTINE(RtlCopyUnicodeString),
    ROUTINE(RtlEqualUnicodeString), ROUTINE(RtlCompareUnicodeString), ROUTINE(RtlUnicodeStringToInteger),
    { "KeInitializeDpc", (void *)initialize_dpc }, { "KeGenericCallDpc", (void *)call_on_each },
    ROUTINE(KeSignalCallDpcDone), ROUTINE(KeSignalCallDpcSynchronize), ROUTINE(KeExpandKernelStackAndCalloutEx),
    { "KeExpandKernelStackAndCallout", (void *)expand_stack }, { "KeQueryActiveProcessors", (void *)active_processors },
    ROUTINE(KeSetSystemAffinityThreadEx), ROUTINE(KeRevertToUserAffinityThreadEx), ROUTINE(ObGetObjectType),
    ROUTINE(PsGetVersion), { "IoAllocateDriverObjectExtension", (void *)new_extension },
    ROUTINE(IoGetDriverObjectExtension),
};

/* What Windows exports and is no routine. */
static PVOID exported(const char *name)
{
    return !strcmp(name, "ExEventObjectType") ? (PVOID)ExEventObjectType : !strcmp(name, "PsThreadType") ? (PVOID)PsThreadType :
        !strcmp(name, "IoFileObjectType") ? (PVOID)IoFileObjectType : !strcmp(name, "PsProcessType") ? (PVOID)PsProcessType :
        !strcmp(name, "IoDriverObjectType") ? (PVOID)IoDriverObjectType :
        !strcmp(name, "IoDeviceObjectType") ? (PVOID)IoDeviceObjectType :
        !strcmp(name, "PsInitialSystemProcess") ? (PVOID)&PsInitialSystemProcess :
        !strcmp(name, "NtBuildNumber") ? (PVOID)&build_number : NULL;
}

PVOID WdmSystemRoutine(PUNICODE_STRING Name, WDM_SITE at)
{
    Call c;
    char name[80];
    const size_t n = Name->Length / sizeof(WCHAR);
    enter_quietly(&c, "MmGetSystemRoutineAddress", at);
    for (size_t i = 0; i < n && n < sizeof name; i++)
        name[i] = (char)Name->Buffer[i];
    name[n < sizeof name ? n : 0] = 0;
    PVOID found = exported(name);
    for (size_t i = 0; i < ARRAYSIZE(routines) && !found; i++)
        if (!strcmp(routines[i].name, name))
            found = routines[i].routine;
    if (!found)
        note("not there", "MmGetSystemRoutineAddress(%s) gives NULL", name);
    leave_host();
    return found;
}
