/* checks.c: the rules that Driver Verifier's users know, as data: name, stop code, title of the WDK's page, remedy. */
#include "rules/rules.h"
#include "io/io.h"
#include "ke/ke.h"
#include "mm/mm.h"
#include "record/record.h"
#include "test/test.h"

static const Check checks[] = {
    { "SelfDeadlock", "0xC4/0x1000", "Deadlock Detection", "release it first, or call a routine that expects it held" },
    { "LockOrder", "0xC4/0x1001", "Deadlock Detection", "take the two in one order everywhere" },
    { "WrongThread", "0xC4/0x1004", "Deadlock Detection", "the thread that takes a lock gives it back" },
    { "LockKept", "0xC4/0x1006", "Deadlock Detection", "give it back on each way out" },
    { "NotAcquired", "0xC4/0x1007", "Deadlock Detection", "take it before, or don't give it back twice" },
    { "InitializedHeld", "0xC4/0x1005", "Deadlock Detection", "initialize a lock once, before its first use" },
    { "UnderSpinLock", "rule SpinLock", "Preventing Errors and Deadlocks While Using Spin Locks",
      "give the lock back before the call" },
    { "WrongIrql", "rule SpinLockRelease", "KeReleaseSpinLock function",
      "hand over the level that this acquire gave" },
    { "IrqlTooHigh", "0xC4 or 0xA", "Managing Hardware Priorities", "do it in a work item or a thread, or before" },
    { "PagedAtDispatch", "0xD1", "Force IRQL Checking", "allocate it from nonpaged pool, or copy what is needed before" },
    { "PageableCode", "0xD1", "Making Drivers Pageable", "take it out of the section, or raise the level elsewhere" },
    { "Unprobed", "0x50", "Errors in Referencing User-Space Addresses", "probe it, or lock its pages by an MDL, first" },
    { "IrqlTooLow", "0xC4/0x41", "KeAcquireSpinLockAtDpcLevel function", "call the one that raises the level" },
    { "IrqlReturn", "0xC9/0x5", "Managing Hardware Priorities", "put the level back on each way out" },
    { "RaiseLower", "0xC4/0x30", "KeRaiseIrql function", "raise upwards, and lower to what the raise gave" },
    { "ForwardedAtBadIrql", "rule ForwardedAtBadIrql", "Dispatch Routines and IRQLs",
      "send it from a work item or a thread, at PASSIVE_LEVEL" },
    { "PoolLeak", "0xC4/0x62", "Pool Tracking", "free it before DriverUnload returns, or at the device's removal" },
    { "PacketLeak", "0xC4/0x62", "IoAllocateIrp function", "call IoFreeIrp where the packet comes back, or send it again" },
    { "FreedTwice", "0xC2/0x7", "Bug Check 0xC2: BAD_POOL_CALLER", "free it once; set the pointer to NULL then" },
    { "WrongTag", "0xC2/0xA", "Bug Check 0xC2: BAD_POOL_CALLER", "free it with the tag of its allocation" },
    { "NotPool", "0xC4/0x10", "Pool Tracking", "free what a pool call gave, by the same pointer" },
    { "WrittenAfterFree", "0xC6", "Bug Check 0xC6: DRIVER_CAUGHT_MODIFYING_FREED_POOL",
      "free it last; run with --page-ends, and the line is told" },
    { "UsedAfterFree", "0xCC", "Special Pool", "free it last" },
    { "PoolOverrun", "0xCD", "Special Pool", "check lengths; run with --page-ends, and the line is told" },
    { "ZeroBytes", "0xC4/0x0", "Pool Tracking", "ask only for memory that is needed" },
    { "TimerInFreedMemory", "0xC7/0x0", "Bug Check 0xC7: TIMER_OR_DPC_INVALID", "call KeCancelTimer before" },
    { "DpcInFreedMemory", "0xC7/0x1", "Bug Check 0xC7: TIMER_OR_DPC_INVALID", "call KeFlushQueuedDpcs before" },
    { "InformationTooLong", "no stop code", "Errors in Buffered I/O", "set Information to the bytes that were written" },
    { "Unwritten", "no stop code", "Failure to Initialize Output Buffers",
      "set Information to the bytes that were written, or clear the buffer before" },
    { "NotRestored", "no stop code", "Handling an IRP_MN_CANCEL_REMOVE_DEVICE Request",
      "go back to the state before, and let what is held go on: after IRP_MN_CANCEL_STOP_DEVICE and with power, too" },
    { "UsageKept", "no stop code", "IRP_MN_DEVICE_USAGE_NOTIFICATION",
      "undo it in the completion routine, where the status is a failure" },
    { "TouchedAfterSend", "no stop code", "Passing IRPs Down the Driver Stack",
      "copy what is needed before IoCallDriver, or use it in the completion routine" },
    { "RemoveFailed", "rule PnpRemove", "Rules for Handling Plug and Play IRPs", "succeed, and pass it down" },
    { "PnpStatusChanged", "0xC9", "Rules for Handling Plug and Play IRPs", "leave the status of what isn't handled" },
    { "StatusNotSet", "no stop code", "Handling an IRP_MN_SURPRISE_REMOVAL Request",
      "set Irp->IoStatus.Status to STATUS_SUCCESS before it is passed down" },
    { "NotPassedDown", "0xC9", "Rules for Handling Plug and Play IRPs", "pass it down, whatever is done with it here" },
    { "MutexKept", "0x4000008A", "Introduction to Mutex Objects", "release it on each way out" },
    { "UsedInFreedMemory", "0xCC", "Special Pool", "free the memory, or delete the device, once nobody uses it" },
    { "StartedEarly", "rule StartDevice", "Starting a Device in a Function Driver",
      "pass IRP_MN_START_DEVICE down first, and wait until it is back" },
    { "NextPowerIrp", "no stop code", "Calling PoStartNextPowerIrp",
      "call it before the packet is passed on, completed, or its routine returns" },
    { "ListCorrupt", "0x139/0x3", "Bug Check 0x139: KERNEL_SECURITY_CHECK_FAILURE",
      "remove an entry once, and initialize the head before" },
    { "StillInitializing", "no stop code", "Guidelines for Writing AddDevice Routines",
      "clear DO_DEVICE_INITIALIZING in its Flags when it is attached" },
    { "KeptOverSurprise", "no stop code", "Handling an IRP_MN_SURPRISE_REMOVAL Request",
      "fail what is held in the dispatch of IRP_MN_SURPRISE_REMOVAL, and what comes later" },
    { "NoStatus", "no stop code", "Setting the I/O Status Block in an IRP",
      "set Irp->IoStatus.Status before IoCompleteRequest, on each way" },
    { "HandleType", "no stop code", "Failure to Validate Object Handles",
      "hand over the type of object that is used, as *ExEventObjectType" },
    { "HandleContext", "no stop code", "ObReferenceObjectByHandle function",
      "take the object in the dispatch, and hand that on" },
    { "InterfaceEnabled", "no stop code", "Registering a Device Interface",
      "call IoSetDeviceInterfaceState with FALSE in the removal, and in the surprise removal" },
    { "NullRoutine", "0xD1 or 0x7E", "IoSetCompletionRoutine function", "set a routine, or FALSE for each InvokeOn" },
    { "KeptOverCleanup", "no stop code", "DispatchCleanup Routines",
      "cancel in IRP_MJ_CLEANUP each request that is held and has its FileObject" },
    { "CleanupOfAnother", "no stop code", "DispatchCleanup Routines", "compare FileObject of each request that is held" },
    { "LostUpdate", "no stop code", "InterlockedExchangeAdd function", "change it under a lock, or by an Interlocked call" },
    { "LockInFreedMemory", "0xC4/0x1006", "Deadlock Detection", "give it back before the memory goes" },
};

const Check *check_named(const char *rule)
{
    for (size_t i = 0; i < sizeof checks / sizeof *checks; i++)
        if (!strcmp(checks[i].rule, rule))
            return &checks[i];
    return NULL;
}

/* Tells a fault by a rule of the table, with its remedy. */
void broken(const char *rule, const Packet *p, const char *how, ...)
{
    char text[380];
    va_list list;
    va_start(list, how);
    vsnprintf(text, sizeof text, how, list);
    va_end(list);
    const Check *c = check_named(rule);
    fault(rule, p, "%s. Remedy: %s (WDK: %s)", text, c->remedy, c->page);
}

/* The same of a call that was made before, at this place. */
void broken_at(const char *rule, const char *call, WDM_SITE at, const char *how, ...)
{
    char text[380];
    va_list list;
    va_start(list, how);
    vsnprintf(text, sizeof text, how, list);
    va_end(list);
    const Check *c = check_named(rule);
    fault_at(rule, NULL, call, at, "%s. Remedy: %s (WDK: %s)", text, c->remedy, c->page);
}

/* The neighbours of a list's entry don't point to it: it isn't in the list, or the list was written over. */
VOID WdmListIsCorrupt(PCSTR Name, WDM_SITE at)
{
    Call c;
    enter_quietly(&c, Name, at);
    broken("ListCorrupt", NULL, "the entry's neighbours don't point to it: it was removed before, or never inserted%s",
           self.frames ? none_taken(self.frames->p) : "");
    leave_host();
}

/* What a test holds to be true. Where the run takes memory or a request away it may be otherwise. */
BOOLEAN WdmChecked(BOOLEAN Holds, const char *Text, WDM_SITE at)
{
    Call c;
    learn_test(at.file);
    enter_quietly(&c, "WDM_CHECK", at);
    if (!Holds && (memory_was_refused() || was_cancelled_there()))
        note("a check", "%s in %s: %s doesn't hold", place(at), at.function, Text);
    else if (!Holds)
        fault("Check", NULL, "%s doesn't hold", Text);
    leave_host();
    return Holds;
}
