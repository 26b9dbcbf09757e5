/*
 * levels.c: at which interrupt level each call may be made, as the WDK's page of the call says.
 *
 * The level is the thread's own: a deferred call and a cancel routine begin at DISPATCH_LEVEL, a spin lock raises it,
 * a fast mutex raises it to APC_LEVEL. With WDM_ROUTINES_HIGH, and with each odd seed, completion routines begin at
 * DISPATCH_LEVEL: Windows may call them so. wdm_levels.h has further calls, all of PASSIVE_LEVEL.
 */
#include "rules/own.h"
#include "ke/ke.h"
#include "mm/mm.h"
#include "record/record.h"

/* NO_LOCK: no spin lock may be held. WAITS: the same of a call that takes no time where its limit is zero, so whoever
   makes it asks. A call that isn't here may be made at any level. */
enum { ANY_LOCK = 0, NO_LOCK = 1, WAITS = 3 };
typedef struct { const char *name; KIRQL lowest, highest; int flags; const char *code; } Level;

static const Level levels[] = {
    { "IoCallDriver", 0, DISPATCH_LEVEL, NO_LOCK, NULL },
    { "IoCompleteRequest", 0, DISPATCH_LEVEL, NO_LOCK, "0xC9/0xE" },
    { "IoForwardIrpSynchronously", 0, PASSIVE_LEVEL, NO_LOCK, NULL },
    { "PoRequestPowerIrp", 0, DISPATCH_LEVEL, NO_LOCK, NULL },
    { "KeWaitForSingleObject", 0, APC_LEVEL, WAITS, "0xC4/0x3B" },
    { "KeWaitForMultipleObjects", 0, APC_LEVEL, WAITS, "0xC4/0x3B" },
    { "KeDelayExecutionThread", 0, APC_LEVEL, WAITS, "0xC4/0x3B" },
    { "ExAcquireFastMutex", 0, APC_LEVEL, NO_LOCK, "0xC4/0x33" },
    { "ExTryToAcquireFastMutex", 0, APC_LEVEL, NO_LOCK, "0xC4/0x33" },
    { "ExReleaseFastMutex", 0, APC_LEVEL, ANY_LOCK, "0xC4/0x34" },
    { "IoReleaseRemoveLockAndWait", 0, PASSIVE_LEVEL, NO_LOCK, NULL },
    { "KeFlushQueuedDpcs", 0, PASSIVE_LEVEL, NO_LOCK, NULL },
    { "PAGED_CODE", 0, APC_LEVEL, ANY_LOCK, "0xA" },
    { "ExAllocatePool (paged)", 0, APC_LEVEL, ANY_LOCK, "0xC4/0x1" },
    { "ExFreePool (paged)", 0, APC_LEVEL, ANY_LOCK, "0xC4/0x11" },
    { "ExAllocatePool", 0, DISPATCH_LEVEL, ANY_LOCK, "0xC4/0x2" },
    { "ExFreePool", 0, DISPATCH_LEVEL, ANY_LOCK, "0xC4/0x12" },
    { "IoCreateDevice", 0, APC_LEVEL, NO_LOCK, NULL },
    { "IoDeleteDevice", 0, APC_LEVEL, NO_LOCK, NULL },
    { "IoAttachDeviceToDeviceStack", 0, PASSIVE_LEVEL, NO_LOCK, NULL },
    { "IoDetachDevice", 0, PASSIVE_LEVEL, NO_LOCK, NULL },
    { "IoInitializeRemoveLock", 0, PASSIVE_LEVEL, ANY_LOCK, NULL },
    { "PsCreateSystemThread", 0, PASSIVE_LEVEL, NO_LOCK, NULL },
    { "ZwClose", 0, PASSIVE_LEVEL, NO_LOCK, NULL },
    { "IoConnectInterrupt", 0, PASSIVE_LEVEL, NO_LOCK, NULL },
    { "IoDisconnectInterrupt", 0, PASSIVE_LEVEL, NO_LOCK, NULL },
    { "IoCreateSymbolicLink", 0, PASSIVE_LEVEL, NO_LOCK, NULL },
    { "IoRegisterPlugPlayNotification", 0, PASSIVE_LEVEL, NO_LOCK, NULL },
    { "IoUnregisterPlugPlayNotification", 0, PASSIVE_LEVEL, NO_LOCK, NULL },
    { "IoInvalidateDeviceRelations", 0, DISPATCH_LEVEL, ANY_LOCK, NULL },
    { "ObReferenceObjectByHandle", 0, PASSIVE_LEVEL, NO_LOCK, NULL },
    { "IoBuildDeviceIoControlRequest", 0, PASSIVE_LEVEL, ANY_LOCK, NULL },
    { "IoBuildSynchronousFsdRequest", 0, PASSIVE_LEVEL, ANY_LOCK, NULL },
    { "IoAllocateIrp", 0, DISPATCH_LEVEL, ANY_LOCK, NULL },
    { "IoFreeIrp", 0, DISPATCH_LEVEL, ANY_LOCK, NULL },
    { "IoInitializeIrp", 0, DISPATCH_LEVEL, ANY_LOCK, NULL },
    { "IoCancelIrp", 0, DISPATCH_LEVEL, ANY_LOCK, NULL },
    { "IoSetCompletionRoutine", 0, DISPATCH_LEVEL, ANY_LOCK, NULL },
    { "IoSetCancelRoutine", 0, DISPATCH_LEVEL, ANY_LOCK, NULL },
    { "IoMarkIrpPending", 0, DISPATCH_LEVEL, ANY_LOCK, NULL },
    { "IoAcquireRemoveLock", 0, DISPATCH_LEVEL, ANY_LOCK, NULL },
    { "IoReleaseRemoveLock", 0, DISPATCH_LEVEL, ANY_LOCK, NULL },
    { "IoAcquireCancelSpinLock", 0, DISPATCH_LEVEL, ANY_LOCK, "0xC4/0x40" },
    { "KeAcquireSpinLock", 0, DISPATCH_LEVEL, ANY_LOCK, "0xC4/0x40" },
    { "KeAcquireSpinLockAtDpcLevel", DISPATCH_LEVEL, DISPATCH_LEVEL, ANY_LOCK, "0xC4/0x41" },
    { "KeSetEvent", 0, DISPATCH_LEVEL, ANY_LOCK, NULL },
    { "KeReleaseMutex", 0, DISPATCH_LEVEL, ANY_LOCK, NULL },
    { "KeSetTimer", 0, DISPATCH_LEVEL, ANY_LOCK, NULL },
    { "KeCancelTimer", 0, DISPATCH_LEVEL, ANY_LOCK, NULL },
    { "IoAllocateWorkItem", 0, DISPATCH_LEVEL, ANY_LOCK, NULL },
    { "IoQueueWorkItem", 0, DISPATCH_LEVEL, ANY_LOCK, NULL },
    { "IoFreeWorkItem", 0, DISPATCH_LEVEL, ANY_LOCK, NULL },
    { "IoInitializeWorkItem", 0, DISPATCH_LEVEL, ANY_LOCK, NULL },
    { "IoUninitializeWorkItem", 0, DISPATCH_LEVEL, ANY_LOCK, NULL },
    { "ExQueueWorkItem", 0, DISPATCH_LEVEL, ANY_LOCK, NULL },
    { "ExAllocateTimer", 0, DISPATCH_LEVEL, ANY_LOCK, NULL },
    { "ExSetTimer", 0, DISPATCH_LEVEL, ANY_LOCK, NULL },
    { "ExCancelTimer", 0, DISPATCH_LEVEL, ANY_LOCK, NULL },
    { "ExDeleteTimer", 0, DISPATCH_LEVEL, ANY_LOCK, NULL },
    { "ExDeleteTimer (waits)", 0, APC_LEVEL, NO_LOCK, NULL },
    { "ExAcquireSpinLockExclusive", 0, DISPATCH_LEVEL, ANY_LOCK, NULL },
    { "ExAcquireSpinLockShared", 0, DISPATCH_LEVEL, ANY_LOCK, NULL },
    { "ExAcquireSpinLockExclusiveAtDpcLevel", DISPATCH_LEVEL, DISPATCH_LEVEL, ANY_LOCK, NULL },
    { "ExAcquireSpinLockSharedAtDpcLevel", DISPATCH_LEVEL, DISPATCH_LEVEL, ANY_LOCK, NULL },
    { "ExAcquirePushLock", 0, APC_LEVEL, NO_LOCK, NULL },
    { "ExReleasePushLock", 0, APC_LEVEL, ANY_LOCK, NULL },
    { "ExInitializeLookasideListEx", 0, DISPATCH_LEVEL, ANY_LOCK, NULL },
    { "ExCreateCallback", 0, PASSIVE_LEVEL, NO_LOCK, NULL },
    { "ExRegisterCallback", 0, APC_LEVEL, NO_LOCK, NULL },
    { "ExUnregisterCallback", 0, APC_LEVEL, NO_LOCK, NULL },
    { "ExNotifyCallback", 0, DISPATCH_LEVEL, ANY_LOCK, NULL },
    { "ObOpenObjectByPointer", 0, PASSIVE_LEVEL, NO_LOCK, NULL },
    { "MmAllocatePagesForMdlEx", 0, DISPATCH_LEVEL, ANY_LOCK, NULL },
    { "MmFreePagesFromMdl", 0, DISPATCH_LEVEL, ANY_LOCK, NULL },
    { "PoRegisterPowerSettingCallback", 0, PASSIVE_LEVEL, NO_LOCK, NULL },
    { "PoUnregisterPowerSettingCallback", 0, PASSIVE_LEVEL, NO_LOCK, NULL },
    { "KeStackAttachProcess", 0, APC_LEVEL, NO_LOCK, NULL },
    { "KeUnstackDetachProcess", 0, APC_LEVEL, NO_LOCK, NULL },
    { "IoGetDmaAdapter", 0, PASSIVE_LEVEL, NO_LOCK, NULL },
    { "PutDmaAdapter", 0, PASSIVE_LEVEL, NO_LOCK, NULL },
    { "AllocateCommonBuffer", 0, PASSIVE_LEVEL, NO_LOCK, NULL },
    { "FreeCommonBuffer", 0, PASSIVE_LEVEL, NO_LOCK, NULL },
    { "GetScatterGatherList", 0, DISPATCH_LEVEL, ANY_LOCK, "0xE6" },
    { "PutScatterGatherList", 0, DISPATCH_LEVEL, ANY_LOCK, "0xE6" },
    { "AllocateAdapterChannel", 0, DISPATCH_LEVEL, ANY_LOCK, "0xE6" },
    { "MapTransfer", 0, DISPATCH_LEVEL, ANY_LOCK, "0xE6" },
    { "FlushAdapterBuffers", 0, DISPATCH_LEVEL, ANY_LOCK, "0xE6" },
    { "FreeAdapterChannel", 0, DISPATCH_LEVEL, ANY_LOCK, "0xE6" },
    { "FreeMapRegisters", 0, DISPATCH_LEVEL, ANY_LOCK, "0xE6" },
    { "IoCheckShareAccess", 0, PASSIVE_LEVEL, NO_LOCK, NULL },
    { "IoSetShareAccess", 0, PASSIVE_LEVEL, NO_LOCK, NULL },
    { "IoUpdateShareAccess", 0, PASSIVE_LEVEL, NO_LOCK, NULL },
    { "IoRemoveShareAccess", 0, PASSIVE_LEVEL, NO_LOCK, NULL },
};

const char *level_name(KIRQL irql)
{
    return irql == PASSIVE_LEVEL ? "PASSIVE_LEVEL" : irql == APC_LEVEL ? "APC_LEVEL" :
        irql == DISPATCH_LEVEL ? "DISPATCH_LEVEL" : "a device's level";
}

static const Level *level_of(const char *name)
{
    for (size_t i = 0; i < sizeof levels / sizeof *levels; i++)
        if (!strcmp(levels[i].name, name))
            return &levels[i];
    return NULL;
}

static void check_level(const Level *l)
{
    const Hold *h = held_spin_lock();
    if (h && l->flags & NO_LOCK)
        broken("UnderSpinLock", NULL, "called with the %s held since %s%s%s", lock_kind(h->kind), place(h->at),
               l->highest < DISPATCH_LEVEL && l->code ? ", so at DISPATCH_LEVEL: Driver Verifier's " : "",
               l->highest < DISPATCH_LEVEL && l->code ? l->code : "");
    else if (self.irql > l->highest)
        broken("IrqlTooHigh", NULL, "called at %s, and at most %s is allowed%s%s", level_name(self.irql),
               level_name(l->highest), l->code ? ": Driver Verifier's " : "", l->code ? l->code : "");
    else if (self.irql < l->lowest)
        broken("IrqlTooLow", NULL, "called at %s", level_name(self.irql));
}

/* A call of PASSIVE_LEVEL that is nothing but checked (wdm_levels.h). At APC_LEVEL, as under a fast mutex, most of them
   do no harm, so nothing is told. */
VOID WdmAtLevel(const char *name, WDM_SITE at)
{
    static const Level low = { NULL, 0, APC_LEVEL, NO_LOCK, NULL };
    Call c;
    if (self.irql <= APC_LEVEL)
        return;
    enter_host(&c, name, at);
    check_level(&low);
    leave_host();
}

/* Each call of a driver. The host's own calls have no place in a source. */
void check_call(const Call *c)
{
    const Level *l = c->at.file ? level_of(c->name) : NULL;
    if (l && l->flags != WAITS)
        check_level(l);
    check_pageable_call(c);
}

/* A wait that may take time, or another call that is nothing but checked. Takes G and gives it back. */
void check_wait(const char *name, WDM_SITE at)
{
    Call c;
    enter_host(&c, name, at);
    if (level_of(name)->flags == WAITS)
        check_level(level_of(name));
    leave_host();
}

static bool is_passive_request(UCHAR major, int device)
{
    switch (major) {
    case IRP_MJ_CREATE:
    case IRP_MJ_CLOSE:
    case IRP_MJ_CLEANUP:
    case IRP_MJ_PNP:
    case IRP_MJ_SYSTEM_CONTROL: return true;
    case IRP_MJ_POWER: return devices[device].raw->Flags & DO_POWER_PAGABLE;
    default: return false;
    }
}

/* A packet is sent to a device. */
void check_dispatch_level(const Packet *p, UCHAR major, int device)
{
    if (self.irql > APC_LEVEL && is_passive_request(major, device))
        broken("ForwardedAtBadIrql", p, "%s is sent at %s", major_name(major), level_name(self.irql));
}

static bool routines_begin_high(void)
{
    return options.routines_high || options.shake % 2;
}

/* A driver's code begins: `irql` is the least level at which it does, then the level at which it did. */
void enter_level(Frame *f)
{
    if (f->kind != CANCELLING) /* of a cancel: the level before the cancel spin lock, which is known */
        f->before = self.irql;
    if (f->kind == ROUTINE && f->irql < DISPATCH_LEVEL && routines_begin_high())
        f->irql = DISPATCH_LEVEL;
    if (self.irql < f->irql)
        self.irql = f->irql;
    f->irql = self.irql;
    close_paged();
    check_pageable_routine(f);
}

/* It returns: with the level at which it began, and without locks that it took. */
void leave_level(Frame *f)
{
    tell_locks_kept(f);
    const KIRQL wanted = f->kind == CANCELLING ? f->before : f->irql;
    if (self.irql != wanted && !self.has_cancel_lock) {
        const Call c = { .up = self.calls, .name = "the level is raised here", .at = self.raised };
        self.calls = (Call *)&c;
        broken("IrqlReturn", NULL, "%s returns at %s, and %s is right", what_runs(f),
               level_name(self.irql), level_name(wanted));
        self.calls = c.up;
    }
    self.irql = f->before;
}
