/* resources.c: ERESOURCE, rundown protection, critical regions, singly linked lists, processors. All of it is under G. */
#include "ke/own.h"
#include "explore/explore.h"
#include "record/record.h"

static const WDM_SITE nowhere;

/* This thread, by its seat: under a schedule all threads have one `self`. */
static PVOID me(void) { return (PVOID)(ULONG_PTR)(self.seat + 1); }

VOID KeEnterCriticalRegion(VOID) { self.regions++; }

VOID KeLeaveCriticalRegion(VOID)
{
    Call c;
    enter_host(&c, "KeLeaveCriticalRegion", nowhere);
    if (!self.regions)
        fault("CriticalRegion", NULL, "left by a thread that isn't in one");
    else
        self.regions--;
    leave_host();
}

/* A guarded region is a critical one that keeps off special APCs too. */
VOID KeEnterGuardedRegion(VOID)
{
    self.guarded_regions++;
    KeEnterCriticalRegion();
}

VOID KeLeaveGuardedRegion(VOID)
{
    self.guarded_regions -= self.guarded_regions > 0;
    KeLeaveCriticalRegion();
}

/* By regions alone; the level counts only for all of them. */
BOOLEAN KeAreApcsDisabled(VOID) { return self.regions > 0; }
BOOLEAN KeAreAllApcsDisabled(VOID) { return self.guarded_regions > 0 || self.irql >= APC_LEVEL; }

enum { MAX_READERS = 32 };

/* Its readers stay when it is deleted: one that is used then is told of where its memory is gone. */
static NTSTATUS initialize(const char *name, PERESOURCE r, HOST_READER *readers)
{
    Call c;
    enter_host(&c, name, nowhere);
    HOST_READER *all = readers ? readers : host_memory(MAX_READERS * sizeof *all);
    if (!all)
        give_up("out of memory");
    memset(all, 0, MAX_READERS * sizeof *all);
    memset(r, 0, sizeof *r);
    r->HostReaders = all;
    leave_host();
    WdmKeInitializeEvent(&r->HostChanged, NotificationEvent, FALSE);
    return STATUS_SUCCESS;
}

NTSTATUS ExInitializeResourceLite(PERESOURCE Resource) { return initialize("ExInitializeResourceLite", Resource, NULL); }

NTSTATUS ExReinitializeResourceLite(PERESOURCE Resource)
{
    return initialize("ExReinitializeResourceLite", Resource, Resource->HostReaders);
}

/* This thread's place among the readers: its own, or a free one. -1 where there is none. */
static int reader(const ERESOURCE *r, bool may_be_new)
{
    int room = -1;
    if (!r->HostReaders)
        give_up("a resource is used before ExInitializeResourceLite");
    for (int i = 0; i < MAX_READERS; i++) {
        if (r->HostReaders[i].Count && r->HostReaders[i].Thread == me())
            return i;
        if (!r->HostReaders[i].Count && room < 0)
            room = i;
    }
    return may_be_new ? room : -1;
}

static void count_active(PERESOURCE r) { r->ActiveCount = (SHORT)(r->HostExclusive ? 1 : r->HostShared); }

/* How a thread wants it. One that starves doesn't mind those that wait to have it alone; one that yields lets them go before,
   even where it shares the resource already. */
typedef enum { SHARED, ALONE, STARVING, YIELDING } How;

/* Under G: takes the resource where that is possible now. */
static BOOLEAN try_to_take(PERESOURCE r, How how)
{
    touch(r, SYNCS);
    const bool is_mine = r->HostExclusive && r->HostOwner == me(), exclusive = how == ALONE;
    const int mine = reader(r, true);
    if (is_mine) {
        r->HostExclusive++;
        return TRUE;
    }
    if (exclusive ? r->HostExclusive || r->HostShared : r->HostExclusive || mine < 0)
        return FALSE;
    if (r->HostShared && r->NumberOfExclusiveWaiters && (how == YIELDING || (how == SHARED && !r->HostReaders[mine].Count)))
        return FALSE; /* who waits to have it alone goes before one more reader. A free resource is never refused, so
                         whoever clears Changed is told by the next release. */
    if (exclusive) {
        r->HostExclusive = 1;
        r->HostOwner = me();
    } else {
        r->HostShared++;
        r->HostReaders[mine].Thread = me();
        r->HostReaders[mine].Count++;
    }
    count_active(r);
    return TRUE;
}

static BOOLEAN acquire(const char *name, PERESOURCE Resource, How how, BOOLEAN Wait, WDM_SITE at)
{
    Call c;
    bool waits = false;
    ULONG *waiting = how == ALONE ? &Resource->NumberOfExclusiveWaiters : &Resource->NumberOfSharedWaiters;
    for (;;) {
        enter_host(&c, name, at);
        if (how == ALONE && Wait && reader(Resource, false) >= 0)
            fault("Resource", NULL, "acquired to have it alone by a thread that shares it: it would wait for itself");
        *waiting -= waits;
        const BOOLEAN taken = try_to_take(Resource, how);
        waits = !taken && Wait;
        *waiting += waits;
        if (!taken)
            clear_event(&Resource->HostChanged);
        leave_host();
        if (taken || !Wait)
            return taken;
        WdmKeWaitForSingleObject(&Resource->HostChanged, NULL, at);
    }
}

BOOLEAN WdmExAcquireResource(PERESOURCE Resource, BOOLEAN Exclusive, BOOLEAN Wait, WDM_SITE at)
{
    return Exclusive ? acquire("ExAcquireResourceExclusiveLite", Resource, ALONE, Wait, at)
                     : acquire("ExAcquireResourceSharedLite", Resource, SHARED, Wait, at);
}

BOOLEAN WdmExAcquireStarving(PERESOURCE Resource, BOOLEAN Wait, WDM_SITE at)
{
    return acquire("ExAcquireSharedStarveExclusive", Resource, STARVING, Wait, at);
}

BOOLEAN WdmExAcquireYielding(PERESOURCE Resource, BOOLEAN Wait, WDM_SITE at)
{
    return acquire("ExAcquireSharedWaitForExclusive", Resource, YIELDING, Wait, at);
}

static ULONG waiters(const char *name, PERESOURCE r, const ULONG *waiting)
{
    hold_host(name, r, READS);
    const ULONG count = *waiting;
    pthread_mutex_unlock(&host_lock);
    return count;
}

ULONG ExGetExclusiveWaiterCount(PERESOURCE Resource)
{
    return waiters("ExGetExclusiveWaiterCount", Resource, &Resource->NumberOfExclusiveWaiters);
}

ULONG ExGetSharedWaiterCount(PERESOURCE Resource)
{
    return waiters("ExGetSharedWaiterCount", Resource, &Resource->NumberOfSharedWaiters);
}

VOID WdmExReleaseResource(PERESOURCE Resource, WDM_SITE at)
{
    Call c;
    enter_host(&c, "ExReleaseResourceLite", at);
    hands_over();
    touch(Resource, SYNCS);
    const int mine = reader(Resource, false);
    if (Resource->HostExclusive && Resource->HostOwner == me())
        Resource->HostExclusive--;
    else if (mine >= 0) {
        Resource->HostReaders[mine].Count--;
        Resource->HostShared--;
    } else
        fault("Resource", NULL, "released by a thread that doesn't have it");
    count_active(Resource);
    set_event(&Resource->HostChanged);
    leave_host();
}

NTSTATUS WdmExDeleteResource(PERESOURCE Resource, WDM_SITE at)
{
    Call c;
    enter_host(&c, "ExDeleteResourceLite", at);
    touch(Resource, WRITES);
    if (Resource->HostExclusive || Resource->HostShared)
        fault("Resource", NULL, "deleted while a thread has it");
    leave_host();
    return STATUS_SUCCESS;
}

BOOLEAN ExIsResourceAcquiredExclusiveLite(PERESOURCE Resource)
{
    return Resource->HostExclusive && Resource->HostOwner == me();
}

ULONG ExIsResourceAcquiredSharedLite(PERESOURCE Resource)
{
    hold_host("ExIsResourceAcquiredSharedLite", Resource, READS);
    const int mine = reader(Resource, false);
    const ULONG count = mine >= 0 ? (ULONG)Resource->HostReaders[mine].Count : 0;
    pthread_mutex_unlock(&host_lock);
    return ExIsResourceAcquiredExclusiveLite(Resource) ? (ULONG)Resource->HostExclusive : count;
}

VOID ExConvertExclusiveToSharedLite(PERESOURCE Resource)
{
    hold_host("ExConvertExclusiveToSharedLite", Resource, SYNCS);
    const LONG times = Resource->HostExclusive;
    const int mine = reader(Resource, true);
    Resource->HostExclusive = 0;
    Resource->HostShared += times;
    Resource->HostReaders[mine].Thread = me();
    Resource->HostReaders[mine].Count += times;
    count_active(Resource);
    set_event(&Resource->HostChanged);
    pthread_mutex_unlock(&host_lock);
}

VOID ExInitializeRundownProtection(PEX_RUNDOWN_REF Ref)
{
    memset(Ref, 0, sizeof *Ref);
    WdmKeInitializeEvent(&Ref->Over, NotificationEvent, FALSE);
}

VOID ExReInitializeRundownProtection(PEX_RUNDOWN_REF Ref) { ExInitializeRundownProtection(Ref); }

BOOLEAN ExAcquireRundownProtection(PEX_RUNDOWN_REF Ref)
{
    hold_host("ExAcquireRundownProtection", Ref, SYNCS);
    const BOOLEAN is_there = !Ref->RunDown;
    Ref->Count += is_there;
    pthread_mutex_unlock(&host_lock);
    return is_there;
}

VOID WdmExReleaseRundownProtection(PEX_RUNDOWN_REF Ref, WDM_SITE at)
{
    Call c;
    enter_host(&c, "ExReleaseRundownProtection", at);
    touch(Ref, SYNCS);
    if (!Ref->Count)
        fault("Rundown", NULL, "released more often than it was acquired");
    else if (!--Ref->Count && Ref->RunDown)
        set_event(&Ref->Over);
    leave_host();
}

VOID WdmExWaitForRundown(PEX_RUNDOWN_REF Ref, WDM_SITE at)
{
    hold_host("ExWaitForRundownProtectionRelease", Ref, SYNCS);
    Ref->RunDown = TRUE;
    const bool is_over = !Ref->Count;
    pthread_mutex_unlock(&host_lock);
    if (!is_over)
        WdmKeWaitForSingleObject(&Ref->Over, NULL, at);
}

VOID ExRundownCompleted(PEX_RUNDOWN_REF Ref) { Ref->RunDown = TRUE; }

VOID ExInitializeSListHead(PSLIST_HEADER Head) { *Head = (SLIST_HEADER){ 0 }; }

PSLIST_ENTRY WdmPushEntrySList(PSLIST_HEADER Head, PSLIST_ENTRY Entry)
{
    hold_host("InterlockedPushEntrySList", Head, SYNCS);
    hands_over();
    PSLIST_ENTRY first = Head->First;
    Entry->Next = first;
    Head->First = Entry;
    Head->Depth++;
    pthread_mutex_unlock(&host_lock);
    return first;
}

PSLIST_ENTRY WdmPopEntrySList(PSLIST_HEADER Head)
{
    hold_host("InterlockedPopEntrySList", Head, SYNCS);
    PSLIST_ENTRY first = Head->First;
    if (first) {
        Head->First = first->Next;
        Head->Depth--;
    }
    pthread_mutex_unlock(&host_lock);
    return first;
}

PSLIST_ENTRY ExInterlockedFlushSList(PSLIST_HEADER Head)
{
    hold_host("ExInterlockedFlushSList", Head, SYNCS);
    PSLIST_ENTRY first = Head->First;
    *Head = (SLIST_HEADER){ 0 };
    pthread_mutex_unlock(&host_lock);
    return first;
}

USHORT ExQueryDepthSList(PSLIST_HEADER Head)
{
    hold_host("ExQueryDepthSList", Head, READS);
    const USHORT depth = (USHORT)Head->Depth;
    pthread_mutex_unlock(&host_lock);
    return depth;
}

PSINGLE_LIST_ENTRY ExInterlockedPushEntryList(PSINGLE_LIST_ENTRY Head, PSINGLE_LIST_ENTRY Entry, PKSPIN_LOCK Lock)
{
    const KIRQL irql = WdmKeAcquireSpinLock(Lock, nowhere);
    PSINGLE_LIST_ENTRY first = Head->Next;
    PushEntryList(Head, Entry);
    WdmKeReleaseSpinLock(Lock, irql, nowhere);
    return first;
}

PSINGLE_LIST_ENTRY ExInterlockedPopEntryList(PSINGLE_LIST_ENTRY Head, PKSPIN_LOCK Lock)
{
    const KIRQL irql = WdmKeAcquireSpinLock(Lock, nowhere);
    PSINGLE_LIST_ENTRY first = PopEntryList(Head);
    WdmKeReleaseSpinLock(Lock, irql, nowhere);
    return first;
}

LARGE_INTEGER ExInterlockedAddLargeInteger(PLARGE_INTEGER Sum, LARGE_INTEGER More, PKSPIN_LOCK Lock)
{
    const KIRQL irql = WdmKeAcquireSpinLock(Lock, nowhere);
    const LARGE_INTEGER before = *Sum;
    Sum->QuadPart += More.QuadPart;
    WdmKeReleaseSpinLock(Lock, irql, nowhere);
    return before;
}

NTSTATUS KeGetProcessorNumberFromIndex(ULONG Index, PPROCESSOR_NUMBER Number)
{
    *Number = (PROCESSOR_NUMBER){ 0, (UCHAR)Index, 0 };
    return Index ? STATUS_INVALID_PARAMETER : STATUS_SUCCESS;
}

BOOLEAN ExIsProcessorFeaturePresent(ULONG Feature) { return (void)Feature, FALSE; }

VOID ExRaiseStatus(NTSTATUS Status)
{
    Call c;
    char text[80];
    enter_host(&c, "ExRaiseStatus", nowhere);
    snprintf(text, sizeof text, "a driver raises the exception %#x", (unsigned)Status);
    give_up(text);
}

PVOID (ExAllocatePoolWithTag)(POOL_TYPE Type, SIZE_T Bytes, ULONG Tag)
{
    return WdmAllocatePool(WDM_POOL_OF(Type), Bytes, Tag, nowhere);
}

VOID (ExFreePoolWithTag)(PVOID Memory, ULONG Tag) { WdmFreePool(Memory, Tag, TRUE, nowhere); }
VOID (ExFreePool)(PVOID Memory) { WdmFreePool(Memory, 0, FALSE, nowhere); }
