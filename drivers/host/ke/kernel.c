/* kernel.c: spin locks, IRQL, interlocked lists, time. */
#include "ke/own.h"
#include "explore/explore.h"
#include "mm/mm.h"
#include "record/record.h"
#include "rules/rules.h"
#include <unistd.h>

/* A spin lock is 0, or one more than the seat of the thread that holds it. */
VOID WdmKeInitializeSpinLock(PKSPIN_LOCK Lock, WDM_SITE at)
{
    Call c;
    enter_host(&c, "KeInitializeSpinLock", at);
    forget_locks(Lock, sizeof *Lock, NULL);
    leave_host();
    __atomic_store_n(Lock, 0, __ATOMIC_SEQ_CST);
}

static bool is_free(const void *lock) { return !__atomic_load_n((const ULONG_PTR *)lock, __ATOMIC_SEQ_CST); }

static void spin(PKSPIN_LOCK lock, ULONG_PTR mine, const char *name, WDM_SITE at)
{
    const Wait w = { .ready = is_free, .context = lock, .object = lock, .patience = DEADLOCK, .what = name, .at = at };
    ULONG_PTR expected = 0;
    while (!__atomic_compare_exchange_n(lock, &expected, mine, false, __ATOMIC_SEQ_CST, __ATOMIC_SEQ_CST)) {
        expected = 0;
        if (wait_for(&w) != STUCK)
            continue;
        Call c;
        enter_quietly(&c, name, at);
        tell_deadlock(lock);
        give_up("nobody gives the spin lock back");
    }
}

/* The place is kept where the level changes. */
static void set_level(KIRQL irql, WDM_SITE at)
{
    if (self.irql != irql)
        self.raised = at;
    self.irql = irql;
}

KIRQL take_spin_lock(PKSPIN_LOCK lock, LockKind kind, const char *name, WDM_SITE at)
{
    Call c;
    enter_host(&c, name, at);
    const KIRQL old = self.irql;
    check_used(lock, "spin lock");
    const bool has_it = lock_wanted(lock, kind);
    leave_host();
    if (!has_it) {
        spin(lock, (ULONG_PTR)self.seat + 1, name, at);
        pthread_mutex_lock(&host_lock);
        touch(lock, SYNCS);
        lock_taken(lock, kind, at, old);
        pthread_mutex_unlock(&host_lock);
    }
    set_level(old < DISPATCH_LEVEL ? DISPATCH_LEVEL : old, at);
    close_paged();
    return old;
}

void drop_spin_lock(PKSPIN_LOCK lock, LockKind kind, KIRQL irql)
{
    if (lock_given_back(lock, kind)) {
        self.irql = irql;
        touch(lock, SYNCS);
        __atomic_store_n(lock, 0, __ATOMIC_SEQ_CST);
    }
}

/* Returns whether it is given back. */
bool give_spin_lock(PKSPIN_LOCK lock, LockKind kind, const char *name, KIRQL irql, bool lowers, WDM_SITE at)
{
    Call c;
    enter_host(&c, name, at);
    hands_over();
    int seat;
    const Hold *h = holder_of(lock, &seat);
    const bool is_right = h && h->before == irql;
    if (lowers)
        check_release_level(lock, irql);
    const bool given = lock_given_back(lock, kind);
    if (given && lowers && !is_right)
        self.raised = at;
    if (given && lowers)
        set_level(irql, at);
    touch(lock, SYNCS);
    leave_host();
    if (given)
        __atomic_store_n(lock, 0, __ATOMIC_SEQ_CST);
    return given;
}

KIRQL WdmKeAcquireSpinLock(PKSPIN_LOCK Lock, WDM_SITE at)
{
    return take_spin_lock(Lock, SPIN_LOCK, "KeAcquireSpinLock", at);
}

VOID WdmKeReleaseSpinLock(PKSPIN_LOCK Lock, KIRQL Irql, WDM_SITE at)
{
    give_spin_lock(Lock, SPIN_LOCK, "KeReleaseSpinLock", Irql, true, at);
}

VOID WdmKeAcquireSpinLockAtDpcLevel(PKSPIN_LOCK Lock, WDM_SITE at)
{
    take_spin_lock(Lock, SPIN_LOCK, "KeAcquireSpinLockAtDpcLevel", at);
}

VOID WdmKeReleaseSpinLockFromDpcLevel(PKSPIN_LOCK Lock, WDM_SITE at)
{
    give_spin_lock(Lock, SPIN_LOCK, "KeReleaseSpinLockFromDpcLevel", 0, false, at);
}

KIRQL KeGetCurrentIrql(VOID) { return self.irql; }

VOID WdmKeRaiseIrql(KIRQL New, PKIRQL Old, WDM_SITE at)
{
    Call c;
    enter_host(&c, "KeRaiseIrql", at);
    if (New < self.irql)
        broken("RaiseLower", NULL, "raised to %s, below %s", level_name(New), level_name(self.irql));
    *Old = self.irql;
    set_level(New, at);
    close_paged();
    leave_host();
}

VOID WdmKeLowerIrql(KIRQL Irql, WDM_SITE at)
{
    Call c;
    enter_host(&c, "KeLowerIrql", at);
    const Hold *h = held_spin_lock();
    if (Irql > self.irql || (h && Irql < DISPATCH_LEVEL))
        broken("RaiseLower", NULL, "lowered to %s, from %s%s%s", level_name(Irql), level_name(self.irql),
               h ? " with a spin lock held since " : "", h ? place(h->at) : "");
    set_level(Irql, at);
    leave_host();
}

VOID WdmPagedCode(WDM_SITE at) { check_wait("PAGED_CODE", at); }

static void fast_mutex_taken(PFAST_MUTEX mutex, WDM_SITE at)
{
    pthread_mutex_lock(&host_lock);
    lock_taken(mutex, FAST_LOCK, at, self.irql);
    pthread_mutex_unlock(&host_lock);
    mutex->OldIrql = self.irql;
    if (self.irql < APC_LEVEL)
        set_level(APC_LEVEL, at);
}

/* A fast mutex isn't recursive, and whoever holds it is at APC_LEVEL. */
VOID WdmExAcquireFastMutex(PFAST_MUTEX Mutex, WDM_SITE at)
{
    Call c;
    enter_host(&c, "ExAcquireFastMutex", at);
    check_used(Mutex, "fast mutex");
    const bool has_it = lock_wanted(Mutex, FAST_LOCK);
    leave_host();
    if (has_it)
        return;
    PVOID object = &Mutex->Mutex;
    wait_for_objects(1, &object, WaitAny, NULL, at);
    fast_mutex_taken(Mutex, at);
}

/* Nor may its holder have it again by a try. */
BOOLEAN WdmTryToAcquireFastMutex(PFAST_MUTEX Mutex, WDM_SITE at)
{
    Call c;
    int seat = -1;
    PVOID object = &Mutex->Mutex;
    enter_host(&c, "ExTryToAcquireFastMutex", at);
    check_used(Mutex, "fast mutex");
    const bool is_mine = holder_of(Mutex, &seat) && seat == self.seat;
    leave_host();
    if (is_mine || wait_for_objects(1, &object, WaitAny, &(LARGE_INTEGER){ .QuadPart = 0 }, at) != STATUS_SUCCESS)
        return FALSE;
    fast_mutex_taken(Mutex, at);
    return TRUE;
}

VOID WdmExReleaseFastMutex(PFAST_MUTEX Mutex, WDM_SITE at)
{
    Call c;
    enter_host(&c, "ExReleaseFastMutex", at);
    hands_over();
    const KIRQL old = Mutex->OldIrql;
    const bool given = lock_given_back(Mutex, FAST_LOCK);
    leave_host();
    if (!given)
        return;
    release_object(&Mutex->Mutex.Header);
    if (self.irql == APC_LEVEL)
        self.irql = old;
}

KIRQL WdmKeRaiseIrqlToDpcLevel(WDM_SITE at)
{
    KIRQL old;
    WdmKeRaiseIrql(DISPATCH_LEVEL, &old, at);
    return old;
}

PLIST_ENTRY ExInterlockedInsertTailList(PLIST_ENTRY Head, PLIST_ENTRY Entry, PKSPIN_LOCK Lock)
{
    hands_over_now();
    const KIRQL irql = WdmKeAcquireSpinLock(Lock, WDM_HERE);
    PLIST_ENTRY last = IsListEmpty(Head) ? NULL : Head->Blink;
    InsertTailList(Head, Entry);
    WdmKeReleaseSpinLock(Lock, irql, WDM_HERE);
    return last;
}

PLIST_ENTRY ExInterlockedInsertHeadList(PLIST_ENTRY Head, PLIST_ENTRY Entry, PKSPIN_LOCK Lock)
{
    hands_over_now();
    const KIRQL irql = WdmKeAcquireSpinLock(Lock, WDM_HERE);
    PLIST_ENTRY first = IsListEmpty(Head) ? NULL : Head->Flink;
    InsertHeadList(Head, Entry);
    WdmKeReleaseSpinLock(Lock, irql, WDM_HERE);
    return first;
}

PLIST_ENTRY ExInterlockedRemoveHeadList(PLIST_ENTRY Head, PKSPIN_LOCK Lock)
{
    const KIRQL irql = WdmKeAcquireSpinLock(Lock, WDM_HERE);
    PLIST_ENTRY first = IsListEmpty(Head) ? NULL : RemoveHeadList(Head);
    WdmKeReleaseSpinLock(Lock, irql, WDM_HERE);
    return first;
}

LONG KeReadStateSemaphore(PKSEMAPHORE Semaphore) { return KeReadStateEvent((PKEVENT)Semaphore); }
LONG KeReadStateMutex(PKMUTEX Mutex) { return KeReadStateEvent((PKEVENT)Mutex); }
VOID KeStallExecutionProcessor(ULONG Microseconds)
{
    if (by_schedule)
        yield_to_others("KeStallExecutionProcessor");
    else
        usleep(Microseconds);
}

VOID KeQuerySystemTime(PLARGE_INTEGER Now) { Now->QuadPart = now_in_100ns(); }
ULONGLONG KeQueryInterruptTime(VOID) { return (ULONGLONG)now_in_100ns(); }
VOID KeQueryTickCount(PLARGE_INTEGER Ticks) { Ticks->QuadPart = now_in_100ns() / KeQueryTimeIncrement(); }
ULONG KeQueryTimeIncrement(VOID) { return 156250; }

LARGE_INTEGER KeQueryPerformanceCounter(PLARGE_INTEGER Frequency)
{
    if (Frequency)
        Frequency->QuadPart = 10000000;
    return (LARGE_INTEGER){ .QuadPart = now_in_100ns() };
}

/* Where this thread's stack begins and ends: the mapping that has it. */
VOID IoGetStackLimits(PULONG_PTR Low, PULONG_PTR High)
{
    const ULONG_PTR here = (ULONG_PTR)__builtin_frame_address(0);
    unsigned long low, high;
    if (by_schedule) {
        stack_by_schedule(current_thread(), Low, High);
        return;
    }
    FILE *maps = fopen("/proc/self/maps", "r");
    *Low = here & ~(ULONG_PTR)(PAGE - 1);
    *High = *Low + PAGE;
    while (maps && fscanf(maps, "%lx-%lx%*[^\n]", &low, &high) == 2)
        if (low <= here && here < high) {
            *Low = low;
            *High = high;
        }
    if (maps)
        fclose(maps);
}

ULONG_PTR IoGetRemainingStackSize(VOID)
{
    ULONG_PTR low, high;
    IoGetStackLimits(&low, &high);
    return (ULONG_PTR)__builtin_frame_address(0) - low;
}
