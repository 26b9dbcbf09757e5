/* shared_spins.c: spin locks that readers share (EX_SPIN_LOCK). A lock is the number of its readers, or the least LONG while
   one has it alone. */
#include "ke/own.h"
#include "explore/explore.h"
#include "mm/mm.h"
#include "record/record.h"
#include "rules/rules.h"
#include "wdm_locks.h"

static const LONG ALONE = INT32_MIN;

static bool is_free(const void *lock) { return !__atomic_load_n((PEX_SPIN_LOCK)lock, __ATOMIC_SEQ_CST); }
static bool has_room(const void *lock) { return __atomic_load_n((PEX_SPIN_LOCK)lock, __ATOMIC_SEQ_CST) != ALONE; }

static bool try_to_take(PEX_SPIN_LOCK lock, bool alone)
{
    LONG was = alone ? 0 : __atomic_load_n(lock, __ATOMIC_SEQ_CST);
    return (alone || was != ALONE) &&
        __atomic_compare_exchange_n(lock, &was, alone ? ALONE : was + 1, false, __ATOMIC_SEQ_CST, __ATOMIC_SEQ_CST);
}

static void spin(PEX_SPIN_LOCK lock, bool alone, const char *name, WDM_SITE at)
{
    const Wait w = { .ready = alone ? is_free : has_room, .context = (void *)lock, .object = (void *)lock, .patience = DEADLOCK,
                     .what = name, .at = at };
    while (!try_to_take(lock, alone)) {
        if (wait_for(&w) != STUCK)
            continue;
        Call c;
        enter_quietly(&c, name, at);
        tell_deadlock((void *)lock);
        give_up("nobody gives the spin lock back");
    }
}

static void taken(PEX_SPIN_LOCK lock, bool alone, KIRQL before, WDM_SITE at)
{
    pthread_mutex_lock(&host_lock);
    touch((void *)lock, alone ? SYNCS : ACQUIRES);
    lock_taken((void *)lock, SHARED_SPIN, at, before);
    pthread_mutex_unlock(&host_lock);
    if (self.irql < DISPATCH_LEVEL) {
        self.raised = at;
        self.irql = DISPATCH_LEVEL;
    }
    close_paged();
}

KIRQL WdmExAcquireSpinLock(PEX_SPIN_LOCK Lock, BOOLEAN Alone, BOOLEAN Raises, WDM_SITE at)
{
    Call c;
    const char *name = Alone ? Raises ? "ExAcquireSpinLockExclusive" : "ExAcquireSpinLockExclusiveAtDpcLevel"
                             : Raises ? "ExAcquireSpinLockShared" : "ExAcquireSpinLockSharedAtDpcLevel";
    enter_host(&c, name, at);
    const KIRQL old = self.irql;
    check_used((void *)Lock, "spin lock");
    const bool has_it = lock_wanted((void *)Lock, SHARED_SPIN);
    leave_host();
    if (!has_it) {
        spin(Lock, Alone, name, at);
        taken(Lock, Alone, old, at);
    }
    return old;
}

BOOLEAN WdmExTrySpinLock(PEX_SPIN_LOCK Lock, BOOLEAN Alone, WDM_SITE at)
{
    Call c;
    enter_host(&c, Alone ? "ExAcquireSpinLockExclusiveAtDpcLevel" : "ExAcquireSpinLockSharedAtDpcLevel", at);
    touch((void *)Lock, SYNCS);
    leave_host();
    const BOOLEAN has_it = try_to_take(Lock, Alone);
    if (has_it)
        taken(Lock, Alone, self.irql, at);
    return has_it;
}

/* Only where it is the one reader. */
BOOLEAN WdmExConvertSpinLock(PEX_SPIN_LOCK Lock, WDM_SITE at)
{
    Call c;
    LONG one = 1;
    enter_host(&c, "ExTryConvertSharedSpinLockExclusive", at);
    touch((void *)Lock, SYNCS);
    leave_host();
    return __atomic_compare_exchange_n(Lock, &one, ALONE, false, __ATOMIC_SEQ_CST, __ATOMIC_SEQ_CST);
}

/* Whoever has it gives it back. */
void drop_shared_spin(const void *lock)
{
    PEX_SPIN_LOCK l = (PEX_SPIN_LOCK)lock;
    if (__atomic_load_n(l, __ATOMIC_SEQ_CST) == ALONE)
        __atomic_store_n(l, 0, __ATOMIC_SEQ_CST);
    else
        __atomic_sub_fetch(l, 1, __ATOMIC_SEQ_CST);
}

VOID WdmExReleaseSpinLock(PEX_SPIN_LOCK Lock, BOOLEAN Alone, BOOLEAN Lowers, KIRQL Irql, WDM_SITE at)
{
    Call c;
    int seat;
    enter_host(&c, Alone ? "ExReleaseSpinLockExclusive" : "ExReleaseSpinLockShared", at);
    hands_over();
    const bool is_alone = !has_room((const void *)Lock);
    if (holder_of((void *)Lock, &seat) && is_alone != Alone)
        fault("WrongMode", NULL, "the lock was acquired %s, and is released as one acquired %s", is_alone ? "exclusive" : "shared",
              is_alone ? "shared" : "exclusive");
    if (Lowers)
        check_release_level((void *)Lock, Irql);
    const bool given = lock_given_back((void *)Lock, SHARED_SPIN);
    if (given && Lowers) {
        self.raised = at;
        self.irql = Irql;
    }
    touch((void *)Lock, SYNCS);
    leave_host();
    if (given)
        drop_shared_spin((const void *)Lock);
}
