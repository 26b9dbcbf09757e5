/* push_locks.c: push locks, which readers share. A lock is twice the number of its readers, or 1 while one has it alone.
   Waits and all changes are under G. */
#include "ke/own.h"
#include "explore/explore.h"
#include "record/record.h"
#include "rules/rules.h"
#include "wdm_locks.h"

static bool is_free(const void *lock) { return !*(const EX_PUSH_LOCK *)lock; }
static bool has_room(const void *lock) { return *(const EX_PUSH_LOCK *)lock != 1; }

VOID WdmExInitializePushLock(PEX_PUSH_LOCK Lock, WDM_SITE at)
{
    Call c;
    enter_host(&c, "ExInitializePushLock", at);
    forget_locks(Lock, sizeof *Lock, NULL);
    *Lock = 0;
    leave_host();
}

/* A thread that is stopped with it would stop all others: so normal kernel APCs are disabled. */
static void check_region(void)
{
    if (!self.regions && self.irql < APC_LEVEL)
        fault("CriticalRegion", NULL, "called outside of a critical region: call KeEnterCriticalRegion before");
}

VOID WdmExAcquirePushLock(PEX_PUSH_LOCK Lock, BOOLEAN Alone, WDM_SITE at)
{
    Call c;
    enter_host(&c, "ExAcquirePushLock", at);
    check_used(Lock, "push lock");
    check_region();
    const Wait w = { .ready = Alone ? is_free : has_room, .context = Lock, .on = &host_settled, .object = Lock,
                     .patience = DEADLOCK, .what = c.name, .at = at };
    if (!lock_wanted(Lock, PUSH_LOCK)) {
        while (!w.ready(Lock))
            if (wait_for(&w) == STUCK) {
                tell_deadlock(Lock);
                give_up("nobody gives the push lock back");
            }
        *Lock = Alone ? 1 : *Lock + 2;
        touch(Lock, SYNCS);
        lock_taken(Lock, PUSH_LOCK, at, self.irql);
    }
    leave_host();
}

void drop_push_lock(const void *lock)
{
    PEX_PUSH_LOCK l = (PEX_PUSH_LOCK)lock;
    *l = *l == 1 ? 0 : *l - 2;
    tell_waiters(&host_settled);
}

VOID WdmExReleasePushLock(PEX_PUSH_LOCK Lock, BOOLEAN Alone, WDM_SITE at)
{
    Call c;
    int seat;
    enter_host(&c, "ExReleasePushLock", at);
    hands_over();
    check_region();
    touch(Lock, SYNCS);
    if (holder_of(Lock, &seat) && (*Lock == 1) != Alone)
        fault("WrongMode", NULL, "the lock was acquired %s, and is released as one acquired %s", Alone ? "shared" : "exclusive",
              Alone ? "exclusive" : "shared");
    if (lock_given_back(Lock, PUSH_LOCK))
        drop_push_lock(Lock);
    leave_host();
}
