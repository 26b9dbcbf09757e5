/* locks.c: remove locks. IoReleaseRemoveLockAndWait waits, and the script's begin_remove doesn't, so the real call is
   made on a thread of its own; `drained` asks whether it has come back. */
#include "state.h"

enum { PATIENT = 2000, IMPATIENT = 20 }; /* milliseconds that `drained` waits: with nothing held, and with something */

VOID PlayPause(LONG Milliseconds)
{
    LARGE_INTEGER time = { .QuadPart = -10000ll * Milliseconds };
    KeDelayExecutionThread(KernelMode, FALSE, &time);
}

static VOID NTAPI remover(PVOID Context)
{
    const unsigned k = (unsigned)(ULONG_PTR)Context;
    IoReleaseRemoveLockAndWait(&play.Locks[k], (PVOID)(ULONG_PTR)play.RemoverTags[k]);
    KeSetEvent(&play.Removed[k], IO_NO_INCREMENT, FALSE);
    PsTerminateSystemThread(STATUS_SUCCESS);
}

static BOOLEAN has_come_back(unsigned k, LONG milliseconds)
{
    LARGE_INTEGER time = { .QuadPart = -10000ll * milliseconds };
    return KeWaitForSingleObject(&play.Removed[k], Executive, KernelMode, FALSE, &time) == STATUS_SUCCESS;
}

static BOOLEAN may_acquire(unsigned k)
{
    if (!NT_SUCCESS(IoAcquireRemoveLock(&play.Locks[k], &play.Locks[k])))
        return FALSE;
    IoReleaseRemoveLock(&play.Locks[k], &play.Locks[k]);
    return TRUE;
}

/* That the removal has begun shows by an acquire that fails. Where the call has come back, and acquires go on succeeding,
   the manager has refused it. */
static BOOLEAN begin_remove(unsigned k, uint64_t tag)
{
    HANDLE thread;
    play.RemoverTags[k] = tag;
    if (!NT_SUCCESS(PsCreateSystemThread(&thread, THREAD_ALL_ACCESS, NULL, NULL, NULL, remover, (PVOID)(ULONG_PTR)k)))
        return FALSE;
    ZwClose(thread);
    play.HasRemover[k] = TRUE;
    while (may_acquire(k)) {
        if (has_come_back(k, 0) && may_acquire(k)) {
            play.HasRemover[k] = FALSE;
            KeClearEvent(&play.Removed[k]);
            return FALSE;
        }
        PlayPause(1);
    }
    PlayPause(2); /* it gives its reference back just behind that, and nothing says so */
    return TRUE;
}

/* References that are held: to know how long to wait, and to give them back at the end. */
static unsigned count_held(unsigned k)
{
    unsigned n = 0;
    for (unsigned i = 0; i < play.nHeld; i++)
        n += play.Held[i].Lock == k;
    return n;
}

static VOID forget_held(unsigned k, uint64_t tag)
{
    for (unsigned i = 0; i < play.nHeld; i++)
        if (play.Held[i].Lock == k && play.Held[i].Tag == tag) {
            play.Held[i] = play.Held[--play.nHeld];
            return;
        }
}

static uint64_t acquire(unsigned k, uint64_t tag)
{
    const NTSTATUS status = IoAcquireRemoveLock(&play.Locks[k], (PVOID)(ULONG_PTR)tag);
    if (NT_SUCCESS(status)) {
        play.Held[play.nHeld].Lock = k;
        play.Held[play.nHeld++].Tag = tag;
    }
    return (ULONG)status;
}

static uint64_t drained(unsigned k)
{
    return has_come_back(k, play.HasRemover[k] && !count_held(k) ? PATIENT : IMPATIENT);
}

BOOLEAN PlayOnLocks(const PLAY_STEP *Step, uint64_t *Reply)
{
    const unsigned k = (unsigned)Step->A;
    switch (Step->Do) {
    case DO_ACQUIRE:
        *Reply = acquire(k, Step->B);
        return TRUE;
    case DO_RELEASE:
        forget_held(k, Step->B);
        IoReleaseRemoveLock(&play.Locks[k], (PVOID)(ULONG_PTR)Step->B);
        return TRUE;
    case DO_BEGIN_REMOVE:
        forget_held(k, Step->B);
        return begin_remove(k, Step->B);
    default:
        *Reply = drained(k);
        return TRUE;
    }
}

/* Who waits for a remove lock comes back, else that thread would live on into the next script. */
VOID PlayEndRemovers(VOID)
{
    for (; play.nHeld; play.nHeld--) {
        const PLAY_HELD *held = &play.Held[play.nHeld - 1];
        IoReleaseRemoveLock(&play.Locks[held->Lock], (PVOID)(ULONG_PTR)held->Tag);
    }
    for (unsigned k = 0; k < PLAY_LOCKS; k++)
        if (play.HasRemover[k])
            KeWaitForSingleObject(&play.Removed[k], Executive, KernelMode, FALSE, NULL);
}
