/* kernel_platform.h: the recorder's platform in kernel mode, named by -DIRPX_PLATFORM='"kernel_platform.h"'. */
#ifndef KERNEL_PLATFORM_H
#define KERNEL_PLATFORM_H

#include <wdm.h>

HANDLE NTAPI PsGetCurrentThreadId(VOID); /* ntddk.h declares it */

/* Zeroed memory, or NULL: by ExAllocatePool2 where the system has it. */
void *PlayerTake(size_t n);
void PlayerGive(void *memory);

static inline void player_yield(void)
{
    LARGE_INTEGER time = { .QuadPart = -10000 };
    if (KeGetCurrentIrql() < DISPATCH_LEVEL)
        KeDelayExecutionThread(KernelMode, FALSE, &time);
}

/* Each file that locks shares these. */
extern KSPIN_LOCK PlayerLock;
extern KIRQL PlayerLevel; /* of whoever holds the lock */
static inline void player_enter(void)
{
    KIRQL level;
    KeAcquireSpinLock(&PlayerLock, &level);
    PlayerLevel = level;
}

static inline void player_leave(void)
{
    const KIRQL level = PlayerLevel;
    KeReleaseSpinLock(&PlayerLock, level);
}

#define IRPX_ALLOC(n) PlayerTake(n)
#define IRPX_FREE(p) PlayerGive((void *)(p))
#define IRPX_THREAD() ((uintptr_t)PsGetCurrentThreadId())
#define IRPX_LOCK() player_enter()
#define IRPX_UNLOCK() player_leave()
#define IRPX_YIELD() player_yield()

#endif
