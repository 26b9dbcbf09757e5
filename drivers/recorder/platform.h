/*
 * platform.h: what the recorder needs of the platform. Windows' kernel mode, or any other, says it in a header of its
 * own, named by -DIRPX_PLATFORM='"file.h"':
 *
 *   IRPX_ALLOC(n)             n bytes of zeroed memory, or NULL; called under the lock
 *   IRPX_FREE(p)              gives them back
 *   IRPX_THREAD()             a number that tells running threads apart, not 0
 *   IRPX_LOCK, IRPX_UNLOCK()  one lock, held for short times and never while a driver's code runs. Calls that set up a
 *                             packet are made under it, so it may raise IRQL to DISPATCH_LEVEL and not above
 *   IRPX_YIELD()              lets other threads run; called without the lock
 *
 * Besides, memcpy and memset are all that the recorder links with.
 */
#ifndef IRPX_PLATFORM_H
#define IRPX_PLATFORM_H

#ifdef IRPX_PLATFORM
#include IRPX_PLATFORM
#else
#include <stdlib.h>
#define IRPX_ALLOC(n) calloc(1, (n))
#define IRPX_FREE(p) free(p)
#ifdef _WIN32
__declspec(dllimport) unsigned long __stdcall GetCurrentThreadId(void);
__declspec(dllimport) void __stdcall Sleep(unsigned long milliseconds);
#define IRPX_THREAD() ((uintptr_t)GetCurrentThreadId())
#define IRPX_YIELD() Sleep(0)
#else
#include <sched.h>
static _Thread_local char irpx_here;
#define IRPX_THREAD() ((uintptr_t)&irpx_here)
#define IRPX_YIELD() ((void)sched_yield())
#endif
static volatile char irpx_is_locked;
#define IRPX_LOCK() while (__atomic_test_and_set(&irpx_is_locked, __ATOMIC_ACQUIRE)) IRPX_YIELD()
#define IRPX_UNLOCK() __atomic_clear(&irpx_is_locked, __ATOMIC_RELEASE)
#endif

#endif
