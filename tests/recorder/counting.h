/* counting.h: a platform for the recorder that counts its memory, and has none from the RECORDER_MEMORY-th piece on. */
#include <sched.h>
#include <stdlib.h>

long counted_pieces, counted_all;
static _Thread_local char counted_here;

static inline void *counted_take(size_t n)
{
    const char *most = getenv("RECORDER_MEMORY");
    void *memory = most && counted_all >= atol(most) ? NULL : calloc(1, n);
    counted_all++;
    counted_pieces += memory != NULL;
    return memory;
}

static inline void counted_give(void *memory)
{
    counted_pieces -= memory != NULL;
    free(memory);
}

#define IRPX_ALLOC(n) counted_take(n)
#define IRPX_FREE(p) counted_give((void *)(p))
#define IRPX_THREAD() ((uintptr_t)&counted_here)
#define IRPX_YIELD() ((void)sched_yield())
static volatile char counted_lock;
#define IRPX_LOCK() while (__atomic_test_and_set(&counted_lock, __ATOMIC_ACQUIRE)) IRPX_YIELD()
#define IRPX_UNLOCK() __atomic_clear(&counted_lock, __ATOMIC_RELEASE)
