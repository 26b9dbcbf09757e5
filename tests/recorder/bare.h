/* bare.h: a platform without a library, as kernel mode is. */
void *bare_take(size_t n);
void bare_give(const void *memory);
uintptr_t bare_thread(void);
void bare_lock(void), bare_unlock(void), bare_yield(void);
#define IRPX_ALLOC(n) bare_take(n)
#define IRPX_FREE(p) bare_give(p)
#define IRPX_THREAD() bare_thread()
#define IRPX_LOCK() bare_lock()
#define IRPX_UNLOCK() bare_unlock()
#define IRPX_YIELD() bare_yield()
