/*
 * hooks.c: what code calls at each access of memory that is compiled with -fsanitize=thread, without the sanitizer.
 *
 * An atomic access is a scheduling point; a plain one is where its place in the program was seen to race. This file is
 * linked only where `run` follows, makes or explores schedules.
 */
#include "explore/exploration.h"
#include "mm/mm.h"

extern char __executable_start;

static const void *word_at(uintptr_t address, int kind) { return (const void *)(address >> 2 << 2 | (unsigned)kind); }

static void access_at(const void *address, size_t size, bool writes, const void *pc)
{
    const uintptr_t first = (uintptr_t)address;
    if (!by_schedule || !size)
        return;
    if (shared->is_point[(uint16_t)((const char *)pc - &__executable_start)])
        point_by_schedule(writes ? "a write that races" : "a read that races", (WDM_SITE){ 0 }, pc);
    if (!footprints) /* what orders accesses isn't seen any more, so that none may be said to race */
        return;
    const void *page = packet_page(address);
    if (page) {
        touch(page, writes ? WRITES : READS);
        access_to(page, false, pc, true);
    }
    for (uintptr_t a = first >> 2 << 2; a < first + size; a += 4) {
        touch(word_at(a, 1), writes ? WRITES : READS);
        access_to(word_at(a, 1), writes, pc, true);
    }
}

/* It orders what comes before and after it. A plain access elsewhere to the same word depends on it, and may race. */
static void atomic_at(const volatile void *address, bool writes, const void *pc)
{
    if (!by_schedule)
        return;
    point_by_schedule(writes ? "an interlocked access" : "an atomic read", (WDM_SITE){ 0 }, pc);
    if (!footprints)
        return;
    const void *page = packet_page((const void *)address);
    if (page)
        touch(page, writes ? WRITES : READS);
    touch(word_at((uintptr_t)address, 2), writes ? SYNCS : ACQUIRES);
    touch(word_at((uintptr_t)address, 1), writes ? WRITES : READS);
    access_to(word_at((uintptr_t)address, 1), writes, pc, false);
}

#define PC __builtin_return_address(0)
#define HOOK(result, name, ...) result name(__VA_ARGS__); result name(__VA_ARGS__)

HOOK(void, __tsan_init, void) { hooks_present = true; }
HOOK(void, __tsan_func_entry, void *pc) { (void)pc; }
HOOK(void, __tsan_func_exit, void) {}
HOOK(void, __tsan_read_range, void *a, size_t n) { access_at(a, n, false, PC); }
HOOK(void, __tsan_write_range, void *a, size_t n) { access_at(a, n, true, PC); }

#define PLAIN(kind, n) \
    HOOK(void, __tsan_##kind##read##n, void *a) { access_at(a, n, false, PC); } \
    HOOK(void, __tsan_##kind##write##n, void *a) { access_at(a, n, true, PC); }
#define PLAINS(n) PLAIN(, n) PLAIN(unaligned_, n) PLAIN(volatile_, n) PLAIN(unaligned_volatile_, n)
PLAINS(1) PLAINS(2) PLAINS(4) PLAINS(8) PLAINS(16)

#define ORDER __ATOMIC_SEQ_CST
#define FETCH(bits, type, name) \
    HOOK(type, __tsan_atomic##bits##_fetch_##name, volatile type *a, type v, int o) \
    { (void)o; atomic_at(a, true, PC); return __atomic_fetch_##name(a, v, ORDER); }
#define EXCHANGE(bits, type, kind) \
    HOOK(int, __tsan_atomic##bits##_compare_exchange_##kind, volatile type *a, type *was, type v, int o, int f) \
    { (void)o, (void)f; atomic_at(a, true, PC); return __atomic_compare_exchange_n(a, was, v, 0, ORDER, ORDER); }
#define ATOMIC(bits, type) \
    HOOK(type, __tsan_atomic##bits##_load, const volatile type *a, int o) \
    { (void)o; atomic_at(a, false, PC); return __atomic_load_n(a, ORDER); } \
    HOOK(void, __tsan_atomic##bits##_store, volatile type *a, type v, int o) \
    { (void)o; atomic_at(a, true, PC); __atomic_store_n(a, v, ORDER); } \
    HOOK(type, __tsan_atomic##bits##_exchange, volatile type *a, type v, int o) \
    { (void)o; atomic_at(a, true, PC); return __atomic_exchange_n(a, v, ORDER); } \
    HOOK(type, __tsan_atomic##bits##_compare_exchange_val, volatile type *a, type was, type v, int o, int f) \
    { (void)o, (void)f; atomic_at(a, true, PC); __atomic_compare_exchange_n(a, &was, v, 0, ORDER, ORDER); return was; } \
    EXCHANGE(bits, type, strong) EXCHANGE(bits, type, weak) FETCH(bits, type, add) FETCH(bits, type, sub) \
    FETCH(bits, type, and) FETCH(bits, type, or) FETCH(bits, type, xor) FETCH(bits, type, nand)
ATOMIC(8, uint8_t) ATOMIC(16, uint16_t) ATOMIC(32, uint32_t) ATOMIC(64, uint64_t)
HOOK(void, __tsan_atomic_thread_fence, int o) { (void)o; __atomic_thread_fence(ORDER); }
HOOK(void, __tsan_atomic_signal_fence, int o) { (void)o; }

#define COPY(name, how) \
    HOOK(void *, name, void *to, const void *from, size_t n) \
    { access_at(from, n, false, PC); access_at(to, n, true, PC); return how(to, from, n); }
#define FILL(name) \
    HOOK(void *, name, void *to, int c, size_t n) { access_at(to, n, true, PC); return memset(to, c, n); }
/* `run` renames the library's calls to the first three; clang makes the others. */
COPY(wdm_memcpy, memcpy) COPY(wdm_memmove, memmove) FILL(wdm_memset)
COPY(__tsan_memcpy, memcpy) COPY(__tsan_memmove, memmove) FILL(__tsan_memset)

HOOK(void *, wdm_malloc, size_t n) { return host_memory(n); }
HOOK(void *, wdm_calloc, size_t k, size_t n) { return host_memory(k * n); }
HOOK(void *, wdm_realloc, void *p, size_t n) { return resize_host_memory(p, n); }
HOOK(char *, wdm_strdup, const char *s)
{
    char *made = host_memory(strlen(s) + 1);
    return made ? strcpy(made, s) : NULL;
}
HOOK(void, wdm_free, void *p) { free_host_memory(p); }
