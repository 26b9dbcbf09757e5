/*
 * pages.c: blocks in pages of their own: paged pool, and with WDM_PAGE_ENDS each pool block and buffer, which ends at a
 * page's end. A touch behind the end, or after the free, is remembered by the handler (traps.c), and told at the next call
 * of the host; the run goes on.
 *
 * Paged pool is closed whenever a thread's level is raised to DISPATCH_LEVEL, and opened by the first touch: the handler
 * sees at which level that thread touches it. Real threads may miss a touch, where another one has opened the block.
 */
#include "mm/own.h"
#include "explore/explore.h"
#include "record/record.h"
#include "rules/rules.h"
#include <stdatomic.h>
#include <sys/mman.h>

enum { MAX_PAGES = 1 << 18, MAX_TOUCHES = 64, FENCED = 0xFD };
static char *arena;
static int next_page;
static Block *block_at[MAX_PAGES];
static struct { Block *_Atomic block; Callers by; long offset; bool unprobed, is_high; } touches[MAX_TOUCHES];
static _Atomic int n_touches;
static int n_told;
static Block *_Atomic open_ones; /* paged blocks that may be touched, until a level is raised */

static bool has_arena(void)
{
    static bool tried;
    if (!tried) {
        tried = true;
        void *all = mmap(NULL, (size_t)MAX_PAGES * PAGE, PROT_NONE, MAP_PRIVATE | MAP_ANONYMOUS | MAP_NORESERVE, -1, 0);
        arena = all == MAP_FAILED ? NULL : all;
    }
    return arena;
}

static bool wants_pages(const Block *b)
{
    return (options.page_ends || (b->paged && !is_exploring)) && b->size <= 1 << 24 && has_arena();
}

/* Also in the handler. */
static void note_open(Block *b)
{
    if (!b->paged || __atomic_exchange_n(&b->is_open, true, __ATOMIC_SEQ_CST))
        return;
    b->next_open = open_ones;
    while (!atomic_compare_exchange_weak(&open_ones, &b->next_open, b)) {
    }
}

/* Pages for a block, with one behind it that nobody may touch. What is left before the end is its fence. */
bool get_pages(Block *b)
{
    const int n = (int)((b->size + PAGE - 1) / PAGE) + (b->size == 0);
    if (!wants_pages(b) || next_page + n + 1 > MAX_PAGES)
        return false;
    char *area = arena + (size_t)next_page * PAGE, *end = area + (size_t)n * PAGE;
    if (mprotect(area, (size_t)n * PAGE, PROT_READ | PROT_WRITE))
        return false;
    for (int i = 0; i <= n; i++)
        block_at[next_page + i] = b;
    next_page += n + 1;
    b->in_pages = true;
    b->bytes = area + (((size_t)(end - area) - b->size) & ~(size_t)7);
    b->room = (size_t)(end - b->bytes) - b->size;
    note_open(b);
    return true;
}

static char *first_page(const Block *b) { return (char *)((uintptr_t)b->bytes & ~(uintptr_t)(PAGE - 1)); }

void close_pages(Block *b) { mprotect(first_page(b), (size_t)(b->bytes + b->size + b->room - first_page(b)), PROT_NONE); }

/* This thread's level was raised. */
void close_paged(void)
{
    if (self.irql < DISPATCH_LEVEL || !open_ones)
        return;
    for (Block *b = atomic_exchange(&open_ones, NULL), *after; b; b = after) {
        after = b->next_open;
        __atomic_store_n(&b->is_open, false, __ATOMIC_SEQ_CST);
        if (!b->freed && !b->locked)
            close_pages(b);
    }
}

/* An MDL locks the pages of this address, or unlocks them: between the two they are touched at any level. */
void lock_block(const void *address, int change)
{
    Block *b = block_in_pages(address);
    if (!b || !b->paged || b->freed || b->locked + change < 0)
        return;
    b->locked += change;
    open_pages(b);
    note_open(b);
}

/* So that what is told once isn't told again. */
void open_pages(Block *b)
{
    if (b->in_pages)
        mprotect(first_page(b), (size_t)(b->bytes + b->size + b->room - first_page(b)), PROT_READ | PROT_WRITE);
    b->unprobed = false;
}

/* The buffer of a METHOD_NEITHER control, as a caller's address: nobody may touch it before it is probed. Where a program
   sent the control, it is the program's. */
void close_until_probed(Block *b, bool is_programs)
{
    if (!b->in_pages)
        return;
    b->unprobed = true;
    b->is_programs = is_programs;
    close_pages(b);
}

/* The block whose pages the address lies in, or NULL. */
Block *block_in_pages(const void *address)
{
    const char *at = address;
    return arena && at >= arena && at < arena + (size_t)next_page * PAGE ? block_at[(size_t)(at - arena) / PAGE] : NULL;
}

/* The address was probed, or its pages are locked. */
void probed(const void *address)
{
    Block *b = block_in_pages(address);
    if (b && b->unprobed)
        open_pages(b);
}

/* Whether it is a program's, and nobody has probed it. */
bool is_unprobed(const void *address)
{
    const Block *b = block_in_pages(address);
    return b && b->unprobed && b->is_programs;
}

/* A touch of a paged block that may be made: the level is low, or the host makes it, for which Windows has a low one. */
static bool is_let_in(Block *b, const char *at)
{
    if (!b->paged || b->freed || b->unprobed || at >= b->bytes + b->size + b->room ||
        (self.irql >= DISPATCH_LEVEL && !self.has_host))
        return false;
    open_pages(b);
    note_open(b);
    return true;
}

/* In the handler of a bad access: whether it is one of these pages. The page is opened, so that the run goes on. */
bool touched_block(void *address)
{
    char *at = address;
    Block *b = block_in_pages(address);
    if (!b)
        return false;
    if (is_let_in(b, at))
        return true;
    const int i = n_touches++;
    if (i < MAX_TOUCHES) {
        touches[i].by.n = where_is(true, touches[i].by.at, MOST_CALLERS);
        touches[i].offset = at - b->bytes;
        touches[i].unprobed = b->unprobed;
        touches[i].is_high = b->paged && !b->freed && !b->unprobed && at < b->bytes + b->size;
        touches[i].block = b;
    }
    if (b->unprobed)
        open_pages(b);
    note_open(b);
    return !mprotect(arena + (size_t)(at - arena) / PAGE * PAGE, PAGE, PROT_READ | PROT_WRITE);
}

/* Where the program touched it: the place by which a touch is the same as another. */
static const void *place_of_touch(const Callers *by)
{
    int i = 0;
    while (i < by->n && is_helper(by->at[i]))
        i++;
    return i < by->n ? by->at[i] : by->n ? by->at[0] : NULL;
}

/* Under G: what the handler remembers is told, by the place of the instruction. */
void tell_block_touches(void)
{
    for (; n_told < n_touches && n_told < MAX_TOUCHES; n_told++) {
        const Block *b = touches[n_told].block;
        const long offset = touches[n_told].offset;
        const Callers *by = &touches[n_told].by;
        char where[600];
        if (!b)
            return; /* it is being written down */
        put_places(where, sizeof where, by->at, by->n);
        Call *const calls = self.calls, here = { .name = where, .by = place_of_touch(by) };
        Frame *const frames = self.frames;
        self.calls = (Call *)&here;
        self.frames = NULL;
        if (touches[n_told].is_high)
            broken("PagedAtDispatch", NULL, "byte %ld of the %s, %s, is touched at DISPATCH_LEVEL", offset, block_text(b),
                   b->is_buffer ? "a program's memory" : "from paged pool");
        else if (touches[n_told].unprobed && b->is_programs)
            broken("Unprobed", NULL, "a program's pointer, of a METHOD_NEITHER control, is used before ProbeForRead, "
                   "ProbeForWrite or MmProbeAndLockPages");
        else if (touches[n_told].unprobed)
            note("a METHOD_NEITHER pointer", "%s: used before ProbeForRead, ProbeForWrite or MmProbeAndLockPages", where);
        else if (b->freed && offset < (long)b->size)
            broken("UsedAfterFree", NULL, "byte %ld of the %s, which was freed at %s", offset, block_text(b),
                   place(b->released));
        else
            broken("PoolOverrun", NULL, "byte %ld behind the end of the %s", offset - (long)b->size + 1, block_text(b));
        self.calls = calls;
        self.frames = frames;
    }
}
