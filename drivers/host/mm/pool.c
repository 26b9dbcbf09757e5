/*
 * pool.c: memory of drivers: who allocated each block, where, with which tag; what is done wrong with it.
 *
 * A block lies between two fences, whose bytes are looked at when it is freed. A freed block is filled, kept for a
 * while, and looked at before it goes. With WDM_PAGE_ENDS (pages.c) a block ends at a page's end, and a freed one is
 * in pages that nobody may touch: then the line itself is told. Under a sanitizer the memory is plain, and is its.
 */
#include "mm/own.h"
#include "explore/explore.h"
#include "io/io.h"
#include "ke/ke.h"
#include "record/record.h"
#include "rules/rules.h"

enum { FENCE = 16, FRESH = FRESH_BYTE, FENCED = 0xFD, FREED = 0xDD, MAX_KEPT = 4096, MAX_KEPT_BYTES = 1 << 25, BUCKETS = 4096, MANY = 100 };
#if defined(__SANITIZE_ADDRESS__) || defined(__SANITIZE_THREAD__)
enum { IS_PLAIN = 1 };
#else
enum { IS_PLAIN = 0 };
#endif

static Block *buckets[BUCKETS], *oldest, *newest; /* all blocks; freed ones that are kept */
static uint64_t was_used[BUCKETS / 64]; /* a bit for each bucket that ever had a block */
static size_t n_kept, kept_bytes;
static struct { WDM_SITE at; int made, live; bool told; } places[256];
static int n_places;

static Block **bucket_of(const void *bytes) { return &buckets[((uintptr_t)bytes >> 4) % BUCKETS]; }

/* Goes on to the first bucket from this one on that ever had a block, or to the end. */
static void first_from(int *at)
{
    for (; *at < BUCKETS; *at = (*at | 63) + 1) {
        const uint64_t left = was_used[*at / 64] >> *at % 64;
        if (left) {
            *at += __builtin_ctzll(left);
            return;
        }
    }
}

static Block *find_block(const void *bytes)
{
    Block *b = *bucket_of(bytes);
    while (b && b->bytes != bytes)
        b = b->next;
    return b;
}

/* The tag as its four characters, the first one lowest. */
static const char *tag_text(ULONG tag)
{
    static _Thread_local char texts[2][8];
    static _Thread_local int turn;
    char *text = texts[turn++ % 2];
    for (int i = 0; i < 4; i++) {
        const char c = (char)(tag >> 8 * i);
        text[i] = c >= ' ' && c <= '~' ? c : '.';
    }
    return text;
}

const char *block_text(const Block *b)
{
    static _Thread_local char texts[2][200];
    static _Thread_local int turn;
    char *text = texts[turn++ % 2];
    snprintf(text, 200, "%s of %zu bytes%s%s%s, allocated at %s", b->is_buffer ? "buffer" : "pool block", b->size,
             b->tag ? ", tag '" : "", b->tag ? tag_text(b->tag) : "", b->tag ? "'" : "", place(b->allocated));
    return text;
}

static void fill_fences(Block *b)
{
    if (IS_PLAIN)
        return;
    if (!b->in_pages)
        memset(b->bytes - FENCE, FENCED, FENCE);
    memset(b->bytes + b->size, FENCED, b->room);
}

/* The first byte of a fence that was changed, from the block's begin; or 0. */
static long changed_fence(const Block *b)
{
    for (size_t i = 0; !IS_PLAIN && i < b->room; i++)
        if ((UCHAR)b->bytes[b->size + i] != FENCED)
            return (long)(b->size + i);
    for (long i = -FENCE; !IS_PLAIN && !b->in_pages && i < 0; i++)
        if ((UCHAR)b->bytes[i] != FENCED)
            return i;
    return 0;
}

static void check_fences(Block *b)
{
    const long at = b->freed ? 0 : changed_fence(b);
    if (at < 0)
        broken("PoolOverrun", NULL, "byte %ld before the %s was written", -at, block_text(b));
    else if (at)
        broken("PoolOverrun", NULL, "byte %ld behind the end of the %s was written", at - (long)b->size + 1,
               block_text(b));
    if (at)
        fill_fences(b);
}

static bool get_memory(Block *b)
{
    b->room = FENCE;
    if (!IS_PLAIN && get_pages(b))
        return true;
    char *area = IS_PLAIN ? malloc(b->size ? b->size : 1) : host_memory(b->size + 2 * FENCE);
    b->bytes = area && !IS_PLAIN ? area + FENCE : area;
    return area != NULL;
}

/* The freed block that the address lies in, or NULL. */
Block *freed_block_of(const void *address)
{
    Block *b = block_in_pages(address);
    if (b)
        return b->freed ? b : NULL;
    for (b = oldest; b; b = b->younger)
        if ((const char *)address >= b->bytes && (const char *)address < b->bytes + b->size)
            return b;
    return NULL;
}

/* The block that the address lies in, and that isn't freed; or NULL. */
const Block *block_around(const void *address)
{
    for (int i = 0; first_from(&i), i < BUCKETS; i++)
        for (const Block *b = buckets[i]; b; b = b->next)
            if (!b->freed && (const char *)address >= b->bytes && (const char *)address < b->bytes + b->size)
                return b;
    return NULL;
}

/* A block, or NULL. Under G. */
Block *new_block(size_t size, ULONG tag, ULONG kind, WDM_SITE at)
{
    Block *b = calloc(1, sizeof *b);
    if (!b)
        return NULL;
    *b = (Block){ .size = size, .tag = tag, .driver = calling_driver(), .allocated = at,
                  .paged = kind & WDM_POOL_PAGED };
    if (!get_memory(b)) {
        free(b);
        return NULL;
    }
    memset(b->bytes, kind & WDM_POOL_ZERO ? 0 : FRESH, size);
    fill_fences(b);
    b->next = *bucket_of(b->bytes);
    *bucket_of(b->bytes) = b;
    const size_t bucket = (size_t)(bucket_of(b->bytes) - buckets);
    was_used[bucket / 64] |= 1ull << bucket % 64;
    return b;
}

static void check_poison(const Block *b)
{
    size_t i = 0;
    while (!IS_PLAIN && !b->in_pages && i < b->size && (UCHAR)b->bytes[i] == FREED)
        i++;
    if (IS_PLAIN || b->in_pages || i == b->size)
        return;
    const Call c = { .up = self.calls, .name = "freed here", .at = b->released };
    self.calls = (Call *)&c;
    broken("WrittenAfterFree", NULL, "byte %zu of the %s was written after that", i, block_text(b));
    self.calls = c.up;
}

static void let_oldest_go(void)
{
    Block *b = oldest, **at = bucket_of(b->bytes);
    check_poison(b);
    oldest = b->younger;
    n_kept--;
    kept_bytes -= b->size;
    while (*at != b)
        at = &(*at)->next;
    *at = b->next;
    free_host_memory(b->bytes - FENCE);
    free(b);
}

/* What a block had in it is gone. Under G. */
void free_block(Block *b, WDM_SITE at)
{
    check_fences(b);
    if (b->lent_by)
        b->lent_by->buffer.bytes = NULL;
    b->lent_by = NULL;
    check_gone(b->bytes, b->size, block_text(b));
    b->freed = true;
    b->released = at;
    let_go_of(b->bytes, b->size, b->is_buffer ? "a buffer" : "a pool block", at);
    if (b->in_pages) {
        close_pages(b);
        return;
    }
    if (IS_PLAIN) {
        Block **it = bucket_of(b->bytes);
        while (*it != b)
            it = &(*it)->next;
        *it = b->next;
        free(b->bytes);
        free(b);
        return;
    }
    memset(b->bytes, FREED, b->size);
    if (oldest)
        newest->younger = b;
    else
        oldest = b;
    newest = b;
    n_kept++;
    kept_bytes += b->size;
    while (n_kept > MAX_KEPT || kept_bytes > MAX_KEPT_BYTES)
        let_oldest_go();
}

static bool is_packet_over(const Block *b) { return b->packet && (b->packet->use != b->use || !lives(b->packet)); }

/* How many blocks of this place aren't freed, and the packets are over for which they were allocated. */
static int count_orphans(WDM_SITE at)
{
    int n = 0;
    for (int i = 0; first_from(&i), i < BUCKETS; i++)
        for (const Block *b = buckets[i]; b; b = b->next)
            n += !b->freed && b->allocated.file == at.file && b->allocated.line == at.line && is_packet_over(b);
    return n;
}

/* How many blocks of this place aren't freed. A hundred of them whose packets are over are a note. */
static void count_place(WDM_SITE at, int change)
{
    int i = 0;
    while (i < n_places && (places[i].at.file != at.file || places[i].at.line != at.line))
        i++;
    if (i == n_places && n_places < 256)
        places[n_places++].at = at;
    if (i == n_places)
        return;
    places[i].live += change;
    places[i].made += change > 0;
    if (change < 0 || places[i].told || places[i].live <= MANY || places[i].live % 10)
        return;
    const int orphans = count_orphans(at);
    places[i].told = orphans >= MANY;
    if (places[i].told)
        note("pool", "of %d blocks that were allocated at %s, %d aren't freed, and their packets have ended", places[i].made,
             place(at), orphans);
}

PVOID WdmAllocatePool(ULONG Kind, SIZE_T Bytes, ULONG Tag, WDM_SITE at)
{
    Call c;
    enter_host(&c, Kind & WDM_POOL_PAGED ? "ExAllocatePool (paged)" : "ExAllocatePool", at);
    if (!Bytes)
        broken("ZeroBytes", NULL, "asks for a block of no bytes");
    Block *b = memory_is_refused(c.name, at) ? NULL : new_block(Bytes, Tag, Kind, at);
    if (b) {
        b->packet = self.frames ? self.frames->p : NULL;
        b->use = b->packet ? b->packet->use : 0;
        count_place(at, 1);
    }
    leave_host();
    return b ? b->bytes : NULL;
}

/* Frees a block whose pointer is right, and in which no packet is in flight; else says what is wrong. */
void free_checked(PVOID memory, ULONG tag, bool has_tag, WDM_SITE at)
{
    Block *b = find_block(memory);
    if (!b || b->is_buffer)
        broken("NotPool", NULL, "%p isn't the begin of a pool block", memory);
    else if (b->freed)
        broken("FreedTwice", NULL, "the %s was freed before at %s", block_text(b), place(b->released));
    else {
        const Call paged = { .name = "ExFreePool (paged)", .at = at };
        if (b->paged)
            check_call(&paged);
        if (has_tag && tag && b->tag && tag != b->tag)
            broken("WrongTag", NULL, "freed with tag '%s': the %s", tag_text(tag), block_text(b));
        if (packets_go(b->bytes, b->size)) {
            b->driver = NOBODY; /* what is in flight there is used yet */
            return;
        }
        count_place(b->allocated, -1);
        free_block(b, at);
    }
}

VOID WdmFreePool(PVOID Memory, ULONG Tag, BOOLEAN HasTag, WDM_SITE at)
{
    Call c;
    enter_host(&c, "ExFreePool", at);
    free_checked(Memory, Tag, HasTag, at);
    leave_host();
}

bool is_pool_block(const void *bytes)
{
    hold_host("a block is looked up", buckets, READS);
    const Block *b = find_block(bytes);
    pthread_mutex_unlock(&host_lock);
    return b != NULL;
}

/* A packet's end hands a block over to whoever sent it, as the answer to some requests of Plug and Play. */
void hand_over_block(const void *bytes)
{
    Block *b = bytes ? find_block(bytes) : NULL;
    if (b)
        b->driver = NOBODY;
}

/* At the end: what was written beyond blocks, or after they were freed. */
void check_pool(void)
{
    for (Block *b = oldest; b; b = b->younger)
        check_poison(b);
    for (int i = 0; first_from(&i), i < BUCKETS; i++)
        for (Block *b = buckets[i]; b; b = b->next)
            check_fences(b);
}

/* A driver is unloaded: each place with its counts. Where it isn't, and its devices are gone, they are notes. */
void tell_pool_leaks(int driver, bool is_unloaded)
{
    for (int i = 0; first_from(&i), i < BUCKETS; i++)
        for (Block *b = buckets[i]; b; b = b->next) {
            if (b->freed || b->is_buffer || b->driver != driver)
                continue;
            b->driver = NOBODY;
            const Call c = { .up = self.calls, .name = "never freed", .at = b->allocated };
            self.calls = (Call *)&c;
            if (is_unloaded)
                broken("PoolLeak", NULL, "%s is unloaded, and the %s isn't freed", drivers[driver]->HostName,
                       block_text(b));
            else
                note("at the end", "the %s isn't freed, and the driver %s is still loaded", block_text(b),
                     drivers[driver]->HostName);
            self.calls = c.up;
        }
}
