/*
 * tracking.c: which pages a run writes, and what was in them.
 *
 * All writable private memory is closed for writing at the begin of a round. The first write to a page is a fault: what
 * the page has in it is kept, it is opened, and it is hot from then on. A snapshot has a copy of each hot page; those that
 * are the same share it. A page that became hot only after a snapshot is put back to what it had in it at first. What this
 * needs itself lies in one mapping apart, which isn't tracked.
 */
#include "explore/snapshots.h"
#include <sys/mman.h>
#include <sys/resource.h>
#include <sys/syscall.h>
#include <unistd.h>

enum { MOST_REGIONS = 256, MOST_HOT = 1 << 15, LOOK_AFTER = 128, RARE = 16, VERSIONS_AT_ONCE = 256 };
static const size_t ROOM_APART = (size_t)16 << 30; /* of addresses: memory is taken as it is used */
struct Version { char *bytes; int uses; Version *next; };
typedef struct {
    char *page;
    Version *original, *last; /* what it was at first, and when it was last saved or put back */
    unsigned n_different;     /* how often it had to be put back since the last look */
} Hot;
static struct Tracked {
    size_t used;              /* of the mapping, whose begin this is */
    Region regions[MOST_REGIONS];
    const Region *main_stack;
    int n_regions, n_hot, n_always; /* the first so many stay hot */
    Hot hot[MOST_HOT];
    Version *free_versions;
    unsigned long n_put_back, looked_at;
} *tracked;

void lose_process(void)
{
    syscall(SYS_exit_group, 0);
    __builtin_unreachable();
}

bool is_kept_apart(const void *address) { return (uintptr_t)address - (uintptr_t)tracked < ROOM_APART; }

static void map_apart(void)
{
    tracked = mmap(NULL, ROOM_APART, PROT_READ | PROT_WRITE, MAP_PRIVATE | MAP_ANONYMOUS | MAP_NORESERVE, -1, 0);
    if (tracked == MAP_FAILED)
        lose_process();
    tracked->used = (sizeof *tracked + PAGE - 1) & ~(size_t)(PAGE - 1);
}

void *kept_apart(size_t size)
{
    if (!tracked)
        map_apart();
    if (size > ROOM_APART - tracked->used)
        lose_process();
    void *p = (char *)tracked + tracked->used;
    tracked->used += (size + PAGE - 1) & ~(size_t)(PAGE - 1);
    return p;
}

static Region *region_of(const char *at)
{
    for (int i = 0; i < tracked->n_regions; i++)
        if (at >= tracked->regions[i].from && at < tracked->regions[i].to)
            return &tracked->regions[i];
    return NULL;
}

bool is_tracked(const void *address) { return region_of(address) != NULL; }

/* Whether the main stack would have grown to there: that memory isn't tracked. */
bool is_below_stack(const void *address)
{
    const Region *r = tracked->main_stack;
    struct rlimit most;
    if (!r || getrlimit(RLIMIT_STACK, &most))
        return false;
    const size_t room = most.rlim_cur == RLIM_INFINITY ? (size_t)64 << 20 : most.rlim_cur;
    return (const char *)address < r->from && (const char *)address + room >= r->to && !is_tracked(address);
}

static void make_versions(void)
{
    char *bytes = kept_apart((size_t)VERSIONS_AT_ONCE * PAGE);
    Version *v = kept_apart(VERSIONS_AT_ONCE * sizeof *v);
    for (int i = 0; i < VERSIONS_AT_ONCE; i++, v++) {
        *v = (Version){ bytes + (size_t)i * PAGE, 0, tracked->free_versions };
        tracked->free_versions = v;
    }
}

static Version *new_version(const char *page)
{
    if (!tracked->free_versions)
        make_versions();
    Version *v = tracked->free_versions;
    tracked->free_versions = v->next;
    v->uses = 1;
    memcpy(v->bytes, page, PAGE);
    return v;
}

static void let_version_go(Version *v)
{
    if (!v || --v->uses)
        return;
    v->next = tracked->free_versions;
    tracked->free_versions = v;
}

static void set_version(Version **at, Version *v)
{
    v->uses++;
    let_version_go(*at);
    *at = v;
}

bool opens_page(void *address)
{
    Region *r = region_of(address);
    char *page = (char *)((uintptr_t)address & ~(uintptr_t)(PAGE - 1));
    if (!r || r->is_hot[(page - r->from) / PAGE])
        return false;
    if (tracked->n_hot == MOST_HOT)
        lose_process();
    Hot *h = &tracked->hot[tracked->n_hot++];
    r->is_hot[(page - r->from) / PAGE] = 1;
    *h = (Hot){ .page = page, .original = new_version(page) };
    set_version(&h->last, h->original);
    mprotect(page, PAGE, PROT_READ | PROT_WRITE);
    return true;
}

static void keep_open(const void *from, size_t size)
{
    for (char *at = (char *)((uintptr_t)from & ~(uintptr_t)(PAGE - 1)); at < (char *)from + size; at += PAGE)
        opens_page(at);
}

static void find_regions(void)
{
    tracked->n_regions = read_mappings(tracked->regions, MOST_REGIONS);
    if (tracked->n_regions > MOST_REGIONS)
        lose_process();
    for (int i = 0; i < tracked->n_regions; i++) {
        Region *r = &tracked->regions[i];
        r->is_hot = kept_apart((size_t)(r->to - r->from) / PAGE);
    }
}

/* All but what is hot. */
static void close_region(const Region *r)
{
    for (char *from = r->from, *to; from < r->to; from = to) {
        const uint8_t is_hot = r->is_hot[(from - r->from) / PAGE];
        for (to = from + PAGE; to < r->to && r->is_hot[(to - r->from) / PAGE] == is_hot; to += PAGE) {
        }
        if (!is_hot)
            mprotect(from, (size_t)(to - from), PROT_READ);
    }
}

void begin_tracking(void)
{
    find_regions();
    tracked->main_stack = region_of(__builtin_frame_address(0));
    keep_open((char *)__builtin_thread_pointer() - PAGE, 3 * PAGE); /* the system writes there as it moves a thread */
    keep_open((char *)__builtin_frame_address(0) - 2 * PAGE, 4 * PAGE);
    tracked->n_always = tracked->n_hot;
    for (int i = 0; i < tracked->n_regions; i++)
        close_region(&tracked->regions[i]);
}

static void make_room_for_pages(Pages *p)
{
    if (p->room >= tracked->n_hot)
        return;
    for (int i = 0; i < p->room; i++)
        let_version_go(p->versions[i]);
    p->n = 0;
    p->room = (tracked->n_hot * 2 + 1023) & ~511;
    p->versions = kept_apart((size_t)p->room * sizeof *p->versions);
}

void save_pages(Pages *p)
{
    make_room_for_pages(p);
    p->n = tracked->n_hot;
    for (int i = 0; i < p->n; i++) {
        Hot *h = &tracked->hot[i];
        if (memcmp(h->page, h->last->bytes, PAGE)) {
            let_version_go(h->last);
            h->last = new_version(h->page);
        }
        set_version(&p->versions[i], h->last);
    }
}

void put_pages_back(const Pages *p)
{
    for (int i = 0; i < tracked->n_hot; i++) {
        Hot *h = &tracked->hot[i];
        Version *v = i < p->n ? p->versions[i] : h->original;
        if (memcmp(h->page, v->bytes, PAGE)) {
            memcpy(h->page, v->bytes, PAGE);
            h->n_different++;
        }
        set_version(&h->last, v);
    }
    tracked->n_put_back++;
}

/* A page is closed again. What the snapshot has last takes its place there, and the last one of all the place of that. */
static void close_page(Pages *eldest, int i)
{
    Hot *h = &tracked->hot[i];
    Region *r = region_of(h->page);
    const int at = --eldest->n, end = --tracked->n_hot;
    mprotect(h->page, PAGE, PROT_READ);
    r->is_hot[(h->page - r->from) / PAGE] = 0;
    let_version_go(h->original);
    let_version_go(h->last);
    let_version_go(eldest->versions[i]);
    eldest->versions[i] = eldest->versions[at];
    eldest->versions[at] = NULL;
    *h = tracked->hot[at];
    tracked->hot[at] = tracked->hot[end];
    tracked->hot[end] = (Hot){ 0 };
}

/* Pages that are hardly written any more. As the only snapshot has them, so have all that come. */
void close_rare_pages(Pages *eldest)
{
    const unsigned long since = tracked->n_put_back - tracked->looked_at;
    if (since < LOOK_AFTER)
        return;
    tracked->looked_at = tracked->n_put_back;
    for (int i = tracked->n_hot - 1; i >= tracked->n_always; i--) {
        const bool is_rare = (unsigned long)tracked->hot[i].n_different * RARE < since && i < eldest->n;
        tracked->hot[i].n_different = 0;
        if (is_rare)
            close_page(eldest, i);
    }
}
