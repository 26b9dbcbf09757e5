/*
 * footprint.c: a hash of what came before what, so that runs that differ in nothing else count once.
 *
 * Each thread has a hash of its past: of the points that it passed, and of the last writes and reads of each object that
 * it touched, with what had come before these. The hash of a run's state is that of its threads' pasts. Addresses count
 * as what they are in each order: a packet by the thread that allocated it and how many that had before.
 */
#include "explore/schedule.h"
#include "mm/mm.h"
#include "record/record.h"
#include <sys/mman.h>

bool footprints, hooks_present;
typedef struct { const void *object; uint64_t written, read; uint32_t clock[FEW_THREADS]; } Object;
enum { OBJECTS = 1 << 18, PLACES = 1 << 19, FEWEST_PLACES = 1 << 10, ROOM = 4 << 20 };
static const uintptr_t MEMORY = 0x200000000000;
static const uint64_t GOLDEN = 0x9E3779B97F4A7C15u;
/* Dense, since each page that a run touches is a fault: most runs have few threads. */
static Object objects[OBJECTS];
static uint32_t other_clocks[OBJECTS][MAX_THREADS - FEW_THREADS];
static uint32_t place_of_object[PLACES];
static size_t n_places = FEWEST_PLACES; /* of those that are used: a power of two, so that a small run touches one page */
static int n_objects;
static uint64_t past[MAX_THREADS], n_named[MAX_THREADS];

static uint64_t mix(uint64_t a, uint64_t b)
{
    a ^= b + GOLDEN + (a << 6) + (a >> 2);
    a ^= a >> 31;
    a *= 0xBF58476D1CE4E5B9u;
    return a ^ a >> 27;
}

static size_t place_for(const void *object)
{
    size_t i = ((uintptr_t)object * GOLDEN) >> 44 & (n_places - 1);
    while (place_of_object[i] && objects[place_of_object[i]].object != object)
        i = (i + 1) & (n_places - 1);
    return i;
}

static void use_more_places(void)
{
    memset(place_of_object, 0, n_places * sizeof *place_of_object);
    n_places *= 2;
    for (int n = 1; n < n_objects; n++)
        place_of_object[place_for(objects[n].object)] = (uint32_t)n;
}

/* One of all orders can't be told from another one without footprints. Any other run goes on without them. */
void look_no_further(const char *why)
{
    if (is_exploring)
        reach_limit(why);
    if (!footprints)
        return;
    footprints = false;
    note("footprints", "this run is long: from here on it isn't told who uses memory that was let go");
}

static Object *object_of(const void *object)
{
    const size_t i = place_for(object);
    if (place_of_object[i])
        return &objects[place_of_object[i]];
    if (n_objects + 1 == OBJECTS) {
        look_no_further("a run touches more than 262,143 objects: make its test smaller");
        objects[0] = (Object){ .object = object };
        return &objects[0];
    }
    n_objects++;
    objects[n_objects].object = object;
    if ((size_t)n_objects * 2 > n_places)
        use_more_places();
    place_of_object[place_for(object)] = (uint32_t)n_objects;
    return &objects[n_objects];
}

/* A name for a packet: by the thread that allocates it, and how many that allocated before. */
uint64_t next_name(void) { return 1ull << 40 | (uint64_t)current_thread() << 20 | n_named[current_thread()]++; }

static char *all_memory;

void map_host_memory(void)
{
    if (!all_memory)
        all_memory = mmap((void *)MEMORY, (size_t)MAX_THREADS * ROOM, PROT_READ | PROT_WRITE,
                          MAP_PRIVATE | MAP_ANONYMOUS | MAP_NORESERVE, -1, 0);
    if (all_memory == MAP_FAILED)
        give_up("out of memory");
}

/* Memory whose address doesn't depend on what other threads do, with its length in front. It is never used again. */
void *host_memory(size_t size)
{
    static size_t used[MAX_THREADS];
    const int t = current_thread();
    if (!by_schedule)
        return calloc(1, size);
    map_host_memory();
    const size_t whole = (size + 31) & ~(size_t)15;
    if (used[t] + whole > ROOM)
        return NULL;
    char *p = all_memory + (size_t)t * ROOM + used[t];
    used[t] += whole;
    *(size_t *)p = whole - 16;
    return p + 16;
}

/* What the library has allocated itself, as for getline, goes back there. */
static bool is_host_memory(const void *memory) { return (uintptr_t)memory - MEMORY < (uintptr_t)MAX_THREADS * ROOM; }

void free_host_memory(void *memory)
{
    if (!is_host_memory(memory))
        free(memory);
    else
        let_go_of(memory, ((size_t *)memory)[-2], "memory", self.calls ? self.calls->at : (WDM_SITE){ 0 });
}

void *resize_host_memory(void *memory, size_t size)
{
    if (memory ? !is_host_memory(memory) : !by_schedule)
        return realloc(memory, size);
    const size_t before = memory ? ((size_t *)memory)[-2] : 0;
    void *new = host_memory(size);
    if (new && memory) {
        memcpy(new, memory, before < size ? before : size);
        free_host_memory(memory);
    }
    return new;
}

/* Where the main thread's stack lies depends on the environment. */
static uint64_t normal(const void *object)
{
    static uintptr_t main_stack;
    const uintptr_t a = (uintptr_t)object;
    if (!main_stack)
        main_stack = (uintptr_t)__builtin_frame_address(0);
    if (packet_name(object))
        return packet_name(object) << 12 | (a & (PAGE - 1));
    return a < main_stack + (1 << 16) && a > main_stack - (8 << 20) ? main_stack - a : a;
}

static void step(int thread, Object *o, const void *object, bool writes)
{
    uint64_t *mine = &past[thread];
    *mine = mix(mix(*mine, normal(object) * 2 + writes), o->written);
    if (writes) {
        *mine = mix(*mine, o->read);
        o->written = *mine;
        o->read = 0;
    } else
        o->read += *mine;
}

void touch(const void *object, Touch how)
{
    if (!footprints)
        return;
    Object *o = object_of(object);
    step(current_thread(), o, object, how == WRITES || how == SYNCS);
    if (how >= ACQUIRES)
        clocks_meet(o->clock, other_clocks[o - objects], how);
}

void touch_memory(const void *from, size_t size, Touch how)
{
    for (uintptr_t a = (uintptr_t)from >> 2 << 2; footprints && a < (uintptr_t)from + size; a += 4)
        touch((const void *)(a | 1), how);
}

/* Time passes, so that this thread goes on. */
void time_passed_for(int thread, const LONGLONG *clock)
{
    if (footprints)
        step(thread, object_of(clock), clock, true);
}

/* This thread goes on because time has passed, for whomever. */
void clock_read_by(int thread, const LONGLONG *clock)
{
    if (footprints)
        step(thread, object_of(clock), clock, false);
}

void passed(const char *what, int line)
{
    if (footprints)
        past[current_thread()] = mix(past[current_thread()], (uintptr_t)what ^ (uint64_t)line << 48);
}

void thread_born(int parent, int child)
{
    past[child] = mix(past[parent], past[child] + 77); /* of a place that another thread had, what that did counts on */
    clocks_born(parent, child);
}

uint64_t state_of(int n)
{
    uint64_t h = 0;
    for (int i = 0; i < n; i++)
        h += mix(past[i], (uint64_t)i + 1);
    return h;
}
