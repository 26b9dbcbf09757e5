/*
 * racing.c: which plain accesses race, by vector clocks; updates that are lost by that; and memory that was let go.
 *
 * A place of the program whose access was seen to race is a scheduling point from the next run on. Accesses to memory
 * that nothing orders otherwise thus meet in each order, and accesses under locks cost nothing.
 */
#include "explore/exploration.h"
#include "record/record.h"
#include "rules/rules.h"

typedef struct {
    const void *key;
    int writer, let_go_by;
    uint32_t written, readers; /* the writer's clock; a bit for each reader */
    uint32_t overwritten;      /* a bit for each thread whose last read another one's write came behind */
    const void *write_pc;
    const char *let_go;
    WDM_SITE let_go_at;
    uint32_t read[FEW_THREADS], read_pc[FEW_THREADS];
} Cell;
typedef struct { uint32_t read[MAX_THREADS - FEW_THREADS], read_pc[MAX_THREADS - FEW_THREADS]; } OtherReads;
enum { CELLS = 1 << 18, PLACES = 1 << 19, FEWEST_PLACES = 1 << 10, MOST_LET_GO = 1024 };
static Cell cells[CELLS];
static OtherReads other_reads[CELLS]; /* of threads behind the first few */
static uint32_t place_of_cell[PLACES];
static size_t n_places = FEWEST_PLACES; /* of those that are used, as in footprint.c */
static int n_cells;
static uint32_t clocks[MAX_THREADS][MAX_THREADS];
extern char __executable_start;

static const void *cell_at(uintptr_t address) { return (const void *)(address >> 2 << 2 | 1); }

void clocks_born(int parent, int child)
{
    const uint32_t before = clocks[child][child]; /* of a thread that had the place */
    memcpy(clocks[child], clocks[parent], sizeof clocks[child]);
    clocks[child][child] = before + 1;
    clocks[parent][parent]++;
}

static void meet(uint32_t *mine, uint32_t *of_object, int n, Touch how)
{
    for (int i = 0; i < n; i++) {
        if (of_object[i] > mine[i])
            mine[i] = of_object[i];
        if (how != ACQUIRES)
            of_object[i] = mine[i];
    }
}

void clocks_meet(uint32_t *of_few, uint32_t *of_others, Touch how)
{
    uint32_t *mine = clocks[current_thread()];
    meet(mine, of_few, FEW_THREADS, how);
    if (threads_of_run() > FEW_THREADS)
        meet(mine + FEW_THREADS, of_others, MAX_THREADS - FEW_THREADS, how);
    if (how != ACQUIRES)
        mine[current_thread()]++;
}

static size_t place_for(const void *key)
{
    size_t i = ((uintptr_t)key * 0x9E3779B97F4A7C15u) >> 44 & (n_places - 1);
    while (place_of_cell[i] && cells[place_of_cell[i]].key != key)
        i = (i + 1) & (n_places - 1);
    return i;
}

static void use_more_places(void)
{
    memset(place_of_cell, 0, n_places * sizeof *place_of_cell);
    n_places *= 2;
    for (int n = 1; n < n_cells; n++)
        place_of_cell[place_for(cells[n].key)] = (uint32_t)n;
}

static Cell *cell_of(const void *key)
{
    const size_t i = place_for(key);
    if (place_of_cell[i])
        return &cells[place_of_cell[i]];
    if (n_cells + 1 == CELLS) {
        look_no_further("a run touches more than 262,143 words of memory: make its test smaller");
        cells[0] = (Cell){ .key = key, .writer = NOBODY };
        return &cells[0];
    }
    n_cells++;
    cells[n_cells] = (Cell){ .key = key, .writer = NOBODY };
    if ((size_t)n_cells * 2 > n_places)
        use_more_places();
    place_of_cell[place_for(key)] = (uint32_t)n_cells;
    return &cells[n_cells];
}

static uint32_t place_of(const void *pc) { return pc ? (uint32_t)((const char *)pc - &__executable_start) : 0; }

static const char *access_place(const void *pc)
{
    static char where[200];
    snprintf(where, sizeof where, "+0x%lx in %s", place_in_program((const char *)pc - 1), function_name(pc));
    return where;
}

static void tell_let_go(Cell *c, bool writes, const void *pc)
{
    const char *what = c->let_go;
    c->let_go = NULL;
    Call here = { .name = access_place(pc), .is_access = true }, *const calls = self.calls;
    self.calls = &here;
    broken("UsedAfterFree", NULL, "%s %s, which %s let go%s%s", writes ? "writes" : "reads", what,
           thread_name(c->let_go_by), c->let_go_at.file ? " at " : "", c->let_go_at.file ? place(c->let_go_at) : "");
    self.calls = calls;
}

/* An access to several words is told once. */
static void tell_lost_update(const Cell *c, const void *pc)
{
    static const void *told;
    static int told_at = -1;
    if (told == pc && told_at == points_of_run())
        return;
    told = pc;
    told_at = points_of_run();
    Call here = { .name = access_place(pc), .is_access = true }, *const calls = self.calls;
    self.calls = &here;
    broken("LostUpdate", NULL, "changes what it has read, and %s has written to that between: one of the two changes is lost",
           thread_name(c->writer));
    self.calls = calls;
}

void let_go_of(const void *from, size_t size, const char *what, WDM_SITE at)
{
    const uintptr_t first = (uintptr_t)from;
    if (!footprints)
        return;
    for (uintptr_t a = first, n = 0; a < first + size && n < MOST_LET_GO; a += 4, n++) {
        Cell *c = cell_of(cell_at(a));
        c->let_go = what;
        c->let_go_at = at;
        c->let_go_by = current_thread();
        touch(c->key, WRITES);
        access_to(c->key, true, NULL, false);
    }
}

static uint32_t *last_read(Cell *c, int t)
{
    return t < FEW_THREADS ? &c->read[t] : &other_reads[c - cells].read[t - FEW_THREADS];
}

static uint32_t *place_of_read(Cell *c, int t)
{
    return t < FEW_THREADS ? &c->read_pc[t] : &other_reads[c - cells].read_pc[t - FEW_THREADS];
}

static void note_race(uint32_t here, uint32_t there)
{
    place_races(here);
    place_races(there);
}

/* A line reads a word and writes it, and another thread that nothing orders has written there between. */
static bool is_lost_update(Cell *c, int me, const void *pc)
{
    const bool is_overwritten = (c->overwritten & c->readers) >> me & 1;
    return is_overwritten && is_update(place_of(pc)) && is_update(*place_of_read(c, me)) && c->writer != me && c->write_pc &&
           c->written > clocks[me][c->writer];
}

/* An access to a cell at a place of the program, or at none. Only that of a plain one may become a point. */
void access_to(const void *key, bool writes, const void *pc, bool is_plain)
{
    Cell *c = cell_of(key);
    const int me = current_thread();
    const uint32_t *mine = clocks[me];
    if (c->let_go && pc)
        tell_let_go(c, writes, pc);
    pc = is_plain ? pc : NULL;
    if (c->writer != NOBODY && c->writer != me && c->written > mine[c->writer])
        note_race(place_of(pc), place_of(c->write_pc));
    for (uint32_t r = writes ? c->readers & ~(1u << me) : 0; r; r &= r - 1) {
        const int t = __builtin_ctz(r);
        if (*last_read(c, t) > mine[t])
            note_race(place_of(pc), *place_of_read(c, t));
    }
    if (writes && is_lost_update(c, me, pc))
        tell_lost_update(c, pc);
    c->overwritten = writes ? c->overwritten | (c->readers & ~(1u << me)) : c->overwritten & ~(1u << me);
    if (writes) {
        c->writer = me;
        c->written = mine[me];
        c->write_pc = pc;
    } else {
        c->readers |= 1u << me;
        *last_read(c, me) = mine[me];
        *place_of_read(c, me) = place_of(pc);
    }
}
