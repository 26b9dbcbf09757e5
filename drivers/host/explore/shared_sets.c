/*
 * shared_sets.c: sets of hashes that all processes of an exploration share, and that grow while they run.
 *
 * A set has tables, each four times as large as the one before. A hash has a row in each, and stands in the first place of
 * its rows that was free when it came. Nothing is taken out or moved, so a process that looks at its rows in this order
 * comes to it, or to a free place, whatever others put in meanwhile.
 */
#include "explore/exploration.h"
#include <sys/mman.h>
#include <unistd.h>

enum { ROW = 8, FIRST_ROWS = 64, SHARE = 4 }; /* all tables have room in one part of so many of the memory there is */

static size_t rows_of(int table) { return (size_t)FIRST_ROWS << 2 * table; }
static size_t size_of(int table) { return rows_of(table) * ROW * sizeof(uint64_t); }

void *share(size_t size)
{
    void *p = mmap(NULL, size, PROT_READ | PROT_WRITE, MAP_SHARED | MAP_ANONYMOUS | MAP_NORESERVE, -1, 0);
    if (p == MAP_FAILED) {
        perror("explore: no memory");
        _exit(2);
    }
    return p;
}

void empty_shared(void *memory, size_t size)
{
    if (madvise(memory, size, MADV_REMOVE))
        memset(memory, 0, size);
}

void make_set(Set *s)
{
    const size_t most = (size_t)sysconf(_SC_PHYS_PAGES) / SHARE * (size_t)sysconf(_SC_PAGESIZE);
    size_t all = 0;
    for (s->n_tables = 0; s->n_tables < MOST_TABLES; s->n_tables++) {
        all += size_of(s->n_tables);
        if (s->n_tables && all > most)
            return;
        s->tables[s->n_tables] = share(size_of(s->n_tables));
    }
}

/* The tables of one that was small are few, so that this takes no time. */
void empty_set(Set *s)
{
    for (int i = 0; i < s->n_tables && (!i || s->n_used >= i); i++)
        empty_shared((void *)s->tables[i], size_of(i));
    s->n = 0;
    s->n_used = 0;
}

static void use_table(Set *s, int table)
{
    int used = s->n_used;
    while (used < table && !atomic_compare_exchange_weak(&s->n_used, &used, table))
        ;
}

/* One row. Returns whether it has an answer: the hash was there, or stands there now. */
static bool is_in_row(Set *s, _Atomic uint64_t *row, uint64_t entry, uint64_t mask, bool *is_new)
{
    for (int i = 0; i < ROW;) {
        uint64_t was = row[i];
        if (was && (was & mask) != (entry & mask)) {
            i++;
            continue;
        }
        *is_new = !was || (was & ~mask) < (entry & ~mask);
        if (*is_new && !atomic_compare_exchange_strong(&row[i], &was, entry))
            continue; /* another process came first: look again */
        if (!was)
            s->n++;
        return true;
    }
    return false;
}

/* Where there is no room at all any more, each counts as new. */
static bool put(Set *s, uint64_t entry, uint64_t mask)
{
    bool is_new = true;
    for (int i = 0; i < s->n_tables; i++) {
        use_table(s, i);
        if (is_in_row(s, s->tables[i] + ((entry >> 8) & (rows_of(i) - 1)) * ROW, entry, mask, &is_new))
            return is_new;
    }
    return true;
}

bool put_in(Set *s, uint64_t hash) { return put(s, hash | 1, ~0ull); }

bool put_with_rest(Set *s, uint64_t hash, int rest)
{
    return put(s, ((hash | 1ull << 63) & ~255ull) | (uint64_t)(rest + 1), ~255ull);
}

void write_set(const Set *s, FILE *out)
{
    for (int i = 0; i <= s->n_used; i++)
        for (size_t at = 0; at < rows_of(i) * ROW; at++)
            if (s->tables[i][at])
                fprintf(out, "%016lx\n", (unsigned long)s->tables[i][at]);
}
