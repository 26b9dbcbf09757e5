/*
 * left_in_system.c: what runs leave in the system, which isn't put back.
 *
 * That is seen at the end of a process: mappings, and files that are open. There `explorer.c` makes the round again by
 * forks. The rest of what a program can change there, `run` sees by the functions that it calls (orders.py).
 */
#include "explore/snapshots.h"
#include "mm/mm.h"
#include <sys/resource.h>
#include <sys/stat.h>

enum { MOST_FILES = 256, MOST_MAPPINGS = 4096 };
typedef struct { dev_t device; ino_t number; bool is_open; } Opened;
static struct { Opened files[MOST_FILES]; Region mappings[MOST_MAPPINGS]; } *noted;

int read_mappings(Region *regions, int most)
{
    unsigned long from, to;
    char how[5], line[600];
    FILE *maps = fopen("/proc/self/maps", "r");
    int n = 0;
    while (maps && fgets(line, sizeof line, maps))
        if (sscanf(line, "%lx-%lx %4s", &from, &to, how) == 3 && how[1] == 'w' && how[3] == 'p' &&
            !is_kept_apart((void *)from)) {
            if (n < most)
                regions[n] = (Region){ (char *)from, (char *)to, NULL };
            n++;
        }
    if (maps)
        fclose(maps);
    return n;
}

static Opened opened_as(int number)
{
    struct stat what;
    if (fstat(number, &what))
        return (Opened){ 0 };
    return (Opened){ what.st_dev, what.st_ino, true };
}

/* In the first process of a round. */
void note_system(void)
{
    noted = kept_apart(sizeof *noted);
    for (int i = 0; i < MOST_FILES; i++)
        noted->files[i] = opened_as(i);
}

static bool has_other_files(void)
{
    for (int i = 0; i < MOST_FILES; i++) {
        const Opened now = opened_as(i), *was = &noted->files[i];
        if (now.is_open != was->is_open || now.device != was->device || now.number != was->number)
            return true;
    }
    return false;
}

static bool has_other_mappings(void)
{
    const int n = read_mappings(noted->mappings, MOST_MAPPINGS);
    if (n > MOST_MAPPINGS)
        return true;
    for (int i = 0; i < n; i++) {
        const Region *r = &noted->mappings[i];
        const bool is_known = is_tracked(r->from) && is_tracked(r->to - 1);
        if (!is_known && !(is_packets_page(r->from) && is_packets_page(r->to - 1)))
            return true;
    }
    return false;
}

bool is_clean_end(void) { return !has_other_files() && !has_other_mappings(); }
