/* allocated.c: the places at which drivers allocated, and which allocation of the run was the first one of each: for the
   plan of runs, which refuses these first. */
#include "record/record.h"

enum { MOST_PLACES = 1024 };
typedef struct { int number; const char *what; WDM_SITE at; } Allocated;
static Allocated allocated[MOST_PLACES];
static int n_allocated;

void remember_allocation(int number, const char *what, WDM_SITE at)
{
    for (int i = 0; i < n_allocated; i++)
        if (allocated[i].at.line == at.line && allocated[i].at.file == at.file && !strcmp(allocated[i].what, what))
            return;
    if (n_allocated < MOST_PLACES)
        allocated[n_allocated++] = (Allocated){ number, what, at };
}

void write_allocations(FILE *out)
{
    for (int i = 0; i < n_allocated; i++)
        fprintf(out, "allocated %d %s %s\n", allocated[i].number, place(allocated[i].at), allocated[i].what);
}
