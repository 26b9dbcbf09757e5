/* options.h: what `run` and tests say to a run by its environment. It is read once, before anything else runs. */
#ifndef DRIVERS_OPTIONS_H
#define DRIVERS_OPTIONS_H

#include <stdbool.h>

/* A text or path is NULL where the environment has none. */
typedef struct {
    const char *transcript, *summary, *report, *orders, *classes; /* where files go */
    /* the test */
    const char *test, *scenario;             /* by its name; the piece of every order */
    const char *controls, *candidates;       /* codes that are sent; those that the source names */
    const char *on_children;                 /* which drivers are put on children of a bus: NAME=ID;.. */
    int threads, patience;                   /* patience: seconds in which nothing goes on */
    unsigned long rounds;                    /* the most of a test, or 0 */
    int internals;                           /* whether internal controls are sent, or -1 where no driver takes one */
    bool is_short, holds_none, reads_codes, sends_handles;
    bool is_wines, says;                     /* drivers of Wine's tests; what they print is told */
    /* what goes otherwise than usual */
    const char *refuse, *cancel, *pend;      /* see low_memory.c, cancel_at.c, between.c */
    unsigned long shake;                     /* the seed by which real threads are shaken, or 0 */
    int filled;                              /* what variables are filled with that aren't set, or -1 */
    bool page_ends, routines_high, has_no_traps;
    /* schedules: see explorer.c */
    const char *explore, *schedule, *chance, *updates, *forks;
    long processes, reduces, goes_on, goes_further, part, parts, seconds;
    int points;                              /* the most of a run, or 0 */
    bool has_one_processor;
} Options;
extern Options options;

#endif
