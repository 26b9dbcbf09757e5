/*
 * exploration.h: what the processes of an exploration share.
 *
 * The explorer forks a process before `main`, which goes on into it. At each decision a process takes a snapshot, makes
 * one choice, and later goes back and makes the others (snapshots.h); or it forks another process for each choice but the
 * usual one, and goes on with that itself. So what runs have in common is run once. A process waits for those that it
 * forked before it ends. All of them share one mapping: counts, states, places, outcomes, the failure.
 */
#ifndef DRIVERS_EXPLORATION_H
#define DRIVERS_EXPLORATION_H

#include "explore/schedule.h"
#include <stdatomic.h>

enum { MAX_RACY = 1 << 10, MAX_SITES = 1 << 12, MAX_OUTCOMES = 1 << 12, MOST_TABLES = 11, OUTCOME_TEXT = 400 };
typedef enum { GOES_ON, TO_START_OVER, TO_STOP } Order; /* to all processes */

typedef struct { /* a place at which a thread was, or could have been, preempted */
    _Atomic uintptr_t key;
    uint32_t line;
    bool is_code, preempted;
    const char *what;
} Site;

typedef struct {
    _Atomic unsigned long classes; /* how many classes of orders lead there */
    char text[OUTCOME_TEXT];
} Outcome;

typedef struct {
    _Atomic uint64_t *tables[MOST_TABLES];
    int n_tables;
    _Atomic int n_used;        /* the last table that has something in it */
    _Atomic unsigned long n;   /* how many hashes */
} Set;

typedef struct {
    /* set by the explorer before a round */
    int bound, processes, part, parts; /* parts 0: all */
    bool counts_all;           /* the bound is of all choices but the usual ones, and not of preemptions */
    bool reduces, only_first;  /* only_first: the run by the usual order, whose other choices are counted */
    bool goes_on;              /* past a failure: all classes are wanted, those that fail with them */
    Set states;                /* of the round, each with what was left of the bound */
    Set classes;               /* of orders, of the round */
    Set transcripts;
    /* by all */
    _Atomic int order;
    const char *forks;         /* why each choice needs a process of its own; NULL: it doesn't */
    _Atomic int n_begun, n_ended; /* processes that go back to snapshots; ended in a known way */
    _Atomic int busy;          /* processes that run, and don't wait for others */
    unsigned long free_choices, priced_choices; /* of that run */
    _Atomic unsigned long runs, cut, beyond, begun; /* beyond: choices that cost more than the bound; begun: that cost it */
    _Atomic unsigned long most_decisions, most_points, n_classes;
    _Atomic int n_racy;
    int n_active;              /* the first so many racy places are points */
    uint32_t racy[MAX_RACY];
    uint8_t is_point[1 << 16], is_racy[1 << 16];
    uint8_t is_update[1 << 16]; /* in a line that changes what it reads */
    Site sites[MAX_SITES];
    _Atomic uint64_t outcome_hashes[MAX_OUTCOMES]; /* by these each is found, and they take few pages */
    Outcome *outcomes;         /* MAX_OUTCOMES of them, each where its hash is */
    _Atomic unsigned long n_failed; /* runs that fail */
    _Atomic unsigned long n_limited; /* that the host didn't make to their end, and why the first of them */
    char limit[200];
    /* the first failure */
    _Atomic int has_failed;
    Schedule failed;
    int cost;
    char why[700];
} Shared;
extern Shared *shared;         /* NULL where no orders are explored */

/* explorer.c */
void place_races(uint32_t place);
bool is_update(uint32_t place);

/* shared_sets.c */
void empty_shared(void *memory, size_t size);    /* zeros again */
void make_set(Set *s);
void empty_set(Set *s);
bool put_in(Set *s, uint64_t hash);              /* whether it wasn't there */
bool put_with_rest(Set *s, uint64_t hash, int rest); /* whether it wasn't there with as large a rest; then it is now */
void write_set(const Set *s, FILE *out);

/* choices.c: which choices are made at a decision. */
int explore_choices(const Choices *c, uint32_t step);
int cost_of_run(void);
void begin_at_cost(int cost);

/* forking.c: the processes. */
typedef struct { uint8_t choice, cost; } ToMake;
void begin_exploring(void);
int fork_for_each(const ToMake *all, int n, int usual, uint32_t step);
void share_out(void);
void forget_helpers(void);
void end_exploring_run(void);

/* deciding.c */
void give_schedule(const Schedule *s);
bool schedule_misfits(void);
void go_by_chance(uint64_t seed);
bool goes_by_chance(void);

/* story.c */
void remember_fault(void);
const char *schedule_text(const Schedule *s);
bool read_schedule(const char *text, Schedule *s);

/* outcomes.c: how a run ended, and what is kept of it. */
void note_failure(const Schedule *s, int cost, const char *why);

#endif
