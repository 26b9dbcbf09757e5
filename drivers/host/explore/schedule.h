/*
 * schedule.h: runs by a schedule, for the files that make, follow, explore and tell schedules.
 *
 * One thread of a run goes on at a time. It may give way to another one at a point, in a wait, and at its end; never
 * while it holds G. A schedule says where it does otherwise than usual: usually a thread goes on as long as it can, then
 * the one with the lowest number, and time passes only where every thread waits.
 */
#ifndef DRIVERS_SCHEDULE_H
#define DRIVERS_SCHEDULE_H

#include "explore/explore.h"

enum { FEW_THREADS = 8, MAX_THREADS = 32, MAX_DEVIATIONS = 4096, MAX_SWITCHES = 1 << 14 };
typedef enum { AT_POINT, AT_YIELD, AT_WAIT, AT_END } Stop;

/* schedule.c: the coroutines. */
void begin_schedule(void);
bool has_ended(int thread, void **result);
void after_end_of(int thread);
const char *thread_name(int thread);
int points_of_run(void);
int threads_of_run(void);

/* coroutines.c */
void map_stacks(void); /* of all threads that there may be */
void note_main_stack(void);
void make_coroutine(int thread, void (*begin)(void));
void switch_coroutines(int from, int to);

typedef struct { const char *what; WDM_SITE at; const void *pc; } Place;

/* What may go on, where more than one thread can or where time may pass early. A choice is a thread's number. */
typedef struct {
    Stop stop;
    int current, usual;
    int by_time;    /* who goes on first where time passes, or NOBODY */
    uint32_t ready; /* a bit for each thread that can go on without that */
    bool may_stay;  /* the current thread can: another choice is a preemption */
    const Place *place;
} Choices;
static inline bool is_early(const Choices *c, int choice) { return choice == c->by_time && !(c->ready >> choice & 1); }

/* deciding.c: which choice is made. */
typedef struct { uint32_t step; uint8_t choice; } Deviation;
typedef struct { Deviation at[MAX_DEVIATIONS]; int n; } Schedule;
extern Schedule followed; /* what this run has done otherwise than usual */
extern int n_decisions;
int decide(const Choices *c);
int price_of(const Choices *c, int choice); /* 1 where it is a preemption, or lets time pass early */
static inline bool can_choose(const Choices *c, int t) { return (c->ready >> t & 1) || t == c->by_time; }

/* story.c: who gave way to whom and where. */
void remember_switch(const Choices *c, int to, const Place *next);
void tell_story(FILE *out);

/* footprint.c: what came before what. Two runs whose states are equal differ in nothing but the order of what can change
   places. */
void look_no_further(const char *why);
uint64_t state_of(int n_threads);
uint64_t state_of_run(void);
void thread_born(int parent, int child);
void time_passed_for(int thread, const LONGLONG *clock);
void clock_read_by(int thread, const LONGLONG *clock);
void map_host_memory(void);

/* racing.c: which plain accesses race, by what happened before what; and memory that was let go. */
void clocks_born(int parent, int child);
void clocks_meet(uint32_t *of_few, uint32_t *of_others, Touch how);

/* hooks.c */
extern bool hooks_present;

#endif
