/* explore.h: what the host does where another thread may go on, and what an exploration learns of that. */
#ifndef DRIVERS_EXPLORE_EXPLORE_H
#define DRIVERS_EXPLORE_EXPLORE_H

#include "host.h"
#include <signal.h>

/* choices.c */
extern bool is_exploring; /* this process forks at decisions */

/* coroutines.c */
void stack_by_schedule(int thread, uintptr_t *low, uintptr_t *high);

/* footprint.c */
extern bool footprints;
void passed(const char *what, int line);
uint64_t next_name(void);
void touch(const void *object, Touch how);
/* The same of memory that a driver or test may touch itself. */
void touch_memory(const void *from, size_t size, Touch how);
/* Memory of zeros, or NULL. Under a schedule its address is the same in each order, and it is used only once. */
void *host_memory(size_t size);
void free_host_memory(void *memory);
void *resize_host_memory(void *memory, size_t size);

/* forking.c */
void end_process_of_snapshots(void);

/* outcomes.c */
bool wants_transcript(void);
void hand_in(uint64_t transcripts_hash, size_t entries);
void note_fault(const char *text);
__attribute__((noreturn)) void end_run(int status);

/* racing.c */
void access_to(const void *cell, bool writes, const void *pc, bool is_plain);
/* Memory that is let go: who uses it from now on is told, where accesses are seen. `what` is kept. */
void let_go_of(const void *from, size_t size, const char *what, WDM_SITE at);

/* schedule.c */
extern bool by_schedule;
int current_thread(void);
LONGLONG virtual_now(void);
bool is_one_processor(void);
Woken wait_by_schedule(const Wait *w);
void point_by_schedule(const char *what, WDM_SITE at, const void *pc);
void yield_by_schedule(const char *what);
int start_by_schedule(void *(*run)(void *), void *context, const char *kind, void *fn, const Wait *first);
__attribute__((noreturn)) void end_by_schedule(void *result);
void let_thread_go(int thread); /* its end isn't asked for any more: once it has ended, another one gets its place */
void tell_threads(void);

/* shared_sets.c */
void *share(size_t size); /* zeros, for all processes */

/* snapshots.c */
extern bool by_snapshots;
void go_back_if_any(void); /* a run has ended: where choices are left, doesn't return */
void chain_handler(void (*handler)(int, siginfo_t *, void *)); /* of faults that aren't for snapshots */

/* story.c */
void add_switches(void); /* for the file beside the transcript */

/* tracking.c */
void *kept_apart(size_t size); /* zeros, in memory that isn't put back */

#endif
