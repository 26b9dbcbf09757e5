/* own.h: what only the files of this folder call. */
#ifndef DRIVERS_RECORD_OWN_H
#define DRIVERS_RECORD_OWN_H

#include "record/record.h"

/* Which functions the numbers in the transcript's tables stand for; routines by their rule. */
typedef struct {
    void *dispatches[MAX_IDS], *cancels[MAX_IDS], *routines[5][MAX_IDS];
    int n_dispatches, n_cancels, n_routines[5];
} Ids;

/* entry_places.c */
void begun_here(Entry *e);

/* told_lines.c: what the host told: a fault, a note, or a line of what it tells of a run that stands still. */
typedef struct {
    const char *kind, *name, *known, *where, *said; /* known: of a fault, how others know it, or NULL */
    const Packet *p;
    const int *times;
} Telling;
void remember_told(const Telling *t);
void add_told(void);

/* hangs.c */
const char *packet_at(int device);

/* last_words.c */
const void *loop_of_others(char *text, size_t size);
__attribute__((noreturn)) void stop_here(const char *why, const void *const *at, int n, const Frame *in, const char *hint);
__attribute__((noreturn)) void end_at(const char *why);

/* leaving.c */
void watch_for_jumps_and_forks(void);

/* transcript.c */
extern Ids ids;
const char *op_name(Op op);
void add_words(void);

#endif
