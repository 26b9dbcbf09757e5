/*
 * threads.h: what threads wait for, and how they touch objects.
 *
 * A run has real threads; or all its threads are coroutines on one thread of the system, and which of them goes on is
 * decided by a schedule (schedule.c). The rest of the host doesn't know which of both it is.
 */
#ifndef DRIVERS_THREADS_H
#define DRIVERS_THREADS_H

#include "wdm_io.h"
#include <pthread.h>

typedef struct Wait Wait;

/* Something that threads wait for, and the lock under which it changes. Who changes it tells the waiters. */
typedef struct { pthread_mutex_t *lock; pthread_cond_t told; } Condition;

/* OVERDUE: a wait without an end lasts very long, though other threads go on. Who waits may wait again. */
typedef enum { READY, TIME_UP, STUCK, OVERDUE } Woken;
/* What a wait is, where no thread can go on: the first of them in this order ends, with STUCK. */
typedef enum {
    GIVES_IN, /* the host does without what it waits for */
    HANGS,    /* a driver or a test waits for what nobody does */
    DEADLOCK, /* for a lock, or for a thread's end */
    IDLES     /* for work: it never ends so, and isn't told */
} Patience;

struct Wait {
    bool (*ready)(const void *context);        /* whether the wait is over; asked in the waiter's name */
    LONGLONG (*deadline)(const void *context); /* NULL, or when it ends without that, in 100 ns; 0: never */
    const void *context;
    Condition *on;      /* whose lock the waiter holds, and gives back meanwhile; NULL: no lock, it looks again */
    const void *object; /* what is named where no thread can go on, or NULL */
    Patience patience;
    int seconds;        /* how long a real thread waits where nothing goes on; 0: WDM_PATIENCE */
    const char *what;   /* the call */
    WDM_SITE at;
};

/* A step of this thread touches an object of the host or of a driver. What touches nothing in common may change places. */
typedef enum {
    READS,
    WRITES,
    ACQUIRES, /* reads, and what happened before its last release happened before what follows here */
    MEETS,    /* may change places with another MEETS, not with SYNCS; what came before one came before the next */
    SYNCS     /* writes, acquires and releases */
} Touch;

#endif
