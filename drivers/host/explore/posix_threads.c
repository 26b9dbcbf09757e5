/* posix_threads.c: what a test calls of the system's threads. Under a schedule `run` renames the calls to these. */
#include "explore/schedule.h"
#include "ke/ke.h"
#include "record/record.h"
#include <sched.h>
#include <unistd.h>

static const WDM_SITE nowhere;

int wdm_pthread_create(pthread_t *t, const pthread_attr_t *a, void *(*run)(void *), void *context);
int wdm_pthread_create(pthread_t *t, const pthread_attr_t *a, void *(*run)(void *), void *context)
{
    if (!by_schedule)
        return pthread_create(t, a, run, context);
    *t = (pthread_t)start_by_schedule(run, context, "test thread", (void *)run, NULL) + 1;
    return 0;
}

static bool is_at_end(const void *t) { return has_ended((int)(intptr_t)t, NULL); }

int wdm_pthread_join(pthread_t t, void **result);
int wdm_pthread_join(pthread_t t, void **result)
{
    const int n = (int)t - 1;
    const Wait w = { .ready = is_at_end, .context = (void *)(intptr_t)n, .patience = DEADLOCK, .what = "pthread_join" };
    if (!by_schedule)
        return pthread_join(t, result);
    if (wait_for(&w) == STUCK)
        give_up("a thread that is joined never ends");
    has_ended(n, result);
    after_end_of(n);
    let_thread_go(n);
    return 0;
}

int wdm_pthread_detach(pthread_t t);
int wdm_pthread_detach(pthread_t t)
{
    if (!by_schedule)
        return pthread_detach(t);
    let_thread_go((int)t - 1);
    return 0;
}

pthread_t wdm_pthread_self(void);
pthread_t wdm_pthread_self(void) { return this_thread(); }
void wdm_pthread_exit(void *result);
void wdm_pthread_exit(void *result) { end_thread(result); }

/* Under a schedule the first word of a mutex is one more than the thread that holds it. */
static bool is_free(const void *m) { return !*(const int *)m; }

static void lock(pthread_mutex_t *m)
{
    const Wait w = { .ready = is_free, .context = m, .object = m, .patience = DEADLOCK, .what = "pthread_mutex_lock" };
    if (wait_for(&w) == STUCK)
        give_up("a mutex is never unlocked");
    *(int *)m = current_thread() + 1;
    touch(m, SYNCS);
}

int wdm_pthread_mutex_lock(pthread_mutex_t *m);
int wdm_pthread_mutex_lock(pthread_mutex_t *m)
{
    if (!by_schedule)
        return pthread_mutex_lock(m);
    point("pthread_mutex_lock", nowhere);
    lock(m);
    return 0;
}

int wdm_pthread_mutex_unlock(pthread_mutex_t *m);
int wdm_pthread_mutex_unlock(pthread_mutex_t *m)
{
    if (!by_schedule)
        return pthread_mutex_unlock(m);
    touch(m, SYNCS);
    *(int *)m = 0;
    return 0;
}

/* The first word of a condition counts how often it was told. */
typedef struct { const unsigned *told; unsigned before; } Ticket;
static bool was_told(const void *t) { return *((const Ticket *)t)->told != ((const Ticket *)t)->before; }

int wdm_pthread_cond_wait(pthread_cond_t *c, pthread_mutex_t *m);
int wdm_pthread_cond_wait(pthread_cond_t *c, pthread_mutex_t *m)
{
    const Ticket t = { (unsigned *)c, *(unsigned *)c };
    const Wait w = { .ready = was_told, .context = &t, .object = c, .patience = DEADLOCK, .what = "pthread_cond_wait" };
    if (!by_schedule)
        return pthread_cond_wait(c, m);
    wdm_pthread_mutex_unlock(m);
    if (wait_for(&w) == STUCK)
        give_up("a condition is never signalled");
    touch(c, SYNCS);
    lock(m);
    return 0;
}

/* A signal wakes all that wait: each of them may be the one. */
int wdm_pthread_cond_broadcast(pthread_cond_t *c);
int wdm_pthread_cond_broadcast(pthread_cond_t *c)
{
    if (!by_schedule)
        return pthread_cond_broadcast(c);
    point("pthread_cond_broadcast", nowhere);
    touch(c, SYNCS);
    ++*(unsigned *)c;
    return 0;
}

int wdm_pthread_cond_signal(pthread_cond_t *c);
int wdm_pthread_cond_signal(pthread_cond_t *c)
{
    return by_schedule ? wdm_pthread_cond_broadcast(c) : pthread_cond_signal(c);
}

int wdm_sched_yield(void);
int wdm_sched_yield(void)
{
    yield_to_others("sched_yield");
    return 0;
}

static bool never(const void *context)
{
    (void)context;
    return false;
}

static LONGLONG at_time(const void *time) { return *(const LONGLONG *)time; }

int wdm_usleep(useconds_t n);
int wdm_usleep(useconds_t n)
{
    if (!by_schedule)
        return usleep(n);
    const LONGLONG until = now_in_100ns() + (LONGLONG)n * 10;
    const Wait w = { .ready = never, .deadline = at_time, .context = &until, .patience = HANGS, .what = "usleep" };
    wait_for(&w);
    return 0;
}
