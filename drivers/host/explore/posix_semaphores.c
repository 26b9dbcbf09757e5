/* posix_semaphores.c: semaphores, locks for readers and writers, and waits with a limit, of a test; as posix_threads.c. */
#include "explore/explore.h"
#include "ke/ke.h"
#include "record/record.h"
#include <errno.h>
#include <semaphore.h>
#include <time.h>

static const WDM_SITE nowhere;
int wdm_pthread_mutex_lock(pthread_mutex_t *m);
int wdm_pthread_mutex_unlock(pthread_mutex_t *m);

/* Waits for what is ready by its first word. */
static void wait_on(bool (*ready)(const void *), const void *object, const char *what)
{
    const Wait w = { .ready = ready, .context = object, .object = object, .patience = DEADLOCK, .what = what };
    point(what, nowhere);
    if (wait_for(&w) == STUCK)
        give_up("a lock or semaphore of the test is never given back");
    touch(object, SYNCS);
}

static int *word_of_it(const void *object) { return (int *)object; }
static bool is_nobodys(const void *m) { return !*word_of_it(m); }

int wdm_pthread_mutex_trylock(pthread_mutex_t *m);
int wdm_pthread_mutex_trylock(pthread_mutex_t *m)
{
    if (!by_schedule)
        return pthread_mutex_trylock(m);
    point("pthread_mutex_trylock", nowhere);
    touch(m, SYNCS);
    if (!is_nobodys(m))
        return EBUSY;
    *word_of_it(m) = current_thread() + 1;
    return 0;
}

/* Under a schedule the first word of a semaphore is its count. glibc keeps a count there too, so sem_init is its own. */
static bool has_count(const void *s) { return *word_of_it(s) > 0; }

int wdm_sem_wait(sem_t *s);
int wdm_sem_wait(sem_t *s)
{
    if (!by_schedule)
        return sem_wait(s);
    wait_on(has_count, s, "sem_wait");
    --*word_of_it(s);
    return 0;
}

int wdm_sem_trywait(sem_t *s);
int wdm_sem_trywait(sem_t *s)
{
    if (!by_schedule)
        return sem_trywait(s);
    point("sem_trywait", nowhere);
    touch(s, SYNCS);
    if (has_count(s)) {
        --*word_of_it(s);
        return 0;
    }
    errno = EAGAIN;
    return -1;
}

int wdm_sem_post(sem_t *s);
int wdm_sem_post(sem_t *s)
{
    if (!by_schedule)
        return sem_post(s);
    point("sem_post", nowhere);
    touch(s, SYNCS);
    ++*word_of_it(s);
    return 0;
}

/* Under a schedule the first word of such a lock counts its readers; -1 is a writer. */
static bool has_no_writer(const void *l) { return *word_of_it(l) >= 0; }

int wdm_pthread_rwlock_rdlock(pthread_rwlock_t *l);
int wdm_pthread_rwlock_rdlock(pthread_rwlock_t *l)
{
    if (!by_schedule)
        return pthread_rwlock_rdlock(l);
    wait_on(has_no_writer, l, "pthread_rwlock_rdlock");
    ++*word_of_it(l);
    return 0;
}

int wdm_pthread_rwlock_wrlock(pthread_rwlock_t *l);
int wdm_pthread_rwlock_wrlock(pthread_rwlock_t *l)
{
    if (!by_schedule)
        return pthread_rwlock_wrlock(l);
    wait_on(is_nobodys, l, "pthread_rwlock_wrlock");
    *word_of_it(l) = -1;
    return 0;
}

int wdm_pthread_rwlock_unlock(pthread_rwlock_t *l);
int wdm_pthread_rwlock_unlock(pthread_rwlock_t *l)
{
    if (!by_schedule)
        return pthread_rwlock_unlock(l);
    touch(l, SYNCS);
    *word_of_it(l) = *word_of_it(l) < 0 ? 0 : *word_of_it(l) - 1;
    return 0;
}

/* Times of the system count from 1970, in the host's clock. */
static LONGLONG time_of(const struct timespec *t) { return (LONGLONG)t->tv_sec * 10000000 + t->tv_nsec / 100; }

typedef struct { const unsigned *told; unsigned before; LONGLONG until; } Ticket;
static bool was_told(const void *t) { return *((const Ticket *)t)->told != ((const Ticket *)t)->before; }
static LONGLONG until_of(const void *t) { return ((const Ticket *)t)->until; }

/* The limit is by the system's clock: what is left of it passes by the schedule's. */
int wdm_pthread_cond_timedwait(pthread_cond_t *c, pthread_mutex_t *m, const struct timespec *limit);
int wdm_pthread_cond_timedwait(pthread_cond_t *c, pthread_mutex_t *m, const struct timespec *limit)
{
    struct timespec now;
    if (!by_schedule)
        return pthread_cond_timedwait(c, m, limit);
    clock_gettime(CLOCK_REALTIME, &now);
    const LONGLONG left = (time_of(limit) - time_of(&now) + 500000) / 1000000 * 1000000; /* to a tenth of a second */
    const Ticket t = { (unsigned *)c, *(unsigned *)c, now_in_100ns() + (left > 0 ? left : 0) };
    const Wait w = { .ready = was_told, .deadline = until_of, .context = &t, .object = c, .patience = HANGS,
                     .what = "pthread_cond_timedwait" };
    wdm_pthread_mutex_unlock(m);
    const Woken woken = wait_for(&w);
    touch(c, SYNCS);
    wdm_pthread_mutex_lock(m);
    return woken == READY ? 0 : ETIMEDOUT;
}

static bool never(const void *context)
{
    (void)context;
    return false;
}

static LONGLONG at_time(const void *time) { return *(const LONGLONG *)time; }

int wdm_nanosleep(const struct timespec *length, struct timespec *left);
int wdm_nanosleep(const struct timespec *length, struct timespec *left)
{
    if (!by_schedule)
        return nanosleep(length, left);
    const LONGLONG until = now_in_100ns() + time_of(length);
    const Wait w = { .ready = never, .deadline = at_time, .context = &until, .patience = HANGS, .what = "nanosleep" };
    wait_for(&w);
    return 0;
}
