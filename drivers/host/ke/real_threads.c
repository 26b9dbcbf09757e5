/* real_threads.c: waits of real threads, and the clock. Under a schedule schedule.c takes over. */
#include "ke/own.h"
#include "explore/explore.h"
#include "test/test.h"
#include <dirent.h>
#include <errno.h>
#include <sched.h>
#include <sys/syscall.h>
#include <unistd.h>

enum { LOOK_AGAIN = 100 }; /* milliseconds after which a waiter looks whether anything goes on */
enum { MANY_TIMES = 10 };  /* so many times its patience a thread waits while others go on */
static const LONGLONG UNIX_EPOCH = 116444736000000000; /* in 100 ns from 1601 */
static _Atomic int sleepers; /* waits with a limit that go on, and threads that a seed lets sleep */

LONGLONG now_in_100ns(void)
{
    struct timespec t;
    if (by_schedule)
        return virtual_now();
    clock_gettime(CLOCK_REALTIME, &t);
    return (LONGLONG)t.tv_sec * 10000000 + t.tv_nsec / 100 + UNIX_EPOCH;
}

void tell_waiters(Condition *c) { pthread_cond_broadcast(&c->told); }

/* Since when nothing goes on in the host, as this waiter saw it, and since when it waits; when it looked last, and what
   processors had worked for the program since nothing goes on. */
typedef struct { unsigned long seen; LONGLONG since, began, looked, worked; } Quiet;

static LONGLONG processor_time(void)
{
    struct timespec t;
    clock_gettime(CLOCK_PROCESS_CPUTIME_ID, &t);
    return (LONGLONG)t.tv_sec * 10000000 + t.tv_nsec / 100;
}

/* The state of a thread as the system has it: the letter behind its name. */
static char letter_of(const char *thread)
{
    char path[64], text[256];
    snprintf(path, sizeof path, "/proc/self/task/%.20s/stat", thread);
    FILE *in = fopen(path, "r");
    const size_t n = in ? fread(text, 1, sizeof text - 1, in) : 0;
    text[n] = 0;
    if (in)
        fclose(in);
    const char *behind = strrchr(text, ')');
    return behind && behind[1] == ' ' ? behind[2] : '?';
}

/* Whether another thread could run: it has a processor, waits for one, or for its memory. */
static bool another_can_run(void)
{
    const long own = syscall(SYS_gettid);
    bool found = false;
    DIR *all = opendir("/proc/self/task");
    for (const struct dirent *it; all && !found && (it = readdir(all));)
        found = atol(it->d_name) > 0 && atol(it->d_name) != own && strchr("RD", letter_of(it->d_name));
    if (all)
        closedir(all);
    return found;
}

/* For how long nothing has to go on, in 100 ns, before a wait is over. Where a packet is lost the wait is most likely for
   that one: so a driver that loses each packet is told of soon. */
static LONGLONG quiet_time(const Wait *w)
{
    const LONGLONG second = 10000000;
    if (w->seconds)
        return w->seconds * second;
    return options.patience * second / (packets_lost > 0 ? 10 : 1);
}

/* Where this thread got no processor for a while it looks too late. That time doesn't count: the others got none either. */
static void note_look(Quiet *q, LONGLONG time)
{
    const LONGLONG late = q->looked ? time - q->looked - 2 * LOOK_AGAIN * 10000 : 0;
    if (late > 0) {
        q->began += late;
        q->since += late;
    }
    q->looked = time;
    if (!q->began)
        q->began = time;
}

/* READY where it goes on to wait. A thread that could run, and gets no processor, isn't stuck; one that runs for ever is. */
static Woken patience_is_over(const Wait *w, bool has_limit, Quiet *q)
{
    const unsigned long now = __atomic_load_n(&host_activity, __ATOMIC_SEQ_CST);
    const LONGLONG time = now_in_100ns(), second = 10000000;
    if (w->patience == IDLES || has_limit)
        return READY;
    note_look(q, time);
    if (!q->since || ((now != q->seen || sleepers || timers_armed()) && !w->seconds)) {
        q->since = time;
        q->seen = now;
        q->worked = processor_time();
    }
    if (time - q->since > quiet_time(w))
        return another_can_run() && processor_time() - q->worked < quiet_time(w) ? READY : STUCK;
    return w->patience <= HANGS && time - q->began > MANY_TIMES * options.patience * second ? OVERDUE : READY;
}

/* Waits for a moment, or until it is told. */
static void pause_for(const Wait *w, LONGLONG until)
{
    const LONGLONG again = now_in_100ns() + LOOK_AGAIN * 10000, first = until && until < again ? until : again;
    const struct timespec t = { (first - UNIX_EPOCH) / 10000000, (first - UNIX_EPOCH) % 10000000 * 100 };
    if (!w->on)
        sched_yield();
    else if (w->patience == IDLES && !until)
        pthread_cond_wait(&w->on->told, w->on->lock);
    else
        pthread_cond_timedwait(&w->on->told, w->on->lock, &t);
}

static Woken wait_really(const Wait *w)
{
    Quiet quiet = { 0 };
    Woken woken = READY;
    bool counts = false;
    self.wait = w;
    while (!w->ready(w->context)) {
        waits_now();
        const LONGLONG until = w->deadline ? w->deadline(w->context) : 0;
        if (until && until <= now_in_100ns()) {
            woken = TIME_UP;
            break;
        }
        if (until && w->patience != IDLES && !counts) {
            counts = true;
            sleepers++;
        }
        woken = patience_is_over(w, until != 0, &quiet);
        if (woken != READY)
            break;
        pause_for(w, until);
    }
    sleepers -= counts;
    self.wait = NULL;
    return woken;
}

Woken wait_for(const Wait *w)
{
    if (!by_schedule)
        return wait_really(w);
    if (w->on)
        pthread_mutex_unlock(w->on->lock);
    const Woken woken = wait_by_schedule(w);
    if (w->on)
        pthread_mutex_lock(w->on->lock);
    return woken;
}

/* With a seed a real thread yields or sleeps for a moment now and then, so that threads mix. */
static void shake(void)
{
    if (!options.shake || self.seat < 0)
        return;
    if (!self.chance)
        self.chance = (unsigned)options.shake * 2654435761u + (unsigned)self.seat + 1;
    const unsigned r = (unsigned)rand_r(&self.chance) % 16;
    if (r < 4)
        sched_yield();
    else if (r == 15) {
        sleepers++; /* a processor that is taken away wakes nobody */
        usleep((unsigned)rand_r(&self.chance) % 200);
        sleepers--;
    }
}

void point(const char *what, WDM_SITE at)
{
    if (by_schedule)
        point_by_schedule(what, at, NULL);
    else
        shake();
}

void yield_to_others(const char *what)
{
    if (by_schedule)
        yield_by_schedule(what);
    else
        sched_yield();
}
