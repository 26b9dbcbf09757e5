/* schedule.c: threads as coroutines on one thread of the system, and time that passes only where it is chosen. */
#include "explore/schedule.h"
#include "ke/ke.h"
#include "record/record.h"
#include "rules/rules.h"

enum { MOST_STUCK = 50, MOST_SPINS = 100 };
enum { OVERDUE_SECONDS = 60, OVERDUE_POINTS = 20000, LOOK_EVERY = 1024 }; /* after which a wait is overdue */
typedef struct {
    Self self;
    Wait wait;
    LONGLONG since; /* when that wait began, and at which point */
    int since_point;
    bool waits, ended, is_let_go; /* is_let_go: nobody asks for its end any more */
    Woken woken;
    Place place;
    void *(*run)(void *);
    void *argument, *result;
    const char *name;
} Thread;

bool by_schedule;
static Thread threads[MAX_THREADS];
static int n_threads = 1, n_born, running, n_points, n_stuck;
static LONGLONG clock_now = 133000000000000000;
static bool is_deciding;

int current_thread(void) { return running; }
int points_of_run(void) { return n_points; }
int threads_of_run(void) { return n_threads; }
const char *thread_name(int t) { return threads[t].name; }

LONGLONG virtual_now(void)
{
    touch(&clock_now, READS);
    return clock_now;
}

bool has_ended(int t, void **result)
{
    if (result && threads[t].ended)
        *result = threads[t].result;
    return threads[t].ended;
}

void after_end_of(int t) { touch(&threads[t], SYNCS); }

void let_thread_go(int t) { threads[t].is_let_go = true; }

/* A waiter's own question, asked in its name. */
static bool is_over(const Thread *t)
{
    const Self mine = self;
    const int me = running;
    if (t == &threads[me])
        return t->wait.ready(t->wait.context);
    self = t->self;
    running = (int)(t - threads);
    const bool over = t->wait.ready(t->wait.context);
    self = mine;
    running = me;
    return over;
}

static LONGLONG deadline_of(const Thread *t)
{
    return t->waits && !t->ended && t->wait.deadline ? t->wait.deadline(t->wait.context) : 0;
}

static bool can_go_on(const Thread *t)
{
    const LONGLONG end = deadline_of(t);
    return !t->ended && (!t->waits || (end && end <= clock_now) || is_over(t));
}

/* With WDM_ONE_PROCESSOR a deferred call preempts whoever it comes to, who goes on once it has returned; and nobody below
   DISPATCH_LEVEL goes on while somebody is there. */
bool is_one_processor(void)
{
    return options.has_one_processor;
}

static KIRQL level_at(int t) { return t == running ? self.irql : threads[t].self.irql; }
static bool is_high(int t) { return level_at(t) >= DISPATCH_LEVEL && !threads[t].ended; }

/* Of those, the ones that the one processor lets go on: all, or where a thread is at DISPATCH_LEVEL, only that one. */
static uint32_t let_go_on(uint32_t ready)
{
    uint32_t high = 0;
    for (int i = 0; i < n_threads; i++)
        high |= (uint32_t)is_high(i) << i;
    return high ? ready & high : ready;
}

static uint32_t all_ready(void)
{
    uint32_t ready = 0;
    for (int i = 0; i < n_threads; i++)
        ready |= (uint32_t)can_go_on(&threads[i]) << i;
    return is_one_processor() ? let_go_on(ready) : ready;
}

/* Who goes on first where time passes, or NOBODY. */
static int first_by_time(uint32_t ready)
{
    int first = NOBODY;
    LONGLONG least = 0;
    for (int i = 0; i < n_threads; i++) {
        const bool may = !is_one_processor() || let_go_on(1u << i);
        const LONGLONG end = ready >> i & 1 || !may ? 0 : deadline_of(&threads[i]);
        if (end && (first == NOBODY || end < least)) {
            first = i;
            least = end;
        }
    }
    return first;
}

/* What a thread waits for. Returns how long the text is. */
static size_t put_wait(const Thread *t, char *text, size_t room)
{
    int seat;
    const Hold *h = t->wait.object ? holder_of(t->wait.object, &seat) : NULL;
    int n = snprintf(text, room, "%s waits in %s%s%s", t->name, t->wait.what, t->wait.at.file ? " at " : "",
                     t->wait.at.file ? place(t->wait.at) : "");
    if (h && n > 0 && (size_t)n < room)
        n += snprintf(text + n, room - (size_t)n, " for a %s that %s has held since %s", lock_kind(h->kind),
                      threads[seat].name, place(h->at));
    return n < 0 ? 0 : (size_t)n;
}

static bool waits_for_something(const Thread *t) { return !t->ended && t->waits && t->wait.patience != IDLES; }

/* A line for each other thread that doesn't wait for work. */
void tell_threads(void)
{
    char text[400];
    for (int i = 0; i < n_threads; i++)
        if (i != running && waits_for_something(&threads[i])) {
            put_wait(&threads[i], text, sizeof text);
            say("  %s", text);
        }
}

/* No thread can go on, and one of them waits for a lock. */
static void tell_stuck(void)
{
    char text[1500] = "";
    size_t n = 0;
    for (int i = 0; i < n_threads && n < sizeof text; i++)
        if (waits_for_something(&threads[i])) {
            n += (size_t)snprintf(text + n, sizeof text - n, n ? "; " : "");
            n += put_wait(&threads[i], text + n, n < sizeof text ? sizeof text - n : 0);
        }
    Call here = { .name = "every thread waits" }, *const calls = self.calls;
    self.calls = &here;
    fault("Stuck", NULL, "%s", text);
    self.calls = calls;
}

/* Ends the wait of whoever gives in first. */
static int choose_stuck(void)
{
    int best = NOBODY;
    for (int i = 0; i < n_threads; i++)
        if (threads[i].waits && !threads[i].ended && threads[i].wait.patience != IDLES &&
            (best == NOBODY || threads[i].wait.patience < threads[best].wait.patience))
            best = i;
    if (best == NOBODY || n_stuck++ == MOST_STUCK)
        give_up("no thread can go on");
    if (threads[best].wait.patience == DEADLOCK)
        tell_stuck();
    threads[best].woken = STUCK;
    return best;
}

/* The next thread in turn that can go on. */
static int next_in_turn(uint32_t others)
{
    int t = running;
    do
        t = (t + 1) % n_threads;
    while (!(others >> t & 1));
    return t;
}

static Choices choices_at(Stop stop)
{
    const uint32_t ready = all_ready(), others = ready & ~(1u << running);
    Choices c = { .stop = stop, .current = running, .by_time = first_by_time(ready), .ready = ready,
                  .place = &threads[running].place };
    if (stop == AT_YIELD && (others || c.by_time != NOBODY))
        c.ready = others;
    c.may_stay = stop == AT_POINT;
    if (c.may_stay || (stop == AT_YIELD && !others && c.by_time == NOBODY))
        c.usual = running;
    else if (others)
        c.usual = stop == AT_YIELD ? next_in_turn(others) : __builtin_ctz(others);
    else
        c.usual = c.by_time != NOBODY ? c.by_time : choose_stuck();
    return c;
}

static void let_time_pass(int t)
{
    const LONGLONG end = deadline_of(&threads[t]);
    if (end > clock_now)
        clock_now = end;
    time_passed_for(t, &clock_now);
}

static void go_to(int t)
{
    Thread *was = &threads[running];
    if (t == running)
        return;
    was->self = self;
    running = t;
    self = threads[t].self;
    switch_coroutines((int)(was - threads), t);
}

uint64_t state_of_run(void) { return state_of(n_threads); }

/* A thread that waits very long without an end while others go on, or NOBODY. */
static int overdue(void)
{
    for (int i = 0; i < n_threads && n_points % LOOK_EVERY == 0; i++) {
        const Thread *t = &threads[i];
        if (waits_for_something(t) && t->wait.patience <= HANGS && !deadline_of(t) &&
            clock_now - t->since > OVERDUE_SECONDS * 10000000LL && n_points - t->since_point > OVERDUE_POINTS)
            return i;
    }
    return NOBODY;
}

/* Who goes on, where it isn't one whose wait is overdue. */
static int chosen_of(const Choices *c)
{
    const int n = __builtin_popcount(c->ready) + (c->by_time != NOBODY && c->ready), late = overdue();
    if (late == NOBODY)
        return n > 1 ? decide(c) : c->usual;
    threads[late].woken = OVERDUE;
    return late;
}

/* The one place where it is decided who goes on. */
static void choose(Stop stop)
{
    if (n_points++ == most_points())
        reach_limit("the run has as many scheduling points as --points says: it may never end");
    is_deciding = true;
    const Choices c = choices_at(stop);
    const int chosen = chosen_of(&c);
    const bool by_time = is_early(&c, chosen);
    Thread *t = &threads[chosen];
    if (by_time)
        let_time_pass(chosen);
    if (t->waits && t->woken != STUCK && t->woken != OVERDUE)
        t->woken = is_over(t) ? READY : TIME_UP;
    if (t->waits && t->woken == TIME_UP && !by_time)
        clock_read_by(chosen, &clock_now); /* time passed for another one */
    t->waits = false;
    if (chosen != running || by_time)
        remember_switch(&c, chosen, &t->place);
    is_deciding = false;
    go_to(chosen);
}

static void stop_at(Stop stop, Place place)
{
    threads[running].place = place;
    choose(stop);
    passed(place.what, place.pc ? (int)(uintptr_t)place.pc : place.at.line);
}

void point_by_schedule(const char *what, WDM_SITE at, const void *pc)
{
    if (!is_deciding)
        stop_at(AT_POINT, (Place){ what, at, pc });
}

/* On one processor a thread at DISPATCH_LEVEL waits for nobody below it. */
static void tell_spinning(const char *what)
{
    static int n_spins;
    if (!is_one_processor() || !is_high(running) || n_spins++ < MOST_SPINS)
        return;
    Call here = { .name = what }, *const calls = self.calls;
    self.calls = &here;
    fault("Stuck", NULL, "it waits at DISPATCH_LEVEL for what another thread does, which this processor doesn't let go on");
    self.calls = calls;
    give_up("no thread can go on");
}

void yield_by_schedule(const char *what)
{
    tell_spinning(what);
    stop_at(AT_YIELD, (Place){ .what = what });
}

Woken wait_by_schedule(const Wait *w)
{
    Thread *t = &threads[running];
    t->wait = *w;
    t->since = clock_now;
    t->since_point = n_points;
    t->woken = READY;
    if (w->ready(w->context)) {
        passed(w->what, READY); /* as if it had waited: both come to the same */
        return READY;
    }
    t->waits = true;
    t->place = (Place){ .what = w->what, .at = w->at };
    if (can_go_on(t)) {
        t->waits = false;
        touch(&clock_now, READS);
        passed(w->what, TIME_UP);
        return TIME_UP;
    }
    choose(AT_WAIT);
    const Woken woken = t->woken;
    passed(w->what, (int)woken);
    return woken;
}

static void begin_thread(void)
{
    Thread *t = &threads[running];
    passed("its start", 1);
    end_by_schedule(t->run(t->argument));
}

/* By its number among all that were ever made: its place may have been another one's. */
static void name_thread(int n, const char *kind, void *fn)
{
    char name[80];
    snprintf(name, sizeof name, "T%d, %s%s%s", n_born++, kind, fn ? " " : "", fn ? function_name(fn) : "");
    threads[n].name = strdup(name);
    if (!threads[n].name)
        give_up("out of memory");
}

/* A place for a new thread. Where all were given it is one whose thread has ended: what that did comes before. */
static int place_for_thread(void)
{
    if (n_threads < MAX_THREADS)
        return n_threads++;
    for (int n = 1; n < MAX_THREADS; n++) {
        touch(&threads[n], SYNCS);
        if (!threads[n].ended || !threads[n].is_let_go)
            continue;
        threads[n] = (Thread){ 0 };
        return n;
    }
    reach_limit("more than 32 threads at once under a schedule: let its test begin fewer");
}

/* A thread that begins with a wait may be given it, and so be there before it has run. */
int start_by_schedule(void *(*run)(void *), void *context, const char *kind, void *fn, const Wait *first)
{
    const int n = place_for_thread();
    Thread *t = &threads[n];
    t->run = run;
    t->argument = context;
    t->place = (Place){ .what = "its start" };
    t->self = (Self){ .seat = -1, .driver = NOBODY, .device = NOBODY };
    t->waits = first != NULL;
    if (first)
        t->wait = *first;
    make_coroutine(n, begin_thread);
    name_thread(n, kind, fn);
    touch(&n_threads, SYNCS);
    thread_born(running, n);
    return n;
}

void end_by_schedule(void *result)
{
    Thread *t = &threads[running];
    t->result = result;
    t->ended = true;
    t->place = (Place){ .what = "ends" };
    touch(t, SYNCS);
    give_seat_back();
    choose(AT_END);
    abort();
}

void begin_schedule(void)
{
    note_main_stack();
    by_schedule = true;
    name_thread(0, "main", NULL);
}
