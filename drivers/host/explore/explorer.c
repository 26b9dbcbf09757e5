/*
 * explorer.c: makes every order within a bound, or one that is given, from before `main` on.
 *
 * WDM_EXPLORE is the most preemptions (-1: only the run by the usual order), WDM_SCHEDULE a schedule, WDM_CHANCE a seed.
 * With WDM_FURTHER one preemption more is allowed where that is quick; WDM_FORKS says why there are no snapshots. WDM_UPDATES
 * has the places in lines that change what they read, as `x += 1`. `run` sets them, and reads the report.
 */
#include "explore/snapshots.h"
#include "record/record.h"
#include "test/test.h"
#include <fcntl.h>
#include <sys/mman.h>
#include <sys/wait.h>
#include <unistd.h>

enum { MOST_PREEMPTIONS = 16, SECONDS_TO_END = 20 };
typedef enum { ALL_MADE, FAILED, STOPPED } Ended;
typedef enum { TO_NEXT, AGAIN, FROM_FIRST, TOO_LONG, IN_CHILD } Next; /* what comes after a round */
Shared *shared;
static FILE *report;
static double began, most_seconds, round_began, round_ends; /* of a round: seconds since it all began */
static unsigned long expected; /* how many choices cost the whole bound, as the round before saw it */
static int n_restarts;
static bool is_child; /* this process goes on into `main` */
extern char __executable_start;

static double seconds(void)
{
    struct timespec t;
    clock_gettime(CLOCK_MONOTONIC, &t);
    return (double)t.tv_sec + (double)t.tv_nsec / 1e9;
}

/* A place whose access was seen to race is a point from the next start on. */
void place_races(uint32_t place)
{
    if (!place || shared->is_racy[(uint16_t)place])
        return;
    shared->is_point[(uint16_t)place] |= goes_by_chance();
    if (!is_exploring)
        return;
    shared->is_racy[(uint16_t)place] = 1;
    const int n = shared->n_racy++;
    if (n >= MAX_RACY)
        return;
    shared->racy[n] = place;
    shared->order = TO_START_OVER;
}

bool is_update(uint32_t place) { return place && shared && shared->is_update[(uint16_t)place]; }

static void learn_updates(void)
{
    const char *at = options.updates;
    for (char *end; at && *at; at = *end ? end + 1 : end)
        shared->is_update[(uint16_t)strtoul(at, &end, 16)] = 1;
}

static void begin_round(int bound)
{
    empty_set(&shared->states);
    empty_set(&shared->classes);
    empty_shared(shared->outcomes, MAX_OUTCOMES * sizeof *shared->outcomes);
    memset((void *)shared->outcome_hashes, 0, sizeof shared->outcome_hashes);
    shared->bound = bound;
    shared->order = GOES_ON;
    shared->busy = 1;
    shared->n_begun = shared->n_ended = 0;
    shared->runs = shared->cut = shared->beyond = shared->begun = shared->n_classes = shared->n_failed = 0;
    shared->n_active = shared->n_racy < MAX_RACY ? shared->n_racy : MAX_RACY;
    memcpy(shared->is_point, shared->is_racy, sizeof shared->is_point);
}

/* What many runs say is for nobody. */
static void silence(void)
{
    const int nowhere = open("/dev/null", O_WRONLY);
    dup2(nowhere, 1);
    dup2(nowhere, 2);
    be_silent();
}

static void at_exit(int status, void *context)
{
    (void)context;
    end_run(status);
}

static void go_on_into_main(void)
{
    is_child = true;
    footprints = hooks_present;
    on_exit(at_exit, NULL);
    begin_schedule();
}

static void show_progress(void)
{
    static double shown;
    const double now = seconds();
    if (!isatty(2) || now - shown < 0.5)
        return;
    shown = now;
    const unsigned long share = expected ? shared->begun * 100 / expected : 0;
    fprintf(stderr, "\r%d preemptions: %lu runs, about %lu %%, %.0f s ", shared->bound, shared->runs,
            share < 99 ? share : 99, now - began);
}

/* A round has a third of the time that is left, and the last one all of it: else one that never ends, as of many threads
   without a preemption, would keep those behind it from their first run. */
static void give_time(bool is_last)
{
    round_began = seconds() - began;
    round_ends = is_last ? most_seconds : round_began + (most_seconds - round_began) / 3;
}

/* Whether the round would be over in time, were it to go on as so far. The round before tells how much there is to make. */
static bool is_soon_over(double now)
{
    return expected && (now - round_began) * (double)expected < (most_seconds - round_began) * (double)shared->begun;
}

static bool is_time_up(void)
{
    const double now = seconds() - began;
    return most_seconds > 0 && now > round_ends && (now > most_seconds || !is_soon_over(now));
}

/* Waits for the first process of a round, and so for all. */
static void watch(pid_t child)
{
    double stopped = 0;
    long pause = 200000;
    int status = 0;
    while (waitpid(child, &status, WNOHANG) == 0) {
        const struct timespec t = { 0, pause };
        nanosleep(&t, NULL);
        pause = pause < 50000000 ? pause * 2 : pause;
        show_progress();
        if (!stopped && is_time_up()) {
            shared->order = TO_STOP;
            stopped = seconds();
        }
        if (stopped && seconds() - stopped > SECONDS_TO_END)
            kill(child, SIGKILL); /* it waits for the system, for ever */
    }
    if (WIFSIGNALED(status) && shared->order == GOES_ON && shared->forks) {
        const Schedule none = { .n = 0 };
        note_failure(&none, 0, "the run by the usual order crashes");
    }
}

static Ended run_round(int bound)
{
    begin_round(bound);
    fflush(NULL);
    const pid_t child = fork_run();
    if (child < 0) {
        perror("explore: fork");
        _exit(2);
    }
    if (!child) {
        silence();
        go_on_into_main();
        begin_exploring();
        return ALL_MADE;
    }
    watch(child);
    return shared->has_failed && !shared->goes_on ? FAILED : shared->order == TO_STOP ? STOPPED : ALL_MADE;
}

static void tell_round(bool is_all)
{
    fprintf(report, "%s%s %d runs %lu cut %lu classes %lu states %lu beyond %lu begun %lu expected %lu seconds %.2f\n", is_all ? "" : "part_of_",
            shared->counts_all ? "choices" : "round", shared->bound, shared->runs, shared->cut, shared->n_classes, shared->states.n, shared->beyond, shared->begun,
            expected, seconds() - began);
    fflush(report);
}

static void tell_places(void)
{
    for (int i = 0; i < shared->n_active; i++) {
        const void *pc = &__executable_start + shared->racy[i];
        fprintf(report, "racy +0x%lx in %s\n", place_in_program((const char *)pc - 1), function_name(pc));
    }
    for (size_t i = 0; i < MAX_SITES; i++) {
        const Site *s = &shared->sites[i];
        if (!s->key)
            continue;
        fprintf(report, "place %d ", s->preempted);
        if (s->is_code)
            fprintf(report, "+0x%lx in %s", place_in_program((const char *)s->key - 1), function_name((void *)s->key));
        else
            fprintf(report, "%s", place((WDM_SITE){ .file = (const char *)s->key, .line = (int)s->line }));
        fprintf(report, ", %s\n", s->what);
    }
}

static void tell_outcomes(void)
{
    for (size_t i = 0; i < MAX_OUTCOMES; i++)
        if (shared->outcome_hashes[i])
            fprintf(report, "outcome %lu %s\n", shared->outcomes[i].classes, shared->outcomes[i].text);
}

/* The hashes of the classes, for a comparison with another exploration. */
static void write_classes(const char *path)
{
    FILE *out = path ? fopen(path, "w") : NULL;
    if (!out)
        return;
    write_set(&shared->classes, out);
    fclose(out);
}

static void end_exploration(Ended ended)
{
    static const char *const words[] = { "done", "failed", "stopped" };
    static const int statuses[] = { 0, 1, 3 };
    tell_outcomes();
    tell_places();
    write_classes(options.classes);
    fprintf(report, "restarts %d\nmost_decisions %lu\nmost_points %lu\nfailed_runs %lu\n", n_restarts,
            shared->most_decisions, shared->most_points, shared->n_failed);
    if (shared->n_limited)
        fprintf(report, "limited %lu %s\n", shared->n_limited, shared->limit);
    if (shared->forks)
        fprintf(report, "forks %s\n", shared->forks);
    if (ended == FAILED)
        fprintf(report, "cost %d\nschedule %s\nwhy %s\n", shared->cost, schedule_text(&shared->failed), shared->why);
    fprintf(report, "ended %s\n", words[ended]);
    write_covered(report);
    fclose(report);
    if (isatty(2))
        fputs("\r\033[K", stderr);
    _exit(statuses[ended]);
}

static void make_forks(const char *why)
{
    shared->forks = why;
    shared->has_failed = 0;
}

/* A process that goes back has ended in a way that was no end of a run: what it had to make is lost. */
static bool is_process_lost(void)
{
    return shared->n_begun != shared->n_ended && (shared->order == GOES_ON || shared->has_failed);
}

/* The run by the usual order alone, for an estimate. Returns in its process. */
static void run_first(void)
{
    shared->only_first = true;
    run_round(0);
    if (is_child)
        return;
    fprintf(report, "first %lu %lu\n", shared->free_choices, shared->priced_choices);
    fclose(report);
    _exit(0);
}

/* With WDM_FURTHER one more preemption is allowed, where all so far took less than a second. */
static bool goes_further(int bound, int most)
{
    return bound == most + 1 && options.goes_further && seconds() - began < 1;
}

/* Makes a round, and tells it. The exploration ends where it fails, or where the time for all is up. */
static Next make_round(int bound, bool is_last)
{
    give_time(is_last);
    const Ended ended = run_round(bound);
    if (is_child)
        return IN_CHILD;
    if (is_process_lost()) {
        make_forks("a run ended in a way that isn't known, or left something in the system");
        return AGAIN;
    }
    if (ended != FAILED && shared->order == TO_START_OVER) {
        n_restarts++;
        return FROM_FIRST;
    }
    tell_round(ended == ALL_MADE);
    if (ended == FAILED || (ended == STOPPED && (is_last || !is_time_up())))
        end_exploration(ended);
    expected = ended == ALL_MADE ? shared->beyond : 0;
    return ended == ALL_MADE ? TO_NEXT : TOO_LONG;
}

/* There are too many orders with so few preemptions. Bounded are the choices that aren't the usual order's instead, those where
   a thread waits too: so many threads have no more orders than so many choices. */
static void explore_by_choices(void)
{
    shared->counts_all = true;
    for (int bound = 1;;) {
        const Next next = make_round(bound, true);
        if (next == IN_CHILD)
            return;
        if (next == TO_NEXT && !shared->beyond)
            end_exploration(ALL_MADE);
        bound = next == FROM_FIRST ? 1 : bound + (next == TO_NEXT);
    }
}

/* Returns in the processes that go on into `main`. */
static void explore_all(int most)
{
    if (most < 0) {
        run_first();
        return;
    }
    for (int bound = 0; bound <= most || goes_further(bound, most);) {
        const Next next = make_round(bound, bound >= most);
        if (next == TOO_LONG)
            explore_by_choices();
        if (is_child)
            return;
        bound = next == FROM_FIRST ? 0 : bound + (next == TO_NEXT);
    }
    end_exploration(ALL_MADE);
}

/* Returns why each choice needs a process of its own, or NULL. */
static const char *why_forks(void)
{
    extern void __gcov_dump(void) __attribute__((weak));
    if (options.forks)
        return options.forks;
    if (!can_make_snapshots())
        return "this machine's processor isn't an x86-64";
    if (options.page_ends)
        return "pages that pool blocks end at aren't put back";
    return __gcov_dump ? "counts of lines that ran would be put back" : NULL;
}

static void set_up(void)
{
    const char *path = options.report;
    shared = share(sizeof *shared);
    make_set(&shared->states);
    make_set(&shared->classes);
    make_set(&shared->transcripts);
    shared->outcomes = share(MAX_OUTCOMES * sizeof *shared->outcomes);
    shared->processes = (int)options.processes;
    shared->reduces = options.reduces && hooks_present;
    shared->goes_on = options.goes_on;
    make_forks(why_forks());
    shared->part = (int)options.part;
    shared->parts = (int)options.parts;
    most_seconds = (double)options.seconds;
    learn_updates();
    report = path ? fopen(path, "w") : NULL;
    began = seconds();
    function_name((const void *)&__executable_start); /* reads the symbols once, for all processes */
}

static void explore(void)
{
    const char *bound = options.explore, *text = options.schedule, *seed = options.chance;
    static Schedule s;
    if (!bound && !text && !seed)
        return;
    set_up();
    if (bound && !report) {
        perror("explore: WDM_REPORT");
        _exit(2);
    }
    if (bound) {
        explore_all(atoi(bound) < MOST_PREEMPTIONS ? atoi(bound) : MOST_PREEMPTIONS);
        return;
    }
    if (text && !read_schedule(text, &s)) {
        say("STOPPED: this is no schedule: %.100s", text);
        _exit(2);
    }
    give_schedule(&s);
    if (!text)
        go_by_chance(strtoul(seed, NULL, 10));
    go_on_into_main();
}

/* Before `main`, and behind what the hooks set up. */
__attribute__((section(".init_array"), used)) static void (*const explore_first)(void) = explore;
