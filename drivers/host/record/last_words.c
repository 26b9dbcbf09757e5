/*
 * last_words.c: a program that can't go on: a crash, a loop without an end that `run` stops, `exit`, a thread that ends
 * in a dispatch. Where it is and what each thread is in is told, and what was recorded is written.
 *
 * A handler may find the host's lock or the allocator's taken. So it tells the place first, takes the lock for a short
 * time only, and ends the process where the rest takes too long.
 */
#include "record/own.h"
#include "explore/explore.h"
#include "mm/mm.h"
#include "rules/rules.h"
#include <dlfcn.h>
#include <signal.h>
#include <sys/mman.h>
#include <sys/syscall.h>
#include <sys/ucontext.h>
#include <unistd.h>

enum { STACK = 1 << 18, MOST_PLACES = 8, SECONDS_FOR_IT = 10, ASK = SIGURG, ENDS_STOPPED = SIGUSR2 };
enum { MOST_MOMENTS = 5000 }; /* of a millisecond: a thread that gets no processor for so long isn't waited for */
static Self *selves[MAX_SEATS];
static volatile sig_atomic_t is_asked[MAX_SEATS]; /* where it is, and it hasn't answered */
static struct { const void *at[MOST_PLACES]; _Atomic int n; } places[MAX_SEATS];
static bool is_finished;

void end_process(int status)
{
    if (by_snapshots) {
        go_back_if_any();
        end_process_of_snapshots();
    }
    extern void __gcov_dump(void) __attribute__((weak));
    if (__gcov_dump)
        __gcov_dump();
    syscall(SYS_exit_group, status);
    __builtin_unreachable();
}

const void *instruction_of(const void *context)
{
    const ucontext_t *u = context;
#if defined(__x86_64__)
    return (const void *)u->uc_mcontext.gregs[REG_RIP];
#elif defined(__aarch64__)
    return (const void *)u->uc_mcontext.pc;
#else
    (void)u;
    return NULL;
#endif
}

/* Where a function ends that has no code: what it would return to. */
static const void *return_of(const void *context)
{
    const ucontext_t *u = context;
#if defined(__x86_64__)
    return (const char *)*(void **)u->uc_mcontext.gregs[REG_RSP] - 1;
#elif defined(__aarch64__)
    return (const char *)u->uc_mcontext.regs[30] - 1;
#else
    (void)u;
    return NULL;
#endif
}

void put_places(char *text, size_t size, const void *const *at, int n)
{
    size_t used = 0;
    *text = 0;
    for (int i = 0; i < n && used < size; i++)
        used += (size_t)snprintf(text + used, size - used, "%s+0x%lx in %s", i ? ", called at " : "",
                                 place_in_program(at[i]), function_name(at[i]));
}

/* What a thread waits for, and who has that. */
static void put_wait(const Self *t, char *text, size_t size)
{
    const Wait *w = t->wait;
    int seat;
    *text = 0;
    if (!w || w->patience == IDLES)
        return;
    const Hold *h = w->object ? holder_of(w->object, &seat) : NULL;
    if (h)
        snprintf(text, size, "; it waits at %s for a %s that thread %d has held since %s", place(w->at),
                 lock_kind(h->kind), seat, place(h->at));
    else
        snprintf(text, size, "; it waits in %s at %s", w->what, place(w->at));
}

/* What the thread is in: the routine that runs innermost, with its last call. */
static void tell_thread(const Self *t, const char *where)
{
    const Frame *f = t->frames;
    char packet[48] = "", wait[200];
    if (!f && !t->last_call)
        return;
    if (f && f->p)
        snprintf(packet, sizeof packet, ", IRP %u.%lu", f->p->slot, (unsigned long)f->use);
    const WDM_SITE at = f ? f->last : t->last;
    const char *call = f ? f->last_call : t->last_call;
    put_wait(t, wait, sizeof wait);
    say("  thread %d%s%s%s%s%s%s%s%s%s%s", t->seat, f ? " is in " : "", f ? what_runs(f) : "", packet,
        call ? f ? "; its last call: " : ": its last call: " : "", call ? call : "", call && at.file ? " at " : "",
        call && at.file ? place(at) : "", *wait ? wait : f && f->waiting ? ", in which it waits" : "",
        *where ? "; now at " : "", where);
}

/* All threads that run something, but this one. */
void tell_others(void)
{
    char where[600];
    if (by_schedule)
        tell_threads();
    for (int s = 0; s < n_seats; s++)
        if (selves[s] && selves[s] != &self) {
            put_places(where, sizeof where, places[s].at, places[s].n);
            tell_thread(selves[s], where);
        }
}

static void too_late(int number)
{
    (void)number;
    say("it couldn't be written what was recorded");
    end_process(4);
}

/* The first thread that comes writes; another one waits for the end that follows. */
void begin_last_words(void)
{
    static pthread_t writer; /* changed by that exchange alone */
    pthread_t nobody = 0;
    if (!__atomic_compare_exchange_n(&writer, &nobody, pthread_self(), false, __ATOMIC_SEQ_CST, __ATOMIC_SEQ_CST)) {
        if (pthread_equal(nobody, pthread_self()))
            end_process(4);
        for (;;)
            pause();
    }
    signal(SIGALRM, too_late);
    alarm(SECONDS_FOR_IT);
}

static void take_lock_for_a_while(void)
{
    struct timespec until;
    clock_gettime(CLOCK_REALTIME, &until);
    until.tv_sec += 2;
    pthread_mutex_timedlock(&host_lock, &until); /* where this very thread has it, the rest goes on without */
}

static const char *name_of(int number)
{
    return number == SIGSEGV || number == SIGBUS ? "it touches what is no memory" :
        number == SIGFPE ? "a division by zero" : number == SIGABRT ? "abort" : number == SIGTERM ? "its time is over" :
        number == ENDS_STOPPED ? "a signal has stopped it (SIGSTOP or the like)" : "no instruction";
}

/* Tells why and where the run ends, and ends it. */
void stop_here(const char *why, const void *const *at, int n, const Frame *in, const char *hint)
{
    char where[600];
    put_places(where, sizeof where, at, n);
    n_faults++;
    say("STOPPED: %s%s%s%s%s%s", why, n ? ", at " : "", where, in ? "; in " : "",
        in ? what_runs(in) : "", hint);
    take_lock_for_a_while();
    tell_thread(&self, "");
    stop_run(why);
}

static bool is_any_asked(void)
{
    for (int s = 0; s < MAX_SEATS; s++)
        if (is_asked[s] && selves[s])
            return true;
    return false;
}

/* Each other thread writes down where it is: of real threads, since others are where they wait. */
static void ask_places(void)
{
    const struct timespec moment = { 0, 1000000 };
    for (int s = 0; s < MAX_SEATS; s++)
        is_asked[s] = selves[s] && selves[s] != &self && !pthread_kill(selves[s]->id, ASK);
    for (int i = 0; i < MOST_MOMENTS && is_any_asked(); i++)
        nanosleep(&moment, NULL);
}

static bool is_code_of_driver(const void *at)
{
    for (int i = 0; i < n_drivers; i++)
        if (is_code_of_one(at, (const void *)drivers[i]->DriverInit))
            return true;
    return false;
}

/* Once all have written down where they are: whether the thread of a seat is in a driver's code, in no call of the host's. */
static bool is_in_driver(int seat)
{
    const Self *t = selves[seat];
    return t && t != &self && !t->wait && !t->has_host && places[seat].n > 0 && is_code_of_driver(places[seat].at[0]);
}

static long worked_for(int seat) /* milliseconds of a processor's */
{
    clockid_t its;
    struct timespec t = { 0 };
    if (!pthread_getcpuclockid(selves[seat]->id, &its))
        clock_gettime(its, &t);
    return (long)t.tv_sec * 1000 + t.tv_nsec / 1000000;
}

/* Under G, so that a call would end its work: whether it goes on working. */
static bool works_on(int seat)
{
    const struct timespec moment = { 0, 20000000 };
    const long began = worked_for(seat);
    for (int i = 0; i < 250 && worked_for(seat) < began + 20; i++)
        nanosleep(&moment, NULL);
    return worked_for(seat) >= began + 20;
}

static int looping_seat(void)
{
    for (int s = 0; s < n_seats; s++)
        if (is_in_driver(s))
            return s;
    return NOBODY;
}

/* Under G: where another thread runs on in a driver's code, and makes no call; or NULL. */
const void *loop_of_others(char *text, size_t size)
{
    if (by_schedule)
        return NULL;
    ask_places();
    const int s = looping_seat();
    if (s < 0 || !works_on(s))
        return NULL;
    ask_places();
    if (!is_in_driver(s))
        return NULL;
    put_places(text, size, places[s].at, places[s].n);
    return places[s].at[0];
}

static void place_asked(int number, siginfo_t *info, void *context)
{
    (void)number, (void)info, (void)context;
    if (self.seat < 0 || selves[self.seat] != &self)
        return;
    places[self.seat].n = where_is(true, places[self.seat].at, MOST_PLACES);
    is_asked[self.seat] = false;
}

static void stopped(int number, siginfo_t *info, void *context)
{
    const void *at[MOST_PLACES] = { NULL };
    const bool is_memory = number == SIGSEGV || number == SIGBUS;
    const bool has_no_code = is_memory && info->si_addr == instruction_of(context);
    char why[100];
    int n = 1;
    begin_last_words();
    snprintf(why, sizeof why, is_memory ? "%s at address %#lx" : "%s", has_no_code ? "there is no function" : name_of(number),
             (unsigned long)info->si_addr);
    if (has_no_code)
        at[0] = return_of(context);
    else
        n = where_is(true, at, MOST_PLACES);
    if (number == SIGTERM || number == ENDS_STOPPED)
        ask_places();
    const int loop = number == SIGTERM && self.wait ? looping_seat() : NOBODY;
    if (loop >= 0)
        stop_here("its time is over, and a thread runs on", places[loop].at, places[loop].n, selves[loop]->frames, "");
    const bool is_null = is_memory && !has_no_code && (uintptr_t)info->si_addr < PAGE_SIZE;
    stop_here(why, at, n, self.frames, is_null && self.frames && self.frames->p ? buffer_missing(self.frames->p) : "");
}

void crashed(int number, siginfo_t *info, void *context) { stopped(number, info, context); }

/* The run ends here, without a signal. */
void end_at(const char *why)
{
    const void *at[MOST_PLACES];
    begin_last_words();
    stop_here(why, at, where_is(false, at, MOST_PLACES), self.frames, "");
}

/* The end of the process that isn't the run's: the test's main has returned, or somebody called exit. */
static void ended_early(void)
{
    tell_jump();
    if (!is_finished)
        end_at("the program ends before WdmFinish");
}

void run_is_finished(void) { is_finished = true; }

static bool is_in_frame(const Self *t, uint64_t number)
{
    const Frame *f = t->frames;
    while (f && f->number != number)
        f = f->up;
    return f != NULL;
}

/* Under G: whether the thread of a seat has left the frame `called`, and since then waits, or has left `caller` too. */
bool has_gone_on(int seat, uint64_t called, uint64_t caller)
{
    const Self *t = selves[seat];
    return !t || (!is_in_frame(t, called) && (t->wait || !is_in_frame(t, caller)));
}

/* Once, before the first driver is loaded. */
void watch_for_the_end(void)
{
    static const int numbers[] = { SIGBUS, SIGFPE, SIGILL, SIGABRT, SIGTERM, ENDS_STOPPED };
    struct sigaction s = { .sa_sigaction = stopped, .sa_flags = SA_SIGINFO | SA_ONSTACK | (by_snapshots ? SA_NODEFER : 0) };
    function_name(NULL); /* reads the symbols, which takes memory that a handler may not ask for */
    for (size_t i = 0; i < sizeof numbers / sizeof *numbers; i++)
        sigaction(numbers[i], &s, NULL);
    s.sa_sigaction = place_asked;
    s.sa_flags |= SA_RESTART;
    sigaction(ASK, &s, NULL);
    atexit(ended_early);
    watch_for_jumps_and_forks();
}

/* A thread gets its seat: it is known here, and has a stack for a handler, whatever becomes of its own. */
void watch_thread(void)
{
    stack_t other;
    selves[self.seat] = &self;
    self.id = pthread_self();
    if (sigaltstack(NULL, &other) || !(other.ss_flags & SS_DISABLE))
        return;
    void *memory = mmap(NULL, STACK, PROT_READ | PROT_WRITE, MAP_PRIVATE | MAP_ANONYMOUS, -1, 0);
    if (memory == MAP_FAILED)
        return;
    self.other_stack = memory;
    sigaltstack(&(stack_t){ .ss_sp = memory, .ss_size = STACK }, NULL);
}

void thread_is_gone(int seat)
{
    selves[seat] = NULL;
    if (!self.other_stack)
        return;
    sigaltstack(&(stack_t){ .ss_flags = SS_DISABLE }, NULL);
    munmap(self.other_stack, STACK);
    self.other_stack = NULL;
}

/* A thread that ends in a dispatch or a routine leaves it without an answer. */
void pthread_exit(void *result)
{
    void (*real)(void *);
    *(void **)&real = dlsym(RTLD_NEXT, "pthread_exit");
    if (self.frames)
        end_at("a thread ends in a dispatch or a routine");
    real(result);
    __builtin_unreachable();
}
