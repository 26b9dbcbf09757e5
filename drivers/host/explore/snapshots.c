/*
 * snapshots.c: a process goes back to where it was, and makes another choice there.
 *
 * At a decision with several choices it takes a snapshot, and goes on with the first of them. At the end of a run it goes
 * back to the latest snapshot that has choices left, and goes on with the next one; the last one of a decision needs no
 * snapshot any more. So a process makes all orders, one behind the other, as forks would make them.
 */
#include "explore/snapshots.h"
#include "mm/mm.h"
#include "record/record.h"
#include <errno.h>
#include <malloc.h>
#include <setjmp.h>
#include <sys/mman.h>
#include <sys/prctl.h>
#include <sys/time.h>
#include <sys/wait.h>
#include <unistd.h>

enum { MOST_LEVELS = 512, OWN_STACK = 1 << 18, HANDLERS_STACK = 4 << 20, MOST_SECONDS = 10, SHARE_AFTER = 64 };
typedef struct {
    jmp_buf at;
    ToMake all[MAX_THREADS];
    int n, made;
    Pages pages;
    PacketPages packets;
} Level;
static struct Levels {
    Level levels[MOST_LEVELS];
    int n, chosen, ticks;
    unsigned long n_back, shared_at; /* how often it went back; how often when it last shared something out */
    char *stack;
    void (*chained)(int, siginfo_t *, void *);
} *own;
bool by_snapshots;

void chain_handler(void (*handler)(int, siginfo_t *, void *)) { own->chained = handler; }

__attribute__((noreturn)) static void fail_here(const char *why)
{
    note_failure(&followed, cost_of_run(), why);
    end_process(1);
}

static void on_fault(int number, siginfo_t *info, void *context)
{
    if (info->si_code == SEGV_ACCERR && opens_page(info->si_addr))
        return;
    if (is_below_stack(info->si_addr))
        lose_process();
    if (!own->chained)
        fail_here("it crashes (signal 11)");
    own->chained(number, info, context);
}

/* Once a second of the processor's time. */
static void on_tick(int number)
{
    char why[120];
    (void)number;
    if (++own->ticks <= MOST_SECONDS)
        return;
    snprintf(why, sizeof why, "it runs for more than %d seconds", MOST_SECONDS);
    fail_here(why);
}

static void start_ticking(void)
{
    const struct itimerval second = { .it_value = { .tv_sec = 1 }, .it_interval = { .tv_sec = 1 } };
    setitimer(ITIMER_VIRTUAL, &second, NULL);
}

static void handle_signals(void)
{
    void *stack = kept_apart(HANDLERS_STACK);
    struct sigaction s = { .sa_sigaction = on_fault, .sa_flags = SA_SIGINFO | SA_ONSTACK | SA_NODEFER };
    sigaltstack(&(stack_t){ .ss_sp = stack, .ss_size = HANDLERS_STACK }, NULL);
    sigaction(SIGSEGV, &s, NULL);
    s.sa_flags = SA_ONSTACK | SA_NODEFER | SA_RESTART;
    s.sa_handler = on_tick;
    sigaction(SIGVTALRM, &s, NULL);
    start_ticking();
}

/* What runs would map is mapped now, since it wouldn't be tracked. */
static void map_ahead(void)
{
    enum { HEAP = 16 << 20, MAIN_STACK = 1 << 20 };
    mallopt(M_MMAP_MAX, 0);
    mallopt(M_TRIM_THRESHOLD, 1 << 30);
    void *volatile room = malloc(HEAP);
    free(room);
    *((volatile char *)__builtin_frame_address(0) - MAIN_STACK) = 0; /* it has grown that far */
    map_stacks();
    map_host_memory();
}

void begin_snapshots(void)
{
    map_ahead();
    own = kept_apart(sizeof *own);
    own->stack = kept_apart(OWN_STACK);
    by_snapshots = true;
    handle_signals();
    begin_packet_pages();
    forget_helpers();
    note_system();
    begin_tracking();
}

static bool is_made(const Level *l) { return l->made == l->n; }

/* In a process that was just forked. */
static void begin_beside(void)
{
    prctl(PR_SET_PDEATHSIG, SIGKILL);
    forget_helpers();
    start_ticking();
}

static Level *eldest(void)
{
    for (int i = 0; i < own->n; i++)
        if (!is_made(&own->levels[i]))
            return &own->levels[i];
    return NULL;
}

/* What is shared out has to be worth a fork. */
bool may_share_out(void) { return own->n_back - own->shared_at >= SHARE_AFTER && eldest(); }

void take_eldest(void)
{
    Level *l = eldest();
    begin_beside();
    l->made = l->n - 1;
    own->n = (int)(l - own->levels) + 1;
    own->shared_at = own->n_back;
    end_process(0);
}

void leave_eldest(void)
{
    eldest()->n--;
    own->shared_at = own->n_back;
}

/* On a stack of its own, since the one that it came from is put back. */
__attribute__((noreturn, noinline, used)) static void put_all_back(void)
{
    Level *l = &own->levels[own->n - 1];
    put_pages_back(&l->pages);
    put_packet_pages_back(&l->packets);
    if (own->n == 1)
        close_rare_pages(&l->pages);
    own->n_back++;
    own->chosen = l->made++;
    _longjmp(l->at, 1);
}

#if defined(__x86_64__)
bool can_make_snapshots(void) { return true; }

__attribute__((noreturn)) static void go_back(void)
{
    __asm__ volatile("mov %0, %%rsp\n\t"
                     "xor %%ebp, %%ebp\n\t"
                     "call *%1"
                     : : "r"(own->stack + OWN_STACK), "r"(put_all_back) : "memory");
    __builtin_unreachable();
}
#else
bool can_make_snapshots(void) { return false; }
__attribute__((noreturn)) static void go_back(void) { put_all_back(); }
#endif

static void drop_made(void)
{
    while (own->n && is_made(&own->levels[own->n - 1]))
        own->n--;
}

void go_back_if_any(void)
{
    drop_made();
    if (shared->order == GOES_ON && own->n)
        go_back();
}

/* Too many snapshots: what is behind this decision is made by another process, while this one waits. */
static void begin_anew(void)
{
    int status;
    shared->n_begun++;
    const pid_t pid = fork_run();
    if (pid < 0)
        lose_process();
    if (!pid) {
        begin_beside();
        own->n = 0;
        return;
    }
    while (waitpid(pid, &status, 0) < 0 && errno == EINTR) {
    }
    shared->busy++; /* the other one had this one's turn */
    end_process(0);
}

int make_each(const ToMake *all, int n)
{
    drop_made();
    if (own->n == MOST_LEVELS)
        begin_anew();
    Level *l = &own->levels[own->n];
    memcpy(l->all, all, (size_t)n * sizeof *all);
    l->n = n;
    l->made = 1;
    if (_setjmp(l->at)) {
        own->ticks = 0;
        return own->chosen;
    }
    save_pages(&l->pages);
    save_packet_pages(&l->packets);
    own->n++;
    own->ticks = 0;
    return 0;
}
