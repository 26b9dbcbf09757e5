/*
 * timers_and_dpcs.c: timers and deferred calls. All of it is under G.
 *
 * One thread of the host is the clock, and runs deferred calls. Under a schedule there is another one for what is queued
 * while a deferred call runs: another processor, on which it may run at once.
 */
#include "ke/own.h"
#include "explore/explore.h"
#include "pnp/pnp.h"
#include "record/record.h"
#include "rules/rules.h"

enum { MAX_DPCS = 256, MAX_PROCESSORS = 2 };
static Condition clock_changed = { &host_lock, PTHREAD_COND_INITIALIZER };
static PKTIMER timers;
static PKDPC dpcs[MAX_DPCS];
static int n_dpcs;
static int n_processors, n_running; /* threads for deferred calls, and calls that run */
static bool idles[MAX_PROCESSORS];
static const KDPC *runs[MAX_PROCESSORS]; /* those that run */
static _Atomic int n_armed; /* timers that will go off once */

bool timers_armed(void) { return n_armed > 0; }

/* Whether a routine wasn't asked about before. */
static bool is_new(PKDEFERRED_ROUTINE routine)
{
    static PKDEFERRED_ROUTINE known[32];
    static size_t n;
    for (size_t i = 0; i < n; i++)
        if (known[i] == routine)
            return false;
    if (n < ARRAYSIZE(known))
        known[n++] = routine;
    return true;
}

/* The milliseconds until the next armed timer goes off, at least 1, where these are at most `most`, and its routine wasn't
   asked about before; else 0. On a busy machine a timer may be due and not have gone off. */
ULONG next_new_timer(ULONG most)
{
    PKTIMER next = NULL;
    hold_host("the host's own test", &timers, SYNCS);
    for (PKTIMER t = timers; t; t = t->HostNext)
        if (t->Dpc && (!next || t->DueTime.QuadPart < next->DueTime.QuadPart))
            next = t;
    const LONGLONG left = next ? (next->DueTime.QuadPart - now_in_100ns()) / 10000 + 1 : 0;
    const bool is_wanted = next && left <= (LONGLONG)most && is_new(next->Dpc->DeferredRoutine);
    pthread_mutex_unlock(&host_lock);
    return is_wanted ? (ULONG)(left > 1 ? left : 1) : 0;
}

/* The place, where it stays: the structures of the kit have room for its address. */
static const WDM_SITE *kept_site(WDM_SITE at)
{
    static struct Kept { struct Kept *next; WDM_SITE site; } *sites;
    for (struct Kept *k = sites; k; k = k->next)
        if (k->site.file == at.file && k->site.line == at.line && k->site.function == at.function)
            return &k->site;
    struct Kept *k = calloc(1, sizeof *k);
    if (!k)
        give_up("out of memory");
    *k = (struct Kept){ sites, at };
    sites = k;
    return &k->site;
}

/* Runs a driver's routine that no packet asked for, in its own frame. Under G before and after. */
void run_work(Frame *f, int driver)
{
    self.driver = driver;
    self.is_driver = true;
    self.device = f->device;
    enter_frame(f);
    let_driver_run();
    point("the driver's routine", (WDM_SITE){ 0 });
}

void work_done(void)
{
    driver_came_back();
    leave_frame();
    tell_waiters(&host_settled);
}

/* The clock's thread. A timer that is due is signalled, and its deferred call queued. */
static void queue_dpc(PKDPC dpc)
{
    if (!dpc->HostIsQueued && n_dpcs < MAX_DPCS) {
        dpc->HostIsQueued = TRUE;
        dpcs[n_dpcs++] = dpc;
    }
}

static void take_out(PKTIMER timer)
{
    forget_asleep(timer);
    for (PKTIMER *t = &timers; *t; t = &(*t)->HostNext)
        if (*t == timer) {
            *t = timer->HostNext;
            break;
        }
    timer->Header.Inserted = FALSE;
    n_armed -= timer->Period == 0;
}

static bool lies_in(const void *it, const void *from, size_t size)
{
    return (const char *)it >= (const char *)from && (const char *)it < (const char *)from + size;
}

/* Under G. */
PKTIMER armed_timers(void) { return timers; }

/* An armed timer in this memory, or NULL. It is taken out. */
PKTIMER take_timer_in(const void *from, size_t size)
{
    PKTIMER t = timers;
    while (t && !lies_in(t, from, size))
        t = t->HostNext;
    if (t)
        take_out(t);
    return t;
}

/* A deferred call in this memory that is queued, or NULL. It is taken out. */
PKDPC take_dpc_in(const void *from, size_t size)
{
    for (int i = 0; i < n_dpcs; i++)
        if (lies_in(dpcs[i], from, size)) {
            PKDPC d = dpcs[i];
            memmove(dpcs + i, dpcs + i + 1, (size_t)(--n_dpcs - i) * sizeof *dpcs);
            d->HostIsQueued = FALSE;
            return d;
        }
    return NULL;
}

void tell_timers_left(int driver)
{
    for (PKTIMER t = timers; t; t = t->HostNext)
        if ((t->Dpc ? t->Dpc->HostDriver : driver_of_file(t->HostSet->file)) == driver)
            left_behind("the timer that was set here", "KeSetTimer", *t->HostSet);
}

/* Before the host lets them run: DriverUnload has to wait for them by KeFlushQueuedDpcs. */
void tell_calls_left(int driver)
{
    for (int i = 0; i < n_dpcs; i++)
        if (dpcs[i]->HostDriver == driver)
            left_behind("the deferred call that was queued here", "KeInsertQueueDpc", *dpcs[i]->HostQueued);
}

/* Lets the timers that are due go off. */
static void ring(void)
{
    const LONGLONG now = now_in_100ns();
    for (PKTIMER t = timers, after; t; t = after) {
        after = t->HostNext;
        if (t->DueTime.QuadPart <= now) {
            tell_asleep(t);
            if (t->Period)
                t->DueTime.QuadPart = now + (LONGLONG)t->Period * 10000;
            else
                take_out(t);
            set_event((PKEVENT)t);
            if (t->Dpc)
                queue_dpc(t->Dpc);
        }
    }
}

/* Idle threads are alike: the n-th of them is ready where n deferred calls are queued. */
static bool has_dpc(const void *number)
{
    int before = 0;
    for (int i = 0; i < (int)(intptr_t)number; i++)
        before += idles[i];
    return n_dpcs > before;
}

/* When the next timer is due, or 0. */
static LONGLONG next_due(const void *context)
{
    LONGLONG next = 0;
    (void)context;
    for (PKTIMER t = timers; t; t = t->HostNext)
        if (!next || t->DueTime.QuadPart < next)
            next = t->DueTime.QuadPart;
    return next;
}

/* Only the clock waits for timers. */
static Wait until_due(int number)
{
    return (Wait){ .ready = has_dpc, .deadline = number ? NULL : next_due, .context = (void *)(intptr_t)number,
                   .on = &clock_changed, .patience = IDLES, .what = number ? "deferred calls" : "the clock" };
}

bool dpc_is_on_its_way(const KDPC *dpc) { return dpc->HostIsQueued || runs[0] == dpc || runs[1] == dpc; }

static void run_dpc(void)
{
    PKDPC d = dpcs[0];
    const KDPC **const mine = &runs[runs[0] != NULL];
    PKDEFERRED_ROUTINE routine = d->DeferredRoutine;
    PVOID its = d->DeferredContext, one = d->SystemArgument1, two = d->SystemArgument2;
    memmove(dpcs, dpcs + 1, (size_t)--n_dpcs * sizeof *dpcs);
    d->HostIsQueued = FALSE;
    n_running++;
    *mine = d;
    Frame f = { .kind = WORK, .fn = (void *)routine, .device = NOBODY, .settled = true, .irql = DISPATCH_LEVEL };
    run_work(&f, d->HostDriver);
    routine(d, its, one, two);
    work_done();
    n_running--;
    *mine = NULL;
    tell_waiters(&host_settled);
}

static void *run_dpcs(void *number);

/* Starts a thread for deferred calls where all that there are run one, or where there is none. */
static void start_processor(void)
{
    const bool is_clock = !n_processors, is_wanted = by_schedule && n_dpcs + n_running > n_processors;
    const Wait first = until_due(n_processors);
    if ((is_clock || (is_wanted && n_processors < MAX_PROCESSORS && !is_one_processor())) &&
        !start_thread(run_dpcs, (void *)(intptr_t)n_processors, is_clock ? "the clock" : "deferred calls", NULL, &first))
        idles[n_processors++] = true;
}

static void *run_dpcs(void *number)
{
    Call c;
    const bool is_clock = !number;
    bool *const is_idle = &idles[(intptr_t)number];
    const Wait w = until_due((int)(intptr_t)number);
    enter_host(&c, "the clock", (WDM_SITE){ 0 });
    for (;;) {
        *is_idle = false;
        touch(&timers, SYNCS);
        if (is_clock)
            ring();
        if (n_dpcs) {
            start_processor();
            run_dpc();
        } else {
            *is_idle = true;
            wait_for(&w);
        }
    }
    return NULL;
}

static void start_clock(void)
{
    touch(&timers, SYNCS);
    start_processor();
    tell_waiters(&clock_changed);
}

static bool is_armed(const KTIMER *timer)
{
    const KTIMER *t = timers;
    while (t && t != timer)
        t = t->HostNext;
    return t;
}

/* One that is armed still goes off, once, and makes its deferred call, as in Windows: the system's list has it. */
VOID KeInitializeTimerEx(PKTIMER Timer, TIMER_TYPE Type)
{
    const bool synchronizes = Type == SynchronizationTimer;
    hold_host("KeInitializeTimer", &timers, SYNCS);
    const bool stays = is_armed(Timer);
    if (stays) {
        clear_event((PKEVENT)Timer);
        n_armed += Timer->Period != 0;
        Timer->Period = 0;
    }
    pthread_mutex_unlock(&host_lock);
    if (!stays) {
        memset(Timer, 0, sizeof *Timer);
        WdmKeInitializeEvent((PKEVENT)Timer, synchronizes ? SynchronizationEvent : NotificationEvent, FALSE);
    }
    Timer->Header.Synchronizes = synchronizes;
    Timer->Header.Type = synchronizes ? 9 : 8; /* as Windows numbers them */
    Timer->Header.Size = 0;
}

BOOLEAN WdmKeSetTimer(PKTIMER Timer, LARGE_INTEGER DueTime, LONG Period, PKDPC Dpc, WDM_SITE at)
{
    Call c;
    enter_host(&c, "KeSetTimer", at);
    check_used(Timer, "timer");
    hands_over();
    const BOOLEAN was = Timer->Header.Inserted;
    if (was)
        take_out(Timer);
    clear_event((PKEVENT)Timer);
    Timer->DueTime.QuadPart = DueTime.QuadPart <= 0 ? now_in_100ns() - DueTime.QuadPart : DueTime.QuadPart;
    Timer->Period = (ULONG)Period;
    Timer->Dpc = Dpc;
    Timer->Header.Inserted = TRUE;
    Timer->HostSet = kept_site(at);
    Timer->HostNext = timers;
    timers = Timer;
    n_armed += Period == 0;
    start_clock();
    leave_host();
    return was;
}

BOOLEAN KeCancelTimer(PKTIMER Timer)
{
    Call c;
    enter_host(&c, "KeCancelTimer", (WDM_SITE){ 0 });
    touch(&timers, SYNCS);
    const BOOLEAN was = Timer->Header.Inserted;
    if (was)
        take_out(Timer);
    leave_host();
    return was;
}

BOOLEAN KeReadStateTimer(PKTIMER Timer) { return KeReadStateEvent((PKEVENT)Timer) != 0; }

BOOLEAN KeRemoveQueueDpc(PKDPC Dpc)
{
    Call c;
    enter_host(&c, "KeRemoveQueueDpc", (WDM_SITE){ 0 });
    touch(&timers, SYNCS);
    const BOOLEAN was = Dpc->HostIsQueued;
    for (int i = 0; was && i < n_dpcs; i++)
        if (dpcs[i] == Dpc) {
            memmove(dpcs + i, dpcs + i + 1, (size_t)(--n_dpcs - i) * sizeof *dpcs);
            break;
        }
    Dpc->HostIsQueued = FALSE;
    leave_host();
    return was;
}

BOOLEAN WdmKeInsertQueueDpc(PKDPC Dpc, PVOID Argument1, PVOID Argument2, WDM_SITE at)
{
    Call c;
    enter_host(&c, "KeInsertQueueDpc", at);
    check_used(Dpc, "deferred call");
    hands_over();
    touch(&timers, SYNCS);
    const BOOLEAN queued = !Dpc->HostIsQueued;
    if (queued) {
        Dpc->SystemArgument1 = Argument1;
        Dpc->SystemArgument2 = Argument2;
        Dpc->HostQueued = kept_site(at);
        queue_dpc(Dpc);
        start_clock();
    }
    leave_host();
    return queued;
}

static bool dpcs_are_done(const void *context)
{
    (void)context;
    return !n_dpcs && !n_running;
}

static bool work_is_done(const void *context)
{
    return workers_are_idle() && dpcs_are_done(context) && plug_and_play_is_idle() && power_manager_is_idle() &&
        power_framework_is_idle();
}

/* Under G: work items and deferred calls that are queued are waited for, as long as something goes on. */
void finish_work(void)
{
    wait_for_host(work_is_done, NULL);
    touch(&timers, SYNCS);
    after_work_items();
}

VOID KeFlushQueuedDpcs(VOID)
{
    Call c;
    enter_host(&c, "KeFlushQueuedDpcs", (WDM_SITE){ 0 });
    wait_for_host(dpcs_are_done, NULL);
    touch(&timers, SYNCS);
    leave_host();
}
