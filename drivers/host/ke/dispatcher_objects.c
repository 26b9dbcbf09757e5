/*
 * dispatcher_objects.c: events, semaphores, mutexes, timers as things to wait for; and waits that never end.
 *
 * All of them change under W, and whoever waits does so on one condition of W, so an object may be gone as soon as its
 * waiter knows. A wait without a limit in which no thread can go on is a hang. A driver's own thread may wait for ever
 * outside of packets.
 */
#include "ke/ke.h"
#include "explore/explore.h"
#include "record/record.h"
#include "rules/rules.h"

/* As Windows numbers them. A timer is an event of its own numbers, and so is a thread's end. */
enum { NOTIFICATION_EVENT, SYNCHRONIZATION_EVENT, MUTEX, SEMAPHORE = 5, EVENT_SIZE = sizeof(KEVENT) / sizeof(LONG) };
static pthread_mutex_t wait_lock = PTHREAD_MUTEX_INITIALIZER; /* W */
static Condition changed = { &wait_lock, PTHREAD_COND_INITIALIZER };
static const WDM_SITE nowhere;

static void make(DISPATCHER_HEADER *h, UCHAR type, bool synchronizes, LONG state)
{
    pthread_mutex_lock(&wait_lock);
    *h = (DISPATCHER_HEADER){ .Type = type, .Synchronizes = synchronizes, .SignalState = state };
    pthread_mutex_unlock(&wait_lock);
}

static LONG change(DISPATCHER_HEADER *h, LONG state, bool add)
{
    pthread_mutex_lock(&wait_lock);
    touch(h, SYNCS);
    const LONG was = h->SignalState;
    h->SignalState = add ? was + state : state;
    __atomic_add_fetch(&host_activity, 1, __ATOMIC_SEQ_CST);
    tell_waiters(&changed);
    pthread_mutex_unlock(&wait_lock);
    return was;
}

VOID WdmKeInitializeEvent(PKEVENT e, EVENT_TYPE type, BOOLEAN state)
{
    const bool synchronizes = type == SynchronizationEvent;
    make(&e->Header, synchronizes ? SYNCHRONIZATION_EVENT : NOTIFICATION_EVENT, synchronizes, state != 0);
    e->Header.Size = EVENT_SIZE;
    remember_event(e);
}

bool is_event(const void *object)
{
    const DISPATCHER_HEADER *h = object;
    return h->Type <= SYNCHRONIZATION_EVENT && h->Size == EVENT_SIZE;
}

void set_event(PKEVENT e) { change(&e->Header, 1, false); }
void clear_event(PKEVENT e) { change(&e->Header, 0, false); }

LONG KeResetEvent(PKEVENT e)
{
    point("KeResetEvent", nowhere);
    return change(&e->Header, 0, false);
}

VOID KeClearEvent(PKEVENT e)
{
    point("KeClearEvent", nowhere);
    clear_event(e);
}

VOID KeInitializeSemaphore(PKSEMAPHORE s, LONG count, LONG limit)
{
    make(&s->Header, SEMAPHORE, true, count);
    s->Limit = limit;
}

/* A call by which a packet may change hands: what its routine leaves in IoStatus is taken before, since the next owner
   may write to it from now on. Under G. */
void hands_over(void)
{
    Frame *f = self.frames;
    if (f && f->kind == ROUTINE && !f->settled && !f->handed_over) {
        f->handed_over = true;
        f->status = (ULONG)f->p->irp->IoStatus.Status;
        f->information = f->p->irp->IoStatus.Information;
    }
}

/* The same where G isn't held. */
void hands_over_now(void)
{
    if (!self.frames || self.frames->kind != ROUTINE)
        return;
    pthread_mutex_lock(&host_lock);
    hands_over();
    pthread_mutex_unlock(&host_lock);
}

LONG WdmKeReleaseSemaphore(PKSEMAPHORE s, LONG n)
{
    point("KeReleaseSemaphore", nowhere);
    hands_over_now();
    return change(&s->Header, n, true);
}

VOID KeInitializeMutex(PKMUTEX m, ULONG level) { (void)level, make(&m->Header, MUTEX, true, 1), m->OwnerThread = NULL; }

LONG KeReadStateEvent(PKEVENT e)
{
    point("KeReadStateEvent", nowhere);
    pthread_mutex_lock(&wait_lock);
    touch(&e->Header, SYNCS);
    const LONG state = e->Header.SignalState;
    pthread_mutex_unlock(&wait_lock);
    return state;
}

void release_object(DISPATCHER_HEADER *h) { change(h, 1, true); }

LONG WdmKeReleaseMutex(PKMUTEX m, WDM_SITE at)
{
    Call c;
    enter_host(&c, "KeReleaseMutex", at);
    check_used(m, "mutex");
    hands_over();
    lock_given_back(m, MUTEX_OBJECT);
    leave_host();
    return change(&m->Header, 1, true);
}

LONG WdmKeSetEvent(PKEVENT e, WDM_SITE at)
{
    Call c;
    enter_host(&c, "KeSetEvent", at);
    check_used(e, "event");
    hands_over();
    const bool is_over = is_over_event(e);
    leave_host();
    return is_over ? 0 : change(&e->Header, 1, false);
}

/* What a wait is for, under W. */
typedef struct { ULONG n; PVOID *objects; WAIT_TYPE type; LONGLONG until; } Objects;

static bool is_owner(const KMUTANT *m) { return m->OwnerThread == (PVOID)this_thread(); }

static bool can_be_taken(DISPATCHER_HEADER *h)
{
    return h->SignalState > 0 || (h->Type == MUTEX && is_owner((KMUTANT *)h));
}

static void take(DISPATCHER_HEADER *h)
{
    touch(h, SYNCS);
    if (h->Type == SEMAPHORE || h->Type == MUTEX)
        h->SignalState--;
    else if (h->Synchronizes)
        h->SignalState = 0;
    if (h->Type == MUTEX)
        ((KMUTANT *)h)->OwnerThread = (PVOID)this_thread();
}

/* The first object that lets the wait end, or -1. For all objects that is the first one. */
static int first_ready(const Objects *o)
{
    for (ULONG i = 0; i < o->n; i++) {
        const bool can = can_be_taken(o->objects[i]);
        if (can == (o->type == WaitAny))
            return can ? (int)i : -1;
    }
    return o->type == WaitAll && o->n ? 0 : -1;
}

static bool is_one_ready(const void *objects) { return first_ready(objects) >= 0; }
static LONGLONG until_of(const void *objects) { return ((const Objects *)objects)->until; }

/* Takes what ended the wait. Returns its number. */
static int take_ready(const Objects *o)
{
    const int ready = first_ready(o);
    for (ULONG i = 0; i < o->n; i++)
        if (o->type == WaitAll ? ready >= 0 : (int)i == ready)
            take(o->objects[i]);
        else
            touch(o->objects[i], SYNCS);
    return ready;
}

/* Whether a dispatch or a routine of a packet runs on this thread. */
static bool has_packet(void)
{
    for (const Frame *f = self.frames; f; f = f->up)
        if (f->p)
            return true;
    return false;
}

/* A driver's own thread may wait for ever, but for a mutex: somebody has that. */
static bool may_idle(const Objects *o)
{
    for (ULONG i = 0; i < o->n; i++)
        if (((DISPATCHER_HEADER *)o->objects[i])->Type == MUTEX)
            return false;
    return self.is_driver && !has_packet() && !o->until;
}

/* What the threads wait for, under W. */
static struct { const Objects *objects; WDM_SITE at; } waiting[MAX_SEATS];

/* Whether a thread waits for something in this memory that isn't there; and since where. */
bool waited_in(const void *from, size_t size, WDM_SITE *at)
{
    bool found = false;
    pthread_mutex_lock(&wait_lock);
    for (int seat = 0; seat < MAX_SEATS; seat++) {
        const Objects *o = waiting[seat].objects;
        bool lies_there = false;
        for (ULONG i = 0; o && i < o->n; i++)
            lies_there |= (const char *)o->objects[i] >= (const char *)from &&
                (const char *)o->objects[i] < (const char *)from + size;
        if (lies_there && first_ready(o) < 0) {
            *at = waiting[seat].at;
            found = true;
        }
    }
    pthread_mutex_unlock(&wait_lock);
    return found;
}

static void note_waiting(const Objects *o, WDM_SITE at)
{
    if (self.seat < 0)
        return;
    waiting[self.seat].objects = o;
    waiting[self.seat].at = at;
}

/* Returns which object ended the wait, or -1 where its time is up. */
static int await_objects(const Objects *o, WDM_SITE at)
{
    const Wait w = { .ready = is_one_ready, .deadline = until_of, .context = o, .on = &changed,
                     .object = o->n ? o->objects[0] : NULL, .patience = may_idle(o) ? IDLES : HANGS, .at = at,
                     .what = o->n ? "KeWaitForSingleObject" : "KeDelayExecutionThread" };
    unsigned long began = __atomic_load_n(&host_activity, __ATOMIC_SEQ_CST);
    Woken woken;
    pthread_mutex_lock(&wait_lock);
    note_waiting(o, at);
    while ((woken = wait_for(&w)) == STUCK || woken == OVERDUE) {
        pthread_mutex_unlock(&wait_lock);
        self.wait = &w; /* another thread may tell of it meanwhile */
        hang(woken, began, at);
        self.wait = NULL;
        began = __atomic_load_n(&host_activity, __ATOMIC_SEQ_CST);
        pthread_mutex_lock(&wait_lock);
    }
    note_waiting(NULL, at);
    const int ready = take_ready(o);
    pthread_mutex_unlock(&wait_lock);
    return ready;
}

static LONGLONG end_of(const LARGE_INTEGER *time)
{
    return time->QuadPart <= 0 ? now_in_100ns() - time->QuadPart : time->QuadPart;
}

static void mark_waiting(bool waiting, WDM_SITE at)
{
    Call c;
    enter_quietly(&c, "KeWaitForSingleObject", at);
    for (Frame *f = self.frames; f; f = f->up)
        f->waiting = waiting;
    leave_host();
}

NTSTATUS wait_for_objects(ULONG n, PVOID objects[], WAIT_TYPE type, PLARGE_INTEGER timeout, WDM_SITE at)
{
    point("KeWaitForSingleObject", at);
    if (self.frames)
        mark_waiting(true, at);
    const Objects o = { n, objects, type, timeout ? end_of(timeout) : 0 };
    const int ready = await_objects(&o, at);
    if (self.frames)
        mark_waiting(false, at);
    return ready < 0 ? STATUS_TIMEOUT : (NTSTATUS)ready;
}

/* Mutexes are locks: before and after a wait for them. */
static void learn_mutexes(ULONG n, PVOID objects[], bool taken, WDM_SITE at)
{
    for (ULONG i = 0; i < n; i++)
        if (((DISPATCHER_HEADER *)objects[i])->Type == MUTEX) {
            Call c;
            enter_quietly(&c, "KeWaitForSingleObject", (WDM_SITE){ 0 });
            c.at = at;
            if (taken)
                lock_taken(objects[i], MUTEX_OBJECT, at, self.irql);
            else
                lock_wanted(objects[i], MUTEX_OBJECT);
            leave_host();
        }
}

static NTSTATUS checked_wait(const char *name, ULONG n, PVOID objects[], WAIT_TYPE type, PLARGE_INTEGER timeout,
                             WDM_SITE at)
{
    const bool takes_time = !timeout || timeout->QuadPart;
    if (takes_time)
        check_wait(name, at);
    if (takes_time && (n == 1 || type == WaitAll))
        learn_mutexes(n, objects, false, at);
    const NTSTATUS status = wait_for_objects(n, objects, type, timeout, at);
    if (status != STATUS_TIMEOUT && type == WaitAll)
        learn_mutexes(n, objects, true, at);
    else if (status != STATUS_TIMEOUT)
        learn_mutexes(1, objects + status, true, at);
    return status;
}

NTSTATUS WdmKeWaitForMultipleObjects(ULONG n, PVOID objects[], WAIT_TYPE type, PLARGE_INTEGER timeout, WDM_SITE at)
{
    return checked_wait("KeWaitForMultipleObjects", n, objects, type, timeout, at);
}

NTSTATUS WdmKeWaitForSingleObject(PVOID object, PLARGE_INTEGER timeout, WDM_SITE at)
{
    return checked_wait("KeWaitForSingleObject", 1, &object, WaitAny, timeout, at);
}

NTSTATUS WdmKeDelayExecutionThread(PLARGE_INTEGER interval, WDM_SITE at)
{
    check_wait("KeDelayExecutionThread", at);
    const Objects nothing = { .until = end_of(interval) };
    await_objects(&nothing, at);
    return STATUS_SUCCESS;
}

/* Under G, which it gives back meanwhile: waits until `done`, as long as something goes on. Returns whether it is. */
bool wait_for_host(bool (*done)(const void *), const void *context)
{
    const Wait w = { .ready = done, .context = context, .on = &host_settled, .patience = GIVES_IN,
                     .what = self.calls->name, .at = self.calls->at };
    unsigned long began = __atomic_load_n(&host_activity, __ATOMIC_SEQ_CST);
    Woken woken = wait_for(&w);
    while (woken == OVERDUE && !stands_still_since(began)) {
        began = __atomic_load_n(&host_activity, __ATOMIC_SEQ_CST);
        woken = wait_for(&w);
    }
    return woken == READY;
}
