/*
 * locks.c: which thread holds which lock since which line, and in which order locks are taken.
 *
 * Where A is taken before B here and B before A there, two threads can stand still, and that is told without their
 * doing so. Locks that were always taken under one and the same third lock can't: then nothing is told.
 */
#include "rules/rules.h"
#include "explore/explore.h"
#include "ke/ke.h"
#include "record/record.h"

enum { MAX_NESTED = 32, MAX_ORDERS = 1024, MAX_GATES = 4, MAX_WAY = 8 };
typedef struct { Hold held[MAX_NESTED]; int n; } Holds;
typedef struct {
    const void *from, *to;
    WDM_SITE from_at, to_at;
    const void *gates[MAX_GATES]; /* locks that were held outside of both, each time */
    int n_gates;
    bool told;
} Order;

static Holds of_seat[MAX_SEATS];
static Order orders[MAX_ORDERS];
static int n_orders;

const char *lock_kind(LockKind kind)
{
    return kind == SPIN_LOCK ? "spin lock" : kind == CANCEL_LOCK ? "cancel spin lock" :
        kind == FAST_LOCK ? "fast mutex" : kind == SHARED_SPIN ? "EX_SPIN_LOCK" : kind == PUSH_LOCK ? "push lock" : "mutex";
}

static bool is_spin(const Hold *h) { return h->kind == SPIN_LOCK || h->kind == CANCEL_LOCK || h->kind == SHARED_SPIN; }

static Hold *hold_of(int seat, const void *lock)
{
    for (int i = 0; i < of_seat[seat].n; i++)
        if (of_seat[seat].held[i].lock == lock)
            return &of_seat[seat].held[i];
    return NULL;
}

/* The spin lock, or cancel spin lock, that this thread took last and holds. */
const Hold *held_spin_lock(void)
{
    const Holds *mine = &of_seat[self.seat];
    for (int i = mine->n - 1; i >= 0; i--)
        if (is_spin(&mine->held[i]))
            return &mine->held[i];
    return NULL;
}

static bool has_gate(const Order *o, const void *gate)
{
    for (int i = 0; i < o->n_gates; i++)
        if (o->gates[i] == gate)
            return true;
    return false;
}

/* Finds orders that lead from `at` to `goal`. Returns how many, or 0. */
static int find_way(const void *at, const void *goal, Order **way, int n)
{
    for (int i = 0; i < n_orders && n < MAX_WAY; i++) {
        bool seen = orders[i].from != at;
        for (int j = 0; j < n; j++)
            seen |= way[j] == &orders[i];
        if (seen)
            continue;
        way[n] = &orders[i];
        if (orders[i].to == goal)
            return n + 1;
        const int found = find_way(orders[i].to, goal, way, n + 1);
        if (found)
            return found;
    }
    return 0;
}

static void tell_order(Order *here)
{
    Order *way[MAX_WAY];
    const int n = find_way(here->to, here->from, way, 0);
    char text[240] = "";
    size_t length = 0;
    if (!n || here->told)
        return;
    for (int g = 0; g < here->n_gates; g++) {
        bool in_all = true;
        for (int i = 0; i < n; i++)
            in_all &= has_gate(way[i], here->gates[g]);
        if (in_all)
            return;
    }
    for (int i = 0; i < n && length < sizeof text; i++)
        length += (size_t)snprintf(text + length, sizeof text - length, "%s one is taken at %s with one held since %s",
                                   i ? ", and" : "", place(way[i]->to_at), place(way[i]->from_at));
    here->told = way[n - 1]->told = true;
    broken("LockOrder", NULL, "a lock is taken here with one held since %s, and the other way round%s",
           place(here->from_at), text);
}

static Order *order_of(const Hold *outer, const void *lock)
{
    for (int i = 0; i < n_orders; i++)
        if (orders[i].from == outer->lock && orders[i].to == lock)
            return &orders[i];
    return NULL;
}

/* This thread takes the lock while it holds the i-th of its own. */
static void learn_order(const Holds *mine, int i, const void *lock)
{
    const Hold *outer = &mine->held[i];
    Order *o = order_of(outer, lock);
    bool is_new = false;
    if (!o && n_orders < MAX_ORDERS) {
        o = &orders[n_orders++];
        *o = (Order){ .from = outer->lock, .to = lock, .from_at = outer->at, .to_at = self.calls->at };
        for (int g = 0; g < i && o->n_gates < MAX_GATES; g++)
            o->gates[o->n_gates++] = mine->held[g].lock;
        is_new = true;
    }
    for (int g = 0; o && !is_new && g < o->n_gates; g++)
        if (!hold_of(self.seat, o->gates[g])) {
            o->gates[g--] = o->gates[--o->n_gates];
            o->from_at = outer->at;
            o->to_at = self.calls->at;
        }
    if (o && !o->told)
        tell_order(o);
}

/* Before a lock is taken. Returns whether this thread holds it already, where it may not: then it is told, and the
   lock counts as taken once more. */
bool lock_wanted(const void *lock, LockKind kind)
{
    Holds *mine = &of_seat[self.seat];
    Hold *h = hold_of(self.seat, lock);
    if (h) {
        h->again += kind != MUTEX_OBJECT;
        if (kind != MUTEX_OBJECT)
            broken("SelfDeadlock", NULL, "this thread has held the %s since %s: Windows stands still here",
                   lock_kind(kind), place(h->at));
        return true;
    }
    for (int i = 0; i < mine->n; i++)
        learn_order(mine, i, lock);
    return false;
}

void lock_taken(const void *lock, LockKind kind, WDM_SITE at, KIRQL before)
{
    Holds *mine = &of_seat[self.seat];
    Hold *h = hold_of(self.seat, lock);
    if (h)
        h->again++; /* a mutex, which is recursive */
    else if (mine->n < MAX_NESTED)
        mine->held[mine->n++] = (Hold){ .lock = lock, .kind = kind, .at = at, .before = before, .frame = self.frames };
}

/* The spin lock that is held longest from now on knows the level from before the first one. */
static void take_out(Holds *holds, Hold *h)
{
    const Hold gone = *h;
    memmove(h, h + 1, (size_t)(holds->held + holds->n - 1 - h) * sizeof *h);
    holds->n--;
    for (int i = 0; i < holds->n && is_spin(&gone); i++)
        if (is_spin(&holds->held[i])) {
            if (gone.before < holds->held[i].before)
                holds->held[i].before = gone.before;
            break;
        }
}

/* Before a lock is given back. Returns whether that is to be done. */
bool lock_given_back(const void *lock, LockKind kind)
{
    Hold *h = hold_of(self.seat, lock);
    if (h && h->again) {
        h->again--;
        return false;
    }
    if (h) {
        take_out(&of_seat[self.seat], h);
        return true;
    }
    for (int seat = 0; seat < n_seats; seat++)
        if ((h = hold_of(seat, lock))) {
            broken("WrongThread", NULL, "the %s is held by another thread since %s", lock_kind(kind), place(h->at));
            return false;
        }
    broken("NotAcquired", NULL, "nobody holds the %s", lock_kind(kind));
    return false;
}

/* The level that a release hands over: DISPATCH_LEVEL while another spin lock is held; else what there was before the
   first one, or where the routine began. */
void check_release_level(const void *lock, KIRQL irql)
{
    const Holds *mine = &of_seat[self.seat];
    const Hold *h = hold_of(self.seat, lock), *first = NULL;
    int others = 0;
    for (int i = 0; i < mine->n; i++)
        if (is_spin(&mine->held[i])) {
            first = first ? first : &mine->held[i];
            others += mine->held[i].lock != lock;
        }
    if (!h || h->again)
        return;
    const KIRQL begin = self.frames ? self.frames->irql : PASSIVE_LEVEL;
    if (others ? irql < DISPATCH_LEVEL : irql != first->before && irql != h->before && irql != begin)
        broken("WrongIrql", NULL, "the %s is given back with %s; it was taken at %s%s%s", lock_kind(h->kind),
               level_name(irql), place(h->at), others ? ", and another spin lock is held" : ", at ",
               others ? "" : level_name(first->before));
}

/* What a routine of a driver took and still holds where it returns: told, and given back in its place. */
void tell_locks_kept(const Frame *f)
{
    Holds *mine = &of_seat[self.seat];
    for (int i = mine->n - 1; i >= 0; i--) {
        const Hold h = mine->held[i];
        if (h.frame != f)
            continue;
        const Call c = { .up = self.calls, .name = "still held where the routine returns", .at = h.at };
        self.calls = (Call *)&c;
        broken(h.kind == MUTEX_OBJECT ? "MutexKept" : "LockKept", NULL, "the %s was taken here, and %s returns with it", lock_kind(h.kind),
               f ? what_runs(f) : "a thread");
        self.calls = c.up;
        take_out(mine, &mine->held[i]);
        touch(h.lock, SYNCS);
        if (h.kind == SHARED_SPIN)
            drop_shared_spin(h.lock);
        else if (h.kind == PUSH_LOCK)
            drop_push_lock(h.lock);
        else if (is_spin(&h))
            __atomic_store_n((PKSPIN_LOCK)h.lock, 0, __ATOMIC_SEQ_CST);
        else if (h.kind == MUTEX_OBJECT)
            release_object((DISPATCHER_HEADER *)h.lock);
        else
            release_object(&((PFAST_MUTEX)h.lock)->Mutex.Header);
        self.irql = h.before;
    }
}

/* A driver's thread ends. */
void check_thread_end(void)
{
    Call c;
    enter_host(&c, "PsTerminateSystemThread", (WDM_SITE){ 0 });
    tell_locks_kept(NULL);
    leave_host();
}

/* Locks in this memory are new ones, or gone with what is named. */
void forget_locks(const void *from, size_t size, const char *why)
{
    const char *begin = from, *end = begin + size;
    for (int seat = 0; seat < n_seats; seat++)
        for (int i = 0; i < of_seat[seat].n; i++) {
            const Hold h = of_seat[seat].held[i];
            if ((const char *)h.lock < begin || (const char *)h.lock >= end)
                continue;
            if (why)
                broken("LockInFreedMemory", NULL, "a %s is held since %s, in the %s", lock_kind(h.kind), place(h.at), why);
            else
                broken("InitializedHeld", NULL, "the %s is held since %s", lock_kind(h.kind), place(h.at));
            take_out(&of_seat[seat], &of_seat[seat].held[i--]);
        }
    for (int i = 0; i < n_orders; i++) {
        const char *a = orders[i].from, *b = orders[i].to;
        if ((a >= begin && a < end) || (b >= begin && b < end))
            orders[i--] = orders[--n_orders];
    }
}

/* Who holds the lock, as a hold and a seat; or NULL. */
const Hold *holder_of(const void *lock, int *seat)
{
    for (*seat = 0; *seat < n_seats; ++*seat)
        if (hold_of(*seat, lock))
            return hold_of(*seat, lock);
    return NULL;
}

/* A line for each lock that a thread holds. */
void tell_locks_held(void)
{
    for (int seat = 0; seat < n_seats; seat++)
        for (int i = 0; i < of_seat[seat].n; i++) {
            const Hold *h = &of_seat[seat].held[i];
            say("  thread %d holds a %s since %s", seat, lock_kind(h->kind), place(h->at));
        }
}

/* A spin lock that nobody gives back: who holds it, and what each thread holds. */
void tell_deadlock(const void *lock)
{
    char text[240] = "";
    size_t length = 0;
    for (int seat = 0; seat < n_seats; seat++)
        for (int i = 0; i < of_seat[seat].n && length < sizeof text; i++) {
            const Hold *h = &of_seat[seat].held[i];
            length += (size_t)snprintf(text + length, sizeof text - length, "; thread %d %s a %s since %s", seat,
                                       h->lock == lock ? "holds it," : "holds", lock_kind(h->kind), place(h->at));
        }
    broken("LockOrder", NULL, "thread %d waits here for ever%s", self.seat, text);
}
