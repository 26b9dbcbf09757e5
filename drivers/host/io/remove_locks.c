/*
 * remove_locks.c: remove locks. The one in a device's extension has the device's number, and gives word lines, which
 * `irpx check` doesn't judge: the host does. One that lies elsewhere, in pool or in a global, has a number behind all
 * devices': the host checks it in the same way, and records nothing of it.
 */
#include "explore/explore.h"
#include "ke/ke.h"
#include "record/record.h"
#include "rules/rules.h"

enum { MAX_LOCKS = MAX_DEVICES + 64 };
typedef struct { PVOID tag; int seat, device; UCHAR major; bool in_dispatch; WDM_SITE at; const Packet *p; uint64_t use, frame; } Held;
typedef struct { PIO_REMOVE_LOCK raw; WDM_SITE made; Held held[MAX_HELD]; int n; bool removed; uint64_t knows; } Lock;

static Lock locks[MAX_LOCKS];

/* The ways by which routines returned that acquired a lock which is still held, or that had the packet of its tag: the last
   ones, the newest over the eldest. */
enum { MAX_WAYS = 128, MOST_WAYS = 2 };
typedef struct { const Lock *lock; PVOID tag; uint64_t use, frame; const void *fn; CallSite last; Callers by; } Way;
static Way ways[MAX_WAYS];
static unsigned long n_ways;

static void keep_way(const Lock *k, const Held *h, const Frame *f)
{
    Way *w = &ways[n_ways++ % MAX_WAYS];
    const WDM_SITE done = f->p ? f->p->sites.completed : (WDM_SITE){ 0 };
    *w = (Way){ k, h->tag, h->use, h->frame, f->fn, { f->last, f->last_call }, { .n = 0 } };
    if (f->last.file && f->last.file == done.file && f->last.line == done.line)
        w->by = f->p->completers;
}

static void keep_ways(const Lock *k, const Frame *f)
{
    for (int i = 0; i < k->n; i++)
        if (k->held[i].frame == f->number || (k->held[i].p && k->held[i].p == f->p && k->held[i].use == f->use))
            keep_way(k, &k->held[i], f);
}

/* A routine returns. Under G. */
void keep_lock_ways(const Frame *f)
{
    if (f->device >= 0)
        keep_ways(&locks[f->device], f);
    for (int i = MAX_DEVICES; i < MAX_LOCKS; i++)
        keep_ways(&locks[i], f);
}

static bool was_before(unsigned long n, unsigned long newest)
{
    for (unsigned long i = n + 1; i <= newest; i++)
        if (ways[i % MAX_WAYS].fn == ways[n % MAX_WAYS].fn && ways[i % MAX_WAYS].frame == ways[n % MAX_WAYS].frame)
            return true;
    return false;
}

/* By which ways it was left, the last one first; empty where no routine has returned since. */
static const char *left_by(const Lock *k, const Held *h)
{
    static _Thread_local char text[400];
    size_t length = 0;
    int told = 0;
    *text = 0;
    for (unsigned long n = n_ways; n-- > 0 && n + MAX_WAYS >= n_ways && told < MOST_WAYS && length < sizeof text;) {
        const Way *w = &ways[n % MAX_WAYS];
        if (w->lock != k || w->tag != h->tag || w->use != h->use || w->frame != h->frame || was_before(n, n_ways - 1))
            continue;
        const char *between = told++ ? ", and by " : ", left by ";
        if (w->last.call)
            length += (size_t)snprintf(text + length, sizeof text - length, "%s%s after %s at %s", between, function_name(w->fn),
                                       w->last.call, place_with_callers(w->last.site, &w->by));
        else
            length += (size_t)snprintf(text + length, sizeof text - length, "%s+0x%lx in %s", between, place_in_program(w->fn),
                                       function_name(w->fn));
    }
    return text;
}

static bool is_devices(int lock) { return lock < MAX_DEVICES; }

BOOLEAN WdmHaveRemoveLocks(PDEVICE_OBJECT Top, PDEVICE_OBJECT Bottom)
{
    bool have = true;
    hold_host("remove locks are looked up", &devices, READS);
    for (int d = device_number(Top); d >= 0 && devices[d].raw != Bottom; d = devices[d].lower)
        have &= devices[d].bound;
    pthread_mutex_unlock(&host_lock);
    return have;
}

static const char *lock_name(int lock)
{
    static _Thread_local char text[200];
    if (is_devices(lock))
        snprintf(text, sizeof text, "the remove lock of %s", who(lock));
    else
        snprintf(text, sizeof text, "the remove lock that was initialized at %s", place(locks[lock].made));
    return text;
}

static void write_word(const char *act, int lock, PVOID tag, const char *reply, int by, int to)
{
    if (is_devices(lock))
        record_word(act, lock, tag, reply, by, to);
}

bool lock_knows_drained(int device) { return locks[device].knows >> self.seat & 1; }

/* The packet whose pointer the tag is, and what became of it; empty where there is none. */
static const char *tagged(const Held *h)
{
    static _Thread_local char text[80];
    const Packet *p = h->p;
    if (!p)
        return "";
    const int n = snprintf(text, sizeof text, " (IRP %u.%lu", p->slot, (unsigned long)h->use);
    if (p->use != h->use || !p->live)
        snprintf(text + n, sizeof text - (size_t)n, ", which has ended)");
    else if (p->owner == ENDED)
        snprintf(text + n, sizeof text - (size_t)n, ", which ended with 0x%x)", (unsigned)p->status);
    else
        snprintf(text + n, sizeof text - (size_t)n, p->owner == ORIGINATOR && p->sites.completed.file
                 ? ", which its originator has again)" : ", which hasn't ended)");
    return text;
}

/* Who holds the lock: tags, and where they were taken. */
const char *held_tags(int device)
{
    static _Thread_local char text[800];
    size_t n = 0;
    const Lock *k = &locks[device];
    if (!k->n)
        return k->removed ? "" : "; no IoReleaseRemoveLockAndWait has returned";
    for (int i = 0; i < k->n && i < 4 && n < sizeof text; i++) {
        const Held *h = &k->held[i];
        n += (size_t)snprintf(text + n, sizeof text - n, "%stag %lu%s, taken at %s in %s%s%s%s%s", n ? "; " : ": ",
                              (unsigned long)number_of(h->tag), tagged(h), place(h->at), h->at.function ? h->at.function : "?",
                              h->in_dispatch ? " (dispatch for " : "", h->in_dispatch ? major_name(h->major) : "",
                              h->in_dispatch ? ")" : "", left_by(k, h));
    }
    if (k->n > 4 && n < sizeof text)
        snprintf(text + n, sizeof text - n, "; and %d more", k->n - 4);
    return text;
}

/* The device whose extension has the lock, where it is the first one in there; else NOBODY. */
static int device_of(PIO_REMOVE_LOCK lock)
{
    for (int i = n_devices - 1; i >= 0; i--) {
        const char *extension = devices[i].raw->DeviceExtension;
        if ((char *)lock >= extension && (char *)lock < extension + devices[i].raw->HostExtensionSize)
            return !locks[i].raw || locks[i].raw == lock ? i : NOBODY;
    }
    return NOBODY;
}

/* A number behind those of devices: the one that the lock had before; else one that no lock has, or one that has been
   drained. */
static int number_elsewhere(PIO_REMOVE_LOCK lock)
{
    int found = NOBODY;
    for (int i = MAX_LOCKS - 1; i >= MAX_DEVICES; i--)
        if (!locks[i].raw || (locks[i].removed && !locks[i].n))
            found = i;
    for (int i = MAX_DEVICES; i < MAX_LOCKS; i++)
        if (locks[i].raw == lock)
            found = i;
    if (found < 0)
        reach_limit("more than 64 remove locks that lie in no device's extension");
    locks[found].n = 0;
    locks[found].removed = false;
    return found;
}

VOID WdmIoInitializeRemoveLock(PIO_REMOVE_LOCK Lock, WDM_SITE at)
{
    Call c;
    enter_host(&c, "IoInitializeRemoveLock", at);
    const int device = device_of(Lock), number = device >= 0 ? device : number_elsewhere(Lock);
    if (device < 0)
        note("a remove lock", "it lies in no device's extension: the host checks it, and the transcript doesn't have it");
    locks[number].raw = Lock;
    locks[number].made = at;
    Lock->Common = (IO_REMOVE_LOCK_COMMON_BLOCK){ .IoCount = 1, .HostNumber = number, .HostBound = TRUE };
    leave_host();
}

/* Locks in this memory go with it: for one outside of extensions. A device with a lock that is held isn't deleted. */
void forget_remove_locks(const void *from, size_t size, const char *why)
{
    const char *begin = from;
    for (int i = MAX_DEVICES; i < MAX_LOCKS; i++) {
        Lock *k = &locks[i];
        if ((const char *)k->raw < begin || (const char *)k->raw >= begin + size)
            continue;
        if (k->n)
            broken("LockInFreedMemory", NULL, "%s is held%s, in the %s", lock_name(i), held_tags(i), why);
        k->raw = NULL;
    }
}

static int lock_of(PIO_REMOVE_LOCK lock)
{
    if (lock->Common.HostBound != TRUE || lock->Common.HostNumber < 0 || lock->Common.HostNumber >= MAX_LOCKS)
        give_up("a remove lock is used before IoInitializeRemoveLock");
    check_used(lock, "remove lock");
    touch(&locks[lock->Common.HostNumber], strcmp(self.calls->name, "IoReleaseRemoveLockAndWait") ? MEETS : SYNCS);
    return lock->Common.HostNumber;
}

NTSTATUS WdmIoAcquireRemoveLock(PIO_REMOVE_LOCK RemoveLock, PVOID Tag, WDM_SITE at)
{
    Call c;
    enter_host(&c, "IoAcquireRemoveLock", at);
    const int d = lock_of(RemoveLock);
    Lock *k = &locks[d];
    if (is_devices(d))
        devices[d].bound = true; /* one that nobody ever acquired needs no drain */
    const bool removed = k->removed;
    RemoveLock->Common.IoCount += !removed;
    const Frame *f = self.frames;
    if (!removed && k->n == MAX_HELD)
        reach_limit("a remove lock that is held 1,024 times: let its test have fewer requests at once");
    if (!removed)
        k->held[k->n++] = (Held){ .tag = Tag, .seat = self.seat, .device = f ? f->device : NOBODY, .at = at,
                                  .in_dispatch = f && f->kind == DISPATCH, .major = f ? f->major : 0,
                                  .p = f && f->p && f->p->irp == Tag ? f->p : NULL, .use = f ? f->use : 0,
                                  .frame = f ? f->number : 0 };
    write_word("acquire", d, Tag, removed ? "{\"status\":3221225558}" : "{\"status\":0}", self.seat, -1);
    leave_host();
    return removed ? STATUS_DELETE_PENDING : STATUS_SUCCESS;
}

/* The live packet whose pointer the tag is, or NULL. */
static const Packet *packet_of_tag(PVOID tag)
{
    for (int i = n_packets - 1; i >= 0; i--)
        if (packets[i]->live && packets[i]->irp == tag && !packets[i]->stands_in.of)
            return packets[i];
    return NULL;
}

/* Gives one reference back: this seat's under the tag, else another seat's, which is handed over first. */
static bool give_back(int d, PVOID tag, const char *act)
{
    Lock *k = &locks[d];
    int found = -1;
    for (int i = 0; i < k->n; i++)
        if (k->held[i].tag == tag && (found < 0 || k->held[i].seat == self.seat))
            found = i;
    if (found < 0) {
        write_word(act, d, tag, "\"not_held\"", self.seat, -1);
        const Packet *p = packet_of_tag(tag);
        const Held none = { .p = p, .use = p ? p->use : 0 };
        fault("NotHeld", NULL, "%s is released under tag %lu%s, which isn't held%s%s", lock_name(d),
              (unsigned long)number_of(tag), tagged(&none), k->n ? "; held" : "", k->n ? held_tags(d) : "");
        return false;
    }
    if (k->held[found].seat != self.seat)
        write_word("hand", d, tag, "\"ok\"", k->held[found].seat, self.seat);
    write_word(act, d, tag, "\"ok\"", self.seat, -1);
    k->held[found] = k->held[--k->n];
    k->raw->Common.IoCount--;
    tell_waiters(&host_settled);
    return true;
}

VOID WdmIoReleaseRemoveLock(PIO_REMOVE_LOCK RemoveLock, PVOID Tag, WDM_SITE at)
{
    Call c;
    enter_host(&c, "IoReleaseRemoveLock", at);
    give_back(lock_of(RemoveLock), Tag, "release");
    leave_host();
}

static bool is_drained(const void *lock) { return !((const Lock *)lock)->n; }

VOID WdmIoReleaseRemoveLockAndWait(PIO_REMOVE_LOCK RemoveLock, PVOID Tag, WDM_SITE at)
{
    Call c;
    enter_host(&c, "IoReleaseRemoveLockAndWait", at);
    const int d = lock_of(RemoveLock);
    Lock *k = &locks[d];
    if (k->removed) {
        write_word("begin_remove", d, Tag, "\"already_removing\"", self.seat, -1);
        fault("AlreadyRemoving", NULL, "%s is drained twice", lock_name(d));
    } else if (give_back(d, Tag, "begin_remove")) {
        k->removed = true;
        RemoveLock->Common.Removed = TRUE;
        RemoveLock->Common.IoCount--;
    }
    if (k->n)
        wait_for_host(is_drained, k);
    touch(k, SYNCS);
    if (k->n)
        fault("NotDrained", NULL, "%s isn't drained, so Windows would wait for ever: %d held%s", lock_name(d), k->n, held_tags(d));
    else if (k->removed) {
        write_word("drained", d, NULL, "\"yes\"", self.seat, -1);
        k->knows |= 1ull << self.seat;
    }
    leave_host();
}
