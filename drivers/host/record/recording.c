/* recording.c: entries, their numbers, and small numbers that stand for pointers. */
#include "record/own.h"
#include "io/io.h"
#include "mm/mm.h"

Entry **history;
size_t n_history;
unsigned long n_recorded;
int n_sends;
static size_t room;

/* A device that kept or finished the packet may have been detached since it was asked: the entry comes behind that. */
static void look_below(Entry *e)
{
    for (int i = 0; i < e->n; i++)
        if (e->asked[i].kind == DISPATCH && (e->asked[i].plan == FINISH || e->asked[i].plan == HOLD))
            e->asked[i].has_lower = devices[e->asked[i].device].lower >= 0;
}

/* A new entry, which isn't in the history yet. */
Entry *begin(Op op, Packet *p, int by)
{
    if (p && p->ghost && op != SET_CANCEL && op != CANCEL && op != LOOK)
        tell_ghost(p);
    if (p)
        p->moved = __atomic_load_n(&host_activity, __ATOMIC_SEQ_CST);
    Entry *e = calloc(1, sizeof *e);
    if (!e)
        give_up("out of memory");
    *e = (Entry){ .op = op, .seat = self.seat, .by = by, .p = p, .slot = p ? p->slot : 0, .use = p ? p->use : 0, .driver = NOBODY,
        .began = n_recorded };
    begun_here(e);
    return e;
}

/* The entry gets the next number. `cancel` is what all that were asked have been shown. */
static void number(Entry *e, bool cancel)
{
    if (n_history == MAX_HISTORY)
        reach_limit("the history has a million entries");
    if (n_history == room) {
        room = room ? 2 * room : 1024;
        history = realloc(history, room * sizeof *history);
        if (!history)
            give_up("out of memory");
    }
    look_below(e);
    e->cancel = cancel;
    e->numbered = true;
    e->number = n_history;
    e->order = n_recorded++;
    history[n_history++] = e;
}

/* The entry is settled. It has its number now, if not before. */
void seal(Entry *e, bool cancel)
{
    if (!e->numbered)
        number(e, cancel);
    e->sealed = true;
    if (e->op == CALL && e->reply == NONE_YET)
        n_sends++;
}

/* Whether the device has sent the entry's packet down, by this call or asked in it. */
static bool has_passed_down(const Entry *e, int d)
{
    if (e->op == CALL && e->by == d)
        return true;
    for (int i = 0; i < e->n; i++)
        if (e->asked[i].kind == DISPATCH && e->asked[i].device == d && e->asked[i].plan >= SKIPS &&
            e->asked[i].plan <= FORWARD_PEND)
            return true;
    return false;
}

/* A device is about to be detached. It passed down what is on its way up now while a device stood below it: these sends come
   before, whatever their routines still answer. */
void number_sends_through(int d)
{
    for (int i = 0; i < n_packets; i++) {
        Packet *p = packets[i];
        if (lives(p) && p->open && !p->open->numbered && has_passed_down(p->open, d))
            number(p->open, p->cancel);
    }
}

Entry *answered(Entry *e, Reply reply, uint64_t answer)
{
    e->reply = reply;
    e->answer = answer;
    seal(e, false);
    return e;
}

/* Where the packet's last event of that kind was, for the second half of a fault. */
static void tell_before(const Packet *p, const char *name, char *text, size_t size)
{
    const char *what = NULL;
    WDM_SITE at = { 0 };
    *text = 0;
    if (!p)
        return;
    if (!strcmp(name, "Ended"))
        what = "completed before at", at = p->sites.completed;
    else if (!strcmp(name, "NoIrp"))
        what = "freed before at", at = p->sites.freed;
    else if (!strcmp(name, "NotOwner") && p->owner < 0 && p->sites.completed.file)
        what = "completed before at", at = p->sites.completed;
    else if (!strcmp(name, "NotOwner") || !strcmp(name, "InFlight"))
        what = "sent before at", at = p->sites.sent;
    else if (!strcmp(name, "CancelRoutineSet"))
        what = "set before at", at = p->sites.cancel;
    if (what && at.file)
        snprintf(text, size, ", %s %s", what, *what == 'c' ? place_with_callers(at, &p->completers) : place(at));
}

/* Whether a completion is refused because the packet was completed before. */
static bool is_second(const Entry *e)
{
    return e->op == COMPLETE && e->p->sites.completed.file && (e->p->owner < 0 || !e->p->live);
}

/* The host's own test sends to a device that a driver has deleted: the delete is told, not the send. */
static bool is_sent_where_deleted(const Entry *e)
{
    return e->op == CALL && !strcmp(e->refused, "DeviceGone") && !devices[e->other].live && devices[e->other].deleted.file &&
        self.calls && is_hosts_file(self.calls->at.file);
}

/* A call that the rules refuse: it is recorded so, has no effect, and is told. */
void refuse(Entry *e, const char *name)
{
    char before[540], holder[200] = "";
    e->refused = name;
    const bool second = is_second(e);
    const char *rule = second ? "CompletedTwice" : name;
    tell_before(e->p, second ? "Ended" : name, before, sizeof before);
    if (e->p && !second && !strcmp(name, "NotOwner"))
        snprintf(holder, sizeof holder, "; the packet is with %s", who_of(e->p, e->p->owner));
    if (is_expected_refusal(name))
        note("a refusal that the test expects", "%s is refused: %s", op_name(e->op), name);
    else if (e->op <= REMOVE)
        fault(rule, NULL, "refused for %s%s", who(e->device),
              !strcmp(name, "NotDrained") ? held_tags(e->device) : !strcmp(name, "InFlight") ? packet_at(e->device) : "");
    else if (is_sent_where_deleted(e))
        fault_at(rule, e->p, "IoDeleteDevice", devices[e->other].deleted, "%s is deleted here, and a request is sent to it "
                 "afterwards; refused: %s", who(e->other), name);
    else if (e->op >= SET_NEXT && e->op <= SET_CANCEL)
        fault(rule, e->p, "by %s%s%s%s; refused: %s", who_of(e->p, e->by), before, holder, second ? none_taken(e->p) : "",
              name);
    else
        fault(rule, e->p, "by %s%s%s; refused: %s", who_calls(), before, holder, name);
    answered(e, REFUSED, 0);
}

int ask(Entry *e, Packet *p, Kind kind, void *fn, int device, int location)
{
    e->asked = realloc(e->asked, (size_t)(e->n + 1) * sizeof *e->asked);
    if (!e->asked)
        give_up("out of memory");
    e->asked[e->n] = (Asked){ .kind = kind, .fn = fn, .device = device, .location = location,
        .major = p->at[location].major, .word = p->at[location].word, .status = p->status,
        .information = p->information };
    p->moved = __atomic_load_n(&host_activity, __ATOMIC_SEQ_CST);
    return e->n++;
}

/* What a packet looks like, from its own memory: recorded at the end of each use, for the judge to compare. Where a
   driver's own memory was kept, the driver may have freed that by now. */
void look(Packet *p)
{
    Entry *e = begin(LOOK, p, ORIGINATOR);
    const bool ended = p->owner == ENDED, may_be_gone = !ended && !is_in_page(p->irp);
    e->seen.owner = p->owner;
    e->seen.current = p->current;
    e->seen.status = ended ? (ULONG)p->irp->IoStatus.Status : p->status;
    e->seen.information = ended ? p->irp->IoStatus.Information : p->information;
    e->seen.cancel = may_be_gone ? p->cancel : p->irp->Cancel;
    e->seen.routine = p->routine;
    e->seen.returned = may_be_gone ? p->returned : p->irp->PendingReturned;
    answered(e, SEEN, 0);
}

/* A small number for a pointer, by order of appearance. */
uint64_t number_of(const void *raw)
{
    enum { BITS = 18, ROOM = 1 << BITS };
    static struct { const void *raw; uint64_t number; } table[ROOM];
    static uint64_t last;
    if (!raw)
        return 0;
    size_t i = ((uintptr_t)raw * 0x9E3779B97F4A7C15u) >> (64 - BITS);
    while (table[i].raw && table[i].raw != raw)
        i = (i + 1) & (ROOM - 1);
    if (!table[i].raw) {
        if (last == ROOM / 2)
            reach_limit("too many different contexts and tags");
        table[i].raw = raw, table[i].number = ++last;
    }
    return table[i].number;
}

/* The one word that stands for all parameters: the minor or the length where nothing else is set, else a hash. In the
   hash a value that can be a pointer counts by its order of appearance, so that a run gives the same words again. */
uint64_t word_of(const IO_STACK_LOCATION *l)
{
    uint64_t parts[sizeof l->Parameters / 8], h = 0xcbf29ce484222325u, rest = 0;
    if (is_usual_open(l))
        return l->MinorFunction;
    memcpy(parts, &l->Parameters, sizeof parts);
    for (size_t i = 0; i < sizeof parts / 8; i++)
        rest |= i ? parts[i] : parts[i] >> 32;
    if (!rest && !l->Flags && (!l->MinorFunction || !parts[0]))
        return l->MinorFunction ? l->MinorFunction : parts[0];
    for (size_t i = 0; i < sizeof parts / 8; i++) {
        uint64_t part = parts[i] >> 40 == 0x55 || parts[i] >> 40 == 0x56 || parts[i] >> 40 == 0x7f ?
            number_of((const void *)parts[i]) : parts[i];
        h = (h ^ part) * 0x100000001b3u;
        h ^= h >> 29;
    }
    return ((h ^ l->MinorFunction ^ (uint64_t)l->Flags << 8) * 0x100000001b3u) | 1ull << 63;
}
