/* hangs.c: a wait that never ends, and what is in flight then. */
#include "record/own.h"
#include "io/io.h"
#include "ke/ke.h"
#include "mm/mm.h"
#include "pnp/pnp.h"
#include "rules/rules.h"
#include "test/test.h"

enum { MOST_TOLD = 30 };

/* Nobody ends it: its cancel has come, and no cancel routine is there that would. On Windows it isn't ended either. */
bool is_cancelled_and_held(const Packet *p)
{
    return lives(p) && p->owner >= 0 && p->cancel && !p->routine && !p->asking;
}

/* The last call of the dispatch by which this device had the packet last, or no place. */
CallSite last_call_of(const Packet *p, int device)
{
    for (size_t i = n_history; i-- > 0;)
        for (int j = history[i]->p == p && history[i]->use == p->use ? history[i]->n : 0; j-- > 0;) {
            const Asked *a = &history[i]->asked[j];
            if (a->kind == DISPATCH && a->device == device && a->at.site.file)
                return a->at;
        }
    return (CallSite){ .call = NULL };
}

/* Where the holder set its cancel routine; else its own last call, where the sender is the host's test; else the send. */
static CallSite holders_call(const Packet *p)
{
    if (p->sites.cancel.file)
        return (CallSite){ p->sites.cancel, "IoSetCancelRoutine" };
    const CallSite held = is_hosts_file(p->sites.sent.file) ? last_call_of(p, p->owner) : (CallSite){ .call = NULL };
    return held.call ? held : (CallSite){ p->sites.sent, "IoCallDriver" };
}

/* A completion routine of the holder's has kept it, and the holder hasn't made it cancelable since. */
static bool is_lost_by_routine(const Packet *p)
{
    return p->kept_by && !p->called &&
        (!p->sites.cancel.file || driver_of_file(p->sites.cancel.file) != devices[p->owner].driver->HostNumber);
}

static void tell_lost_by_routine(const Packet *p)
{
    char where[200]; /* `run` has the line in place of the address */
    snprintf(where, sizeof where, "+0x%lx in %s", place_in_program(p->kept_by), function_name(p->kept_by));
    Call *const calls = self.calls, here = { .name = where, .by = p->kept_by };
    Frame *const frames = self.frames;
    self.calls = (Call *)&here;
    self.frames = NULL;
    fault("CancelledAndHeld", p, "was cancelled, and %s still holds it: its completion routine answered "
          "STATUS_MORE_PROCESSING_REQUIRED, and nobody has completed it since. Sent at %s", who(p->owner), place(p->sites.sent));
    self.calls = calls;
    self.frames = frames;
}

void tell_cancelled_and_held(const Packet *p)
{
    if (is_lost_by_routine(p)) {
        tell_lost_by_routine(p);
        return;
    }
    const CallSite by = holders_call(p);
    fault_at("CancelledAndHeld", p, by.call, by.site, "was cancelled, and %s still holds it: %s%s. Sent at %s", who(p->owner),
             p->called ? "its cancel routine has run, and hasn't completed it: " :
             "no cancel routine is set. if (Irp->Cancel && IoSetCancelRoutine(Irp, NULL) != NULL) complete it",
             p->called ? function_name((void *)p->called) : "", place(p->sites.sent));
}

typedef struct { const Packet *p; uint64_t use; } Kept;

static bool is_let_go(const void *kept)
{
    const Kept *k = kept;
    return !lives(k->p) || k->p->use != k->use || (k->p->owner == ORIGINATOR && !k->p->asking);
}

/* Whether a driver of the stack has the request once nothing else goes on. Under G. */
static bool is_kept(const Packet *p)
{
    const Kept kept = { p, p->use };
    return lives(p) && !wait_for_host(is_let_go, &kept) && p->owner >= 0 && !is_bottom(devices[p->owner].raw) &&
        !is_between(devices[p->owner].raw);
}

/* A driver has the request where it shouldn't: told where it came to hold it. */
static void tell_keeper(PIRP irp, const char *rule, const char *how, const char *over)
{
    Call c;
    enter_host(&c, over, (WDM_SITE){ 0 });
    const Packet *p = find(irp);
    if (is_kept(p)) {
        const CallSite by = holders_call(p);
        c.name = by.call;
        c.at = by.site;
        broken(rule, p, "%s still holds it %s %s. Sent at %s", who(p->owner), how, over, place(p->sites.sent));
    }
    leave_host();
}

/* The device is gone: a driver that keeps the request until IRP_MN_REMOVE_DEVICE is told. */
VOID WdmTellKept(PIRP Irp) { tell_keeper(Irp, "KeptOverSurprise", "when", "IRP_MN_SURPRISE_REMOVAL is over"); }

/* The device may be used again: a driver that goes on holding what came meanwhile, or comes now, is told. */
VOID WdmTellHeld(PIRP Irp, const char *Over)
{
    tell_keeper(Irp, "NotRestored", "after", Over);
}

BOOLEAN WdmIsKept(PIRP Irp)
{
    Call c;
    enter_host(&c, "what is held", (WDM_SITE){ 0 });
    const BOOLEAN is = is_kept(find(Irp));
    leave_host();
    return is;
}

static bool is_in_flight(const Packet *p) { return lives(p) && (p->owner != ORIGINATOR || p->asking); }

/* Who has the packet. Returns how long the text is. */
static size_t tell_packet(const Packet *p, char *text, size_t size)
{
    const Location *l = &p->at[p->current <= p->size ? p->current : p->size];
    const int n = snprintf(text, size, "IRP %u.%lu (%s), which %s %s%s%s%s, sent at %s", p->slot, (unsigned long)p->use,
                           major_name(l->major), p->asking ? "is in" : who_of(p, p->owner),
                           p->asking ? what_runs(p->asking) : "holds", p->routine ? " with a cancel routine" : "",
                           p->kept_by ? ", kept by " : "", p->kept_by ? function_name(p->kept_by) : "",
                           place(p->sites.sent));
    return n < 0 ? 0 : (size_t)n < size ? (size_t)n : size - 1;
}

static bool is_at(const Packet *p, int device)
{
    for (int j = p->current; j <= p->size; j++)
        if (p->at[j].device == device)
            return true;
    return p->owner == device;
}

/* A packet that is on its way through the device, as the second half of a fault; empty where there is none. */
const char *packet_at(int device)
{
    static _Thread_local char text[420];
    *text = 0;
    for (int i = 0; i < n_packets && !*text; i++)
        if (lives(packets[i]) && is_at(packets[i], device)) {
            memcpy(text, ": ", 2);
            tell_packet(packets[i], text + 2, sizeof text - 2);
        }
    return text;
}

/* Names what is in flight, for a wait that never ends: under G. */
static void tell_in_flight(char *text, size_t size)
{
    size_t n = 0;
    for (int i = 0; i < n_packets && n + 3 < size; i++)
        if (is_in_flight(packets[i])) {
            n += (size_t)snprintf(text + n, size - n, n ? "; " : "");
            n += tell_packet(packets[i], text + n, size - n);
        }
    if (!n)
        snprintf(text, size, "no packet is in flight");
}

/* One line for each packet in flight. */
void tell_packets(void)
{
    char text[400];
    for (int i = 0, n = 0; i < n_packets && n < MOST_TOLD; i++)
        if (is_in_flight(packets[i])) {
            tell_packet(packets[i], text, sizeof text);
            say("  %s", text);
            n++;
        }
}

/* Packets whose dispatch returned without a word for them, completed in its place. Returns whether there was one. */
static bool complete_lost(void)
{
    for (int i = 0; i < n_packets; i++) {
        Packet *p = packets[i];
        if (lives(p) && p->lost && p->owner >= 0 && !p->asking) {
            packets_lost--;
            p->lost = false;
            say("IRP %u.%lu is completed in place of %s, so that the run goes on", p->slot, (unsigned long)p->use,
                who(p->owner));
            if (p->routine) {
                Entry *e = begin(SET_CANCEL, p, p->owner);
                e->reply = PREVIOUS;
                e->seen.routine = p->routine;
                seal(e, false);
                p->routine = p->irp->CancelRoutine = NULL;
            }
            p->irp->IoStatus.Status = STATUS_UNSUCCESSFUL;
            complete(p, p->owner, (ULONG)STATUS_UNSUCCESSFUL, 0);
            return true;
        }
    }
    return false;
}

/* Whether a packet is in flight that nobody has done anything with since: under G. */
bool stands_still_since(unsigned long began)
{
    for (int i = 0; i < n_packets; i++)
        if (is_in_flight(packets[i]) && packets[i]->moved <= began)
            return true;
    return false;
}

/* A thread that runs on in a driver's code, and what waits for it: told by its loop. */
static bool tell_loop(WDM_SITE at, const char *in_flight)
{
    char where[600];
    const void *const loop = loop_of_others(where, sizeof where);
    Call *const calls = self.calls, here = { .name = where, .by = loop };
    Frame *const frames = self.frames;
    if (!loop)
        return false;
    self.calls = (Call *)&here;
    self.frames = NULL;
    fault("Hang", NULL, "this code runs on, and makes no call, while %s at %s waits; %s", calls->name, place(at), in_flight);
    self.calls = calls;
    self.frames = frames;
    return true;
}

/* A wait hangs: told, once. The run goes on where a lost packet can be completed; else it ends. One that only lasts
   long goes on as well, where each packet has moved since it began. */
void hang(Woken why, unsigned long began, WDM_SITE at)
{
    static bool told, by_loop;
    char text[400];
    Call c;
    enter_host(&c, "KeWaitForSingleObject", at);
    if ((why == OVERDUE && !stands_still_since(began)) || tell_framework_waits()) {
        leave_host();
        return;
    }
    if (!told) {
        told = true;
        for (int i = 0; i < n_packets; i++)
            if (is_cancelled_and_held(packets[i]))
                tell_cancelled_and_held(packets[i]);
        tell_in_flight(text, sizeof text);
        by_loop = tell_loop(at, text);
        if (!by_loop)
            fault("Hang", NULL, why == OVERDUE ? "waits, and no thread ends the wait, while other threads go on; %s%s" :
                  "waits, and no thread will end the wait; %s%s", text, never_set());
    }
    const bool goes_on = complete_lost();
    if (!goes_on)
        give_up(by_loop ? "a thread runs on for ever" : why == OVERDUE ? "a packet doesn't go on any more" :
                "a deadlock: every thread waits");
    leave_host();
}
