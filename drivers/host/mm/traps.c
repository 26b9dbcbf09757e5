/*
 * traps.c: each packet lies in a page of its own, which nobody may touch from the packet's end on.
 *
 * The first touch of an ended packet is remembered by the handler, and told at the thread's next call: a driver that
 * completes twice writes IoStatus first, and then the completion is the cause that is told, not the touch.
 */
#include "mm/own.h"
#include "explore/explore.h"
#include "io/io.h"
#include "record/record.h"
#include "rules/rules.h"
#include <sys/mman.h>

static void tell_touch(const char *call, PIRP irp);

static char *arena;
static bool is_on;

static void open_page(size_t i)
{
    if (is_packet_page_open(i))
        return;
    mprotect(arena + i * PAGE, PAGE, PROT_READ | PROT_WRITE);
    packet_page_opens(i);
}

static void close_page(size_t i)
{
    packet_page_closes(i);
    mprotect(arena + i * PAGE, PAGE, PROT_NONE);
}

/* The instruction of a touch; where a function makes it that copies for its caller, the call of that. */
static const void *toucher_of(const void *context)
{
    const void *at = instruction_of(context), *above[MOST_CALLERS];
    int i = 0;
    if (is_in_program(at) && !is_helper(at))
        return at;
    const int n = where_is(true, above, MOST_CALLERS);
    while (i < n && is_helper(above[i]))
        i++;
    return i < n ? above[i] : at;
}

/* The driver whose function touches, where the routine that runs is another driver's; or NOBODY. */
static int called_driver(const void *at)
{
    if (!self.frames || is_code_of_one(at, self.frames->fn))
        return NOBODY;
    for (int i = 0; i < n_drivers; i++)
        if (is_code_of_one(at, (const void *)drivers[i]->DriverInit))
            return i;
    return NOBODY;
}

/* Whether the address lies where packets of IoAllocateIrp have their pages. */
bool is_in_page(const void *address)
{
    return arena && (const char *)address >= arena && (const char *)address < arena + (size_t)MAX_PACKETS * PAGE;
}

static void touched(int signal_number, siginfo_t *info, void *context)
{
    const size_t i = (size_t)((char *)info->si_addr - arena) / PAGE;
    if (touched_block(info->si_addr))
        return;
    Packet *p = is_in_page(info->si_addr) ? packets[i] : NULL;
    if (p && p->irp != (PIRP)(arena + i * PAGE))
        p = NULL; /* that page isn't used */
    const bool was_watched = p && unwatch(p);
    const bool others_open_it = p && !was_watched && !__atomic_load_n(&p->page.is_shut, __ATOMIC_SEQ_CST);
    if (others_open_it || (was_watched && (!is_watcher(p) || is_code_of_holder(p, toucher_of(context))))) {
        if (was_watched && is_watcher(p))
            self.opened = p;
        open_page(i);
        return;
    }
    if (!p || (!was_watched && p->touch.is_trapped)) {
        crashed(signal_number, info, context);
        return;
    }
    p->touch.is_senders = was_watched;
    p->touch.is_trapped = !was_watched;
    p->touch.is_untold = true;
    p->touch.at = toucher_of(context);
    p->touch.by = self.frames ? self.frames->device : NOBODY;
    p->touch.calls = called_driver(p->touch.at);
    self.touched = p;
    open_page(i);
}

/* Once, before the first packet. */
void open_traps(void)
{
    if (arena)
        return;
    arena = mmap(NULL, (size_t)MAX_PACKETS * PAGE, PROT_NONE, MAP_PRIVATE | MAP_ANONYMOUS | MAP_NORESERVE, -1, 0);
    if (arena == MAP_FAILED)
        give_up("no memory for packets");
    track_packets(arena);
    is_on = !options.has_no_traps;
    struct sigaction s = { .sa_sigaction = touched, .sa_flags = SA_SIGINFO | SA_ONSTACK };
    if (by_snapshots)
        chain_handler(touched);
    else
        sigaction(SIGSEGV, &s, NULL);
    watch_for_the_end();
}

/* Calls after which the caller may not touch the packet: each access that isn't ordered with them races. */
static bool lets_go(const char *call)
{
    return !strcmp(call, "IoCompleteRequest") || !strcmp(call, "IoCallDriver") || !strcmp(call, "IoFreeIrp") ||
        !strcmp(call, "IoReuseIrp") || !strcmp(call, "IoInitializeIrp");
}

/* The shadow of a packet; that of a rider, where one stands in its memory. */
Packet *find(PIRP irp)
{
    const size_t i = is_in_page(irp) ? (size_t)((char *)irp - arena) / PAGE : MAX_PACKETS;
    Packet *p = i < (size_t)n_packets && packets[i]->irp == irp ? packets[i] : initialized_at(irp);
    if (!p)
        give_up("a pointer that is no packet of IoAllocateIrp or IoInitializeIrp is handed to a call");
    if (self.touched)
        tell_touch(self.calls->name, irp);
    touch(p->irp, WRITES);
    if (footprints && lets_go(self.calls->name))
        access_to(p->irp, true, NULL, false);
    if (__atomic_load_n(&p->page.is_watched, __ATOMIC_SEQ_CST))
        unprotect(p);
    while (p->stands_in.by)
        p = p->stands_in.by;
    check_packet(p);
    return p;
}

uint64_t packet_name(const void *address)
{
    const size_t i = (size_t)((const char *)address - arena) / PAGE;
    return is_in_page(address) && i < (size_t)n_packets ? packets[i]->name : 0;
}

/* The begin of the packet that an address lies in, or NULL. */
const void *packet_page(const void *address)
{
    return is_in_page(address) ? arena + (size_t)((const char *)address - arena) / PAGE * PAGE : initialized_around(address);
}

void unprotect(Packet *p)
{
    if (!p->irp)
        p->irp = (PIRP)(arena + (size_t)p->slot * PAGE);
    p->touch.is_trapped = false;
    __atomic_store_n(&p->page.is_shut, false, __ATOMIC_SEQ_CST);
    unwatch(p);
    if (is_in_page(p->irp))
        open_page((size_t)((char *)p->irp - arena) / PAGE);
}

void protect(Packet *p)
{
    if (is_on && !p->stands_in.of && is_in_page(p->irp))
        close_page((size_t)((char *)p->irp - arena) / PAGE);
}

/* From its end on. Two threads may touch the page of a watched packet at once: who comes second finds it watched no more,
   and not shut. */
void shut(Packet *p)
{
    __atomic_store_n(&p->page.is_shut, true, __ATOMIC_SEQ_CST);
    protect(p);
}

static void tell(Packet *p)
{
    char where[200], by[200]; /* `run` has the line in place of the address */
    snprintf(by, sizeof by, p->touch.calls < 0 ? "%s" : "(%s)",
             p->touch.calls < 0 ? who(p->touch.by) : drivers[p->touch.calls]->HostName);
    snprintf(where, sizeof where, "+0x%lx in %s", place_in_program(p->touch.at), function_name(p->touch.at));
    Call *const calls = self.calls, here = { .name = where, .by = p->touch.at };
    Frame *const frames = self.frames;
    p->touch.is_untold = false;
    self.calls = (Call *)&here; /* not the call that runs, and perhaps not the routine either */
    self.frames = NULL;
    if (p->touch.is_senders)
        broken("TouchedAfterSend", p, "read or written by %s, which sent it at %s, and doesn't own it any more",
               by, place(p->sites.sent));
    else
        fault("Touched", p, "read or written after its end by %s; it was completed at %s", by,
              place_with_callers(p->sites.completed, &p->completers));
    self.calls = calls;
    self.frames = frames;
}

/* Whether the code that touched the packet may complete or free it by now: it has come back to it. */
static bool is_back_by_now(const Packet *p)
{
    return p->touch.is_senders && p->owner != ENDED && !p->stands_in.by && (p->owner < 0 || p->owner == p->touch.by);
}

/* At the thread's next call with a packet. A completion or free that comes too early, or a second one, is told instead. */
static void tell_touch(const char *call, PIRP irp)
{
    Packet *p = self.touched;
    self.touched = NULL;
    if (!p || !p->touch.is_untold)
        return;
    if (irp == p->irp && !is_back_by_now(p) && (!strcmp(call, "IoCompleteRequest") || !strcmp(call, "IoFreeIrp")))
        p->touch.is_untold = false;
    else
        tell(p);
}

/* At the end of the run. */
void tell_all_touches(void)
{
    for (int i = 0; i < n_packets; i++)
        if (packets[i]->touch.is_untold)
            tell(packets[i]);
}
