/*
 * watching.c: touch after send. Once IoCallDriver has returned to a driver whose packet is still below, the packet's
 * page is closed. The first one to touch it opens it: who owns it by now, or the host; or the code that sent it, which
 * doesn't own it any more, and that is told. It needs no luck with the packet's end.
 */
#include "io/io.h"
#include "ke/ke.h"
#include "mm/mm.h"
#include "record/record.h"

/* The packet, or the innermost one that stands in for it and is on its way. */
static const Packet *innermost(const Packet *p)
{
    while (p->stands_in.by && p->stands_in.by->owner != ORIGINATOR)
        p = p->stands_in.by;
    return p;
}

/* The driver of a party of the packet: the originator's is the one that allocated it. */
static int driver_of(const Packet *p, int party)
{
    return party >= 0 ? devices[party].raw->DriverObject->HostNumber : party == ORIGINATOR ? p->allocator : NOBODY;
}

static bool is_of(const Packet *p, int owner, int by)
{
    return owner == by || (driver_of(p, owner) != NOBODY && driver_of(p, owner) == driver_of(p, by));
}

/* Whether the dispatch that sent the packet has it back: its routine has kept it. */
static bool is_back(const Packet *p, int by) { return p->asking && p->asking->device == by && !p->asking->passed; }

/* Whether another driver than that of `by` has the packet, which isn't on its way up. Where a dispatch will wait for its
   routine, a rider is below. */
static bool is_away(const Packet *p, int by)
{
    const Packet *r = p->stands_in.by;
    if (!lives(p) || p->stands_in.of || p->unwinding || is_of(p, r ? r->owner : p->owner, by))
        return false;
    return r ? !r->unwinding && r->owner >= 0 : !is_back(p, by);
}

static void watch(Packet *p)
{
    __atomic_store_n(&p->page.is_watched, true, __ATOMIC_SEQ_CST);
    protect(p);
}

/* Before IoCallDriver returns to the code of `by`. */
void watch_sent(Packet *p, int by, uint64_t use)
{
    if (!self.frames || p->use != use || !is_in_page(p->irp) || !is_away(p, by))
        return;
    __atomic_store_n(&p->page.frame, self.frames->number, __ATOMIC_SEQ_CST);
    __atomic_store_n(&p->page.calls, self.calls->up, __ATOMIC_SEQ_CST);
    p->page.sent_by = by;
    watch(p);
}

/* Under G, at a call of the host: a function of the driver that has the packet touched it, and its caller may not. */
void watch_again(void)
{
    Packet *p = self.opened;
    self.opened = NULL;
    if (self.frames && self.frames->number == p->page.frame && self.calls->up == p->page.calls && is_away(p, p->page.sent_by))
        watch(p);
}

/* In the handler, or under G: the packet isn't watched any more. Returns whether it was. */
bool unwatch(Packet *p)
{
    return __atomic_exchange_n(&p->page.is_watched, false, __ATOMIC_SEQ_CST);
}

/* In the handler: whether it is the code that sent the packet. */
bool is_watcher(const Packet *p)
{
    return self.frames && self.frames->number == __atomic_load_n(&p->page.frame, __ATOMIC_SEQ_CST) &&
        self.calls == __atomic_load_n(&p->page.calls, __ATOMIC_SEQ_CST);
}

/* In the handler: whether the code at this place is of the driver that has the packet. It may have sent the packet to
   itself; and a function that it exports may run under another driver's dispatch. */
bool is_code_of_holder(const Packet *p, const void *at)
{
    const Packet *r = innermost(p);
    const int driver = driver_of(p, r->owner);
    return driver != NOBODY && (driver == running_driver() || is_code_of_one(at, (const void *)drivers[driver]->DriverInit));
}
