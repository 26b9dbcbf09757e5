/*
 * packet_leaks.c: packets of a driver that come back to it, and are never freed, where the driver stays loaded. (Of one that is
 * unloaded leftovers.c tells.)
 *
 * A driver may keep packets to send them again. So only one is told that allocated another while so many of the same place lay
 * idle, and whose packets are all there at the end.
 */
#include "rules/rules.h"
#include "mm/mm.h"

enum { MANY = 5, MOST_PLACES = 256 };
static struct { WDM_SITE at; int live, driver; bool leaks; } places[MOST_PLACES];
static int n_places;

static int place_of(WDM_SITE at)
{
    int i = 0;
    while (i < n_places && (places[i].at.file != at.file || places[i].at.line != at.line))
        i++;
    if (i == n_places && n_places < MOST_PLACES)
        places[n_places++].at = at;
    return i < MOST_PLACES ? i : -1;
}

/* How many packets of this place have come back to their driver, and aren't freed. */
static int count_idle(WDM_SITE at)
{
    int n = 0;
    for (int i = 0; i < n_packets; i++) {
        const Packet *p = packets[i];
        n += p->live && p->owner == ORIGINATOR && !p->asking && !p->stands_in.of && p->sites.sent.file && is_in_page(p->irp) &&
            p->sites.allocated.file == at.file && p->sites.allocated.line == at.line;
    }
    return n;
}

void packet_allocated(const Packet *p)
{
    const int i = p->allocator == NOBODY || p->built.by_manager ? -1 : place_of(p->sites.allocated);
    if (i < 0)
        return;
    places[i].driver = p->allocator;
    if (++places[i].live > MANY && !places[i].leaks)
        places[i].leaks = count_idle(places[i].at) >= MANY;
}

void packet_freed(const Packet *p)
{
    const int i = p->allocator == NOBODY || p->built.by_manager ? -1 : place_of(p->sites.allocated);
    if (i >= 0 && places[i].live > 0)
        places[i].live--;
}

/* At the end: whether the packet is one of many that are told. */
bool is_packet_leak(const Packet *p)
{
    const int i = p->allocator == NOBODY ? -1 : place_of(p->sites.allocated);
    return i >= 0 && places[i].leaks && !drivers[p->allocator]->DriverUnload && count_idle(places[i].at) >= MANY;
}

/* At the end: under G. */
void tell_packet_leaks(void)
{
    for (int i = 0; i < n_places; i++) {
        const int idle = places[i].leaks && !drivers[places[i].driver]->DriverUnload ? count_idle(places[i].at) : 0;
        if (idle >= MANY)
            broken_at("PacketLeak", "IoAllocateIrp", places[i].at, "%d packets of this call came back to (%s), which never freed "
                      "them and allocated others", idle, drivers[places[i].driver]->HostName);
    }
}
