/*
 * packet_pages.c: the pages of packets, which the host itself opens and closes (traps.c).
 *
 * Who opens or closes one says so here. What a closed page has in it lies beside it, since it can't be read. That doesn't
 * change until the page closes again, so it has a stamp by which a snapshot knows what it has already.
 */
#include "mm/own.h"
#include "explore/explore.h"
#include <sys/mman.h>

typedef enum { UNUSED, OPEN, CLOSED } State;
static struct {
    char *arena, *beside;
    uint8_t states[MAX_PACKETS];
    uint64_t stamps[MAX_PACKETS], last; /* of what is beside */
    int n;                              /* that were ever used */
} *all;

void begin_packet_pages(void)
{
    all = kept_apart(sizeof *all);
    all->beside = kept_apart((size_t)MAX_PACKETS * PAGE);
}

/* Where they lie: the first run of a round says it, and where it is made again the same. */
void track_packets(char *arena)
{
    if (by_snapshots)
        all->arena = arena;
}

bool is_packets_page(const char *address)
{
    return all->arena && address >= all->arena && address < all->arena + (size_t)MAX_PACKETS * PAGE;
}

bool is_packet_page_open(size_t i) { return by_snapshots && all->states[i] == OPEN; }

static char *page_at(size_t i) { return all->arena + i * PAGE; }
static char *beside(size_t i) { return all->beside + i * PAGE; }

void packet_page_opens(size_t i)
{
    if (!by_snapshots || all->states[i] == OPEN)
        return;
    if ((int)i >= all->n)
        all->n = (int)i + 1;
    else if (all->states[i] == CLOSED)
        memcpy(page_at(i), beside(i), PAGE);
    else
        memset(page_at(i), 0, PAGE); /* of a run that was put back */
    all->states[i] = OPEN;
}

void packet_page_closes(size_t i)
{
    if (!by_snapshots)
        return;
    if (all->states[i] == OPEN)
        memcpy(beside(i), page_at(i), PAGE);
    all->stamps[i] = ++all->last;
    all->states[i] = CLOSED;
    if ((int)i >= all->n)
        all->n = (int)i + 1;
}

static void make_room_for_packets(PacketPages *p)
{
    if (p->room && p->room >= all->n)
        return;
    p->room = all->n * 2 + 64;
    p->bytes = kept_apart((size_t)p->room * PAGE);
    p->states = kept_apart((size_t)p->room);
    p->stamps = kept_apart((size_t)p->room * sizeof *p->stamps);
}

void save_packet_pages(PacketPages *p)
{
    make_room_for_packets(p);
    p->n = all->n;
    for (int i = 0; i < p->n; i++) {
        const State state = p->states[i] = all->states[i];
        const uint64_t stamp = state == CLOSED ? all->stamps[i] : 0;
        if (state != UNUSED && (!stamp || stamp != p->stamps[i]))
            memcpy(p->bytes + (size_t)i * PAGE, state == OPEN ? page_at((size_t)i) : beside((size_t)i), PAGE);
        p->stamps[i] = stamp;
    }
}

void put_packet_pages_back(const PacketPages *p)
{
    for (int i = 0; i < all->n; i++) {
        char *page = page_at((size_t)i);
        const State state = i < p->n ? p->states[i] : UNUSED;
        if ((state == OPEN) != (all->states[i] == OPEN))
            mprotect(page, PAGE, state == OPEN ? PROT_READ | PROT_WRITE : PROT_NONE);
        if (state == OPEN || (state == CLOSED && all->stamps[i] != p->stamps[i]))
            memcpy(state == OPEN ? page : beside((size_t)i), p->bytes + (size_t)i * PAGE, PAGE);
        if (state == CLOSED)
            all->stamps[i] = p->stamps[i];
        all->states[i] = (uint8_t)state;
    }
}
