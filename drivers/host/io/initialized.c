/*
 * initialized.c: packets that drivers make in memory of their own, by IoInitializeIrp: a pool block, a device's
 * extension, a structure's member, a stack.
 *
 * In the record such a packet is allocated when it is initialized, reused when it is initialized again, and freed when
 * its memory goes: by ExFreePool, with its device, at the return of the routine on whose stack it lies. What is in flight
 * is told then, and the memory stays. It has no page of its own, so nobody sees here who touches it after its end, or
 * while another driver has it; pool.c sees who touches a freed block.
 */
#include "io/own.h"
#include "explore/explore.h"
#include "ke/ke.h"
#include "mm/mm.h"
#include "record/record.h"
#include "rules/rules.h"

enum { CHAINS = 1024 };
static Packet *chains[CHAINS];     /* all of them, by address, the newest first */
static Packet *standing[MAX_LIVE]; /* those that are live */
static int n_standing;

static Packet **chain_of(const void *at) { return &chains[((uintptr_t)at >> 3) % CHAINS]; }

/* The packet that was initialized here last, which may have gone; or NULL. */
Packet *initialized_at(const void *at)
{
    Packet *p = *chain_of(at);
    while (p && p->irp != at)
        p = p->initialized.older;
    return p;
}

static size_t bytes_of(const Packet *p) { return IoSizeOfIrp(p->size + p->has_own_location); }

/* The begin of the live one that the address lies in, or NULL. */
const void *initialized_around(const void *address)
{
    for (int i = 0; i < n_standing; i++)
        if ((const char *)address - (const char *)standing[i]->irp < (ptrdiff_t)bytes_of(standing[i]) &&
            (const char *)address >= (const char *)standing[i]->irp)
            return standing[i]->irp;
    return NULL;
}

/* How many bytes the memory has from here on, as far as the host knows. */
static size_t room_from(const char *at)
{
    const Block *b = block_around(at);
    if (b)
        return (size_t)(b->bytes + b->size - at);
    for (int i = 0; i < n_devices; i++) {
        const char *end = (const char *)devices[i].extension + devices[i].extension_size;
        if (at >= (const char *)devices[i].extension && at < end)
            return (size_t)(end - at);
    }
    return SIZE_MAX;
}

/* How many locations the packet gets: as many as are asked for, and fit. */
static int locations_for(int wanted, size_t room)
{
    const size_t fit = room < sizeof(IRP) ? 0 : (room - sizeof(IRP)) / sizeof(IO_STACK_LOCATION);
    const int most = fit < MAX_SIZE ? (int)fit : MAX_SIZE;
    return wanted < 1 ? most > 0 : wanted < most ? wanted : most;
}

static void check_memory(const void *irp, size_t bytes, int size, size_t room)
{
    static const char remedy[] = "allocate IoSizeOfIrp(StackSize) bytes, and hand over so many";
    const size_t takes = IoSizeOfIrp(size > 0 ? size : 0);
    const Block *b = block_around(irp);
    if (b && b->paged)
        fault("PacketMemory", NULL, "the memory is paged pool, and a packet is touched at any level: allocate it from "
              "NonPagedPool");
    else if (bytes < takes)
        fault("PacketMemory", NULL, "a packet with %d locations takes %zu bytes, and PacketSize is %zu: %s", size, takes,
              bytes, remedy);
    else if (bytes > room)
        fault("PacketMemory", NULL, "PacketSize is %zu, and the memory has %zu bytes from there on: %s", bytes, room,
              remedy);
}

static void clear_rest(PIRP irp, size_t bytes, size_t from, size_t room)
{
    const size_t to = bytes < room ? bytes : room;
    if (to > from)
        memset((char *)irp + from, 0, to - from);
    irp->Size = (USHORT)bytes;
}

static void take_off(const Packet *p)
{
    int i = 0;
    while (i < n_standing && standing[i] != p)
        i++;
    if (i < n_standing)
        standing[i] = standing[--n_standing];
}

/* A packet whose memory goes. Returns whether it could be freed: one in flight is told. */
static bool free_with_memory(Packet *p)
{
    touch(p->irp, WRITES);
    if (p->stands_in.by) {
        fault("InFlight", p, "its memory goes while it is in flight");
        return false;
    }
    if (lives(p) && p->asking)
        settle(p, false);
    Entry *e = begin(FREE, p, ORIGINATOR);
    const char *no = rules_refusal(e);
    if (no) {
        refuse(e, no);
        return false;
    }
    answered(e, DONE, 0);
    take_off(p);
    free_now(p);
    p->sites.freed = self.calls ? self.calls->at : (WDM_SITE){ 0 };
    return true;
}

/* Memory goes, and the packets in it with it. Returns whether one is in flight, which is told. Under G. */
bool packets_go(const void *from, size_t size)
{
    bool any = false;
    for (int i = n_standing - 1; i >= 0; i--) {
        Packet *p = i < n_standing ? standing[i] : NULL;
        if (p && (const char *)p->irp + bytes_of(p) > (const char *)from &&
            (const char *)p->irp < (const char *)from + size)
            any |= !free_with_memory(p);
    }
    return any;
}

/* The routine on whose stack the packet lies has returned. Under G. */
void stack_goes(const Frame *f)
{
    for (int i = n_standing - 1; i >= 0; i--) {
        Packet *p = i < n_standing ? standing[i] : NULL;
        if (!p || p->initialized.frame != f)
            continue;
        p->initialized.frame = NULL;
        if (lives(p) && p->asking)
            settle(p, false);
        if (p->owner >= 0)
            fault_at("StackBlock", p, "IoInitializeIrp", p->sites.allocated, "the packet lies on the stack of %s, which has "
                     "returned while it is in flight", what_runs(f));
        else
            free_with_memory(p);
    }
}

/* A count that no packet has is refused. The host goes on with another one, as far as there is room. */
static bool is_good_count(int count)
{
    if (count >= 1 && count <= MAX_SIZE)
        return true;
    Entry *e = begin(ALLOCATE, NULL, ORIGINATOR);
    e->status = (UCHAR)count;
    refuse(e, "BadSize");
    return false;
}

/* A first use of this memory, or of what was allocated there again. */
static Packet *first_use(PIRP irp, int locations, bool by_host)
{
    Entry *e = begin(ALLOCATE, NULL, ORIGINATOR);
    e->by_host = by_host;
    e->status = (ULONG)locations;
    Packet *p = new_packet(locations, irp);
    begin_use(p, STATUS_SUCCESS);
    p->initialized.frame = frame_around(irp);
    p->initialized.older = *chain_of(irp);
    *chain_of(irp) = p;
    standing[n_standing++] = p;
    e->p = p;
    e->slot = p->slot;
    e->use = p->use;
    answered(e, IRP_REF, 0);
    return p;
}

/* The same packet with another count of locations: it is freed, and another one stands in its place. */
static void resize(Packet *p, int locations)
{
    answered(begin(FREE, p, ORIGINATOR), DONE, 0);
    Entry *e = begin(ALLOCATE, p, ORIGINATOR);
    e->status = (ULONG)locations;
    p->size = locations;
    p->has_own_location = false;
    free(p->kept.above);
    p->kept.above = NULL;
    unprotect(p);
    begin_use(p, STATUS_SUCCESS);
    e->use = p->use;
    answered(e, IRP_REF, 0);
}

/* The memory of a packet that isn't in flight, or of none. */
static void initialize(Packet *p, PIRP irp, size_t bytes, int count, WDM_SITE at)
{
    const bool is_allocated = is_in_page(irp);
    const size_t room = is_allocated ? IoSizeOfIrp(p->most) : freed_block_of(irp) ? 0 : room_from((char *)irp);
    const int locations = locations_for(count, room);
    const bool is_good = is_good_count(count);
    if (is_good && room)
        check_memory(irp, bytes, count, room);
    if (p && p->live && locations == p->size + p->has_own_location)
        use_again(p, STATUS_SUCCESS);
    else if (p && p->live)
        resize(p, locations);
    else
        p = locations && !packets_go(irp, IoSizeOfIrp(locations)) ? first_use(irp, locations, !is_good) : NULL;
    if (!p)
        return;
    clear_rest(irp, bytes, bytes_of(p), room);
    if (!is_allocated)
        p->sites.allocated = at;
}

VOID WdmIoInitializeIrp(PIRP Irp, USHORT Bytes, CCHAR Size, WDM_SITE at)
{
    Call c;
    enter_host(&c, "IoInitializeIrp", at);
    if (!Irp)
        give_up("IoInitializeIrp gets no memory: look at what the allocation gave");
    check_used(Irp, "packet");
    Packet *p = is_in_page(Irp) || initialized_at(Irp) ? find(Irp) : NULL;
    if (p && lives(p) && p->asking)
        settle(p, false);
    if (is_in_page(Irp))
        note("IoInitializeIrp", "%s: for a packet of IoAllocateIrp call IoReuseIrp", place(at));
    if (p && p->stands_in.of)
        fault("InFlight", p->stands_in.of, "is initialized while it is in flight");
    else if (p && (p->owner >= 0 || (!p->live && is_in_page(Irp))))
        use_again(p, STATUS_SUCCESS); /* which is refused */
    else
        initialize(p, Irp, Bytes, Size, at);
    leave_host();
}

/* IoFreeIrp of such a packet. As in Windows that frees the pool block which begins with it. */
void free_initialized(Packet *p, WDM_SITE at)
{
    const Block *b = block_around(p->irp);
    fault("NotAllocated", p, "(%s) initialized it at %s, in memory of its own: free that with ExFreePool, by which a packet "
          "in it ends", p->allocator < 0 ? "the test" : drivers[p->allocator]->HostName, place(p->sites.allocated));
    if (b && b->bytes == (const char *)p->irp)
        free_checked(p->irp, 0, false, at);
}
