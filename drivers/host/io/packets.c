/* packets.c: the shadow of a packet, whose call it is, and what allocates, frees and reuses one. */
#include "io/own.h"
#include "explore/explore.h"
#include "ke/ke.h"
#include "mm/mm.h"
#include "record/record.h"
#include "rules/rules.h"

Packet *packets[MAX_PACKETS];
int n_packets, n_live, n_early;
uint64_t next_use = 1;
static Packet *ended[ENDED_KEPT];
static int n_ended;

PIO_STACK_LOCATION raw_at(Packet *p, int j) { return (PIO_STACK_LOCATION)(p->irp + 1) + (j - 1); }
bool lives(const Packet *p) { return p->live && p->owner != ENDED; }

/* The packet whose code of this thread runs innermost, if that is this one. */
Frame *on_top(const Packet *p)
{
    Frame *f = self.frames;
    return f && f->p == p && f->use == p->use ? f : NULL;
}

static int driver_of(int device) { return device < 0 ? NOBODY : devices[device].raw->DriverObject->HostNumber; }

/* A device of the driver that calls, to be named where it calls on a packet that isn't its own. */
static int calling_device(int driver)
{
    for (const Frame *f = self.frames; f; f = f->up)
        if (f->device >= 0 && driver_of(f->device) == driver)
            return f->device;
    if (self.device >= 0 && driver_of(self.device) == driver)
        return self.device;
    for (int d = 0; d < n_devices; d++)
        if (driver_of(d) == driver)
            return d;
    return ORIGINATOR;
}

/* Whether the test may make this call: on a thread of its own, in its own file, which may be a driver's too. */
static bool may_be_the_test(void) { return !self.frames && !self.is_driver && has_test(self.calls->at.file); }

static int party_of(const Packet *p, bool needs_location)
{
    if (on_top(p))
        return self.frames->device;
    const int holder = p->asking ? p->asking->device : p->owner == ENDED ? p->last : p->owner;
    const int caller = calling_driver(), lender = running_driver();
    if (caller == NOBODY || driver_of(holder) == caller || (holder >= 0 && driver_of(holder) == lender))
        return holder;
    const bool its_own = p->allocator == NOBODY ? may_be_the_test() : p->allocator == caller || p->allocator == lender;
    if (holder == ORIGINATOR && its_own && !needs_location)
        return holder;
    return calling_device(caller);
}

/* In whose name this thread's call on the packet is: that of the routine of this packet that runs; else of whoever is
   asked about it or has it, where the calling code may be theirs, or a function of another driver that they called; else
   of the caller's own device. */
int party(const Packet *p) { return party_of(p, false); }

/* The same of a call that needs a location of one's own: an originator has none, so a driver calls for its device. */
int party_with_location(const Packet *p) { return party_of(p, true); }

/* The dispatch that this thread is in, if it is still asked about the packet. */
Frame *dispatching(const Packet *p)
{
    Frame *f = p->asking;
    return f && f->kind == DISPATCH && is_this_thread(f->thread) && party(p) == f->device ? f : NULL;
}

static bool is_its_turn(const void *packet)
{
    const Packet *p = packet;
    return !p->asking || is_this_thread(p->asking->thread) || party(p) == p->asking->device;
}

/* A call by one who isn't asked takes its place behind what another thread has on its way. */
void await(Packet *p)
{
    const Wait w = { .ready = is_its_turn, .context = p, .on = &host_settled, .patience = GIVES_IN, .seconds = 1,
                     .what = self.calls->name, .at = self.calls->at };
    if (is_its_turn(p))
        return;
    wait_for(&w);
    touch(p->irp, WRITES);
}

void prepare_nothing(Packet *p)
{
    p->next.how = NOTHING;
    p->next.touched = p->next.copied = p->next.skipped = false;
    p->next.set = NULL;
}

void clear_location(Packet *p, int j)
{
    p->at[j] = (Location){ .device = NOBODY };
    memset(raw_at(p, j), 0, sizeof(IO_STACK_LOCATION));
}

/* The packet's own memory is pointed at the location that the shadow has. */
void put_back(Packet *p)
{
    p->irp->CurrentLocation = (CHAR)p->current;
    p->irp->Tail.Overlay.CurrentStackLocation = raw_at(p, p->current);
}

void set_pending_bit(Packet *p, int j, bool real)
{
    p->at[j].pending = true;
    p->at[j].real |= real;
    raw_at(p, j)->Control |= SL_PENDING_RETURNED;
}

/* A dispatch that sets the bit in its location by hand does what the WDK's IoMarkIrpPending does. */
void take_hand_mark(Packet *p)
{
    Frame *f = p->asking;
    if (!f || f->kind != DISPATCH || f->marked || f->bit_came || p->next.skipped || p->at[f->location].pending ||
        !(raw_at(p, f->location)->Control & SL_PENDING_RETURNED))
        return;
    f->marked = true;
    set_pending_bit(p, f->location, true);
}

void begin_use(Packet *p, NTSTATUS status)
{
    for (int j = 1; j <= p->size; j++)
        clear_location(p, j);
    memset(p->irp, 0, sizeof *p->irp);
    p->irp->Type = 6;
    p->irp->Size = IoSizeOfIrp(p->size);
    p->irp->StackCount = p->kept.stack_count = (CHAR)p->size;
    p->kept.left = 0;
    InitializeListHead(&p->irp->ThreadListEntry);
    p->irp->IoStatus.Status = status;
    p->current = p->size + 1;
    put_back(p);
    p->irp->AllocationFlags = is_in_page(p->irp) ? IRP_ALLOCATED_FIXED_SIZE : 0;
    p->owner = p->last = ORIGINATOR;
    p->status = (ULONG)status;
    p->information = 0;
    packets_lost -= p->lost;
    p->cancel = p->returned = p->lost = p->buffer.writes_back = false;
    p->built.status_gone = p->built.event_gone = p->built.fails_at_once = false;
    prepare_nothing(p);
    p->kept_by = NULL;
    p->file = NULL;
    p->called = p->own_cancel = NULL;
    p->sites.sent = p->sites.completed = p->sites.cancel = p->sites.none_taken = (WDM_SITE){ 0 };
    p->use = next_use++;
}

/* A packet of the shadow, in a slot of its own. It has memory of its own, or stands in that of another one. */
Packet *new_packet(int size, PIRP irp)
{
    if (n_packets == MAX_PACKETS || n_live == MAX_LIVE)
        reach_limit("65,536 packets in one run, or 4,096 at once");
    Packet *p = calloc(1, sizeof *p);
    if (!p)
        give_up("out of memory");
    p->size = p->most = size;
    p->slot = (unsigned)n_packets;
    p->live = true;
    p->irp = irp;
    p->allocator = calling_driver();
    p->name = next_name();
    packets[n_packets++] = p;
    n_live++;
    return p;
}

PIRP WdmIoAllocateIrp(CCHAR Size, WDM_SITE at)
{
    Call c;
    enter_host(&c, "IoAllocateIrp", at);
    Entry *e = begin(ALLOCATE, NULL, ORIGINATOR);
    e->status = (UCHAR)Size;
    const char *no = rules_refusal(e);
    Packet *p = NULL;
    if (no)
        refuse(e, no);
    else if (memory_is_refused(c.name, at))
        free(e);
    else {
        p = new_packet(Size, NULL);
        unprotect(p);
        begin_use(p, STATUS_SUCCESS);
        p->sites.allocated = at;
        packet_allocated(p);
        e->p = p;
        e->slot = p->slot;
        e->use = p->use;
        answered(e, IRP_REF, 0);
    }
    leave_host();
    return p ? p->irp : NULL;
}

void free_now(Packet *p)
{
    packet_freed(p);
    p->live = false;
    n_live--;
    if (p->buffer.bytes)
        free_block(p->buffer.bytes, self.calls->at);
    if (p->buffer.direct_bytes)
        free_block(p->buffer.direct_bytes, self.calls->at);
    free_host_memory(p->buffer.given);
    p->buffer.given = NULL;
    p->buffer.bytes = p->buffer.direct_bytes = NULL;
    p->buffer.direct = NULL;
}

/* The I/O manager's free of a packet that ended. It is put off, so that a late call finds it ended. A driver's own memory
   is the driver's to free. */
void free_ended(Packet *p)
{
    if (!is_in_page(p->irp))
        return;
    Packet **kept = &ended[n_ended++ % ENDED_KEPT];
    if (*kept && (*kept)->owner == ENDED && (*kept)->live) {
        answered(begin(FREE, *kept, ORIGINATOR), DONE, 0);
        free_now(*kept);
    }
    *kept = p;
}

VOID WdmIoFreeIrp(PIRP Irp, WDM_SITE at)
{
    Call c;
    enter_host(&c, "IoFreeIrp", at);
    Packet *p = find(Irp);
    if (lives(p) && p->asking)
        settle(p, false);
    Entry *e = begin(FREE, p, ORIGINATOR);
    const char *no = rules_refusal(e);
    if (no)
        refuse(e, no);
    else if (!is_in_page(p->irp)) {
        free(e);
        free_initialized(p, at);
    } else {
        if (p->owner == ENDED)
            fault("NotKept", p, "is freed after it has ended at %s: no routine kept it for %s",
                  place_with_callers(p->sites.completed, &p->completers), who_of(p, ORIGINATOR));
        answered(e, DONE, 0);
        if (p->buffer.is_lent)
            p->buffer.bytes = NULL; /* as in Windows it isn't freed with the packet */
        free_now(p);
        p->sites.freed = at;
        shut(p);
    }
    leave_host();
}

/* The packet is used anew, which is refused while it is in flight. Under G. */
void use_again(Packet *p, NTSTATUS status)
{
    Entry *e = begin(REUSE, p, ORIGINATOR);
    e->status = (ULONG)status;
    const char *no = rules_refusal(e);
    if (no) {
        refuse(e, no);
        return;
    }
    unprotect(p);
    begin_use(p, status);
    e->word = p->use;
    answered(e, IRP_REF, 0);
}

VOID WdmIoReuseIrp(PIRP Irp, NTSTATUS Status, WDM_SITE at)
{
    Call c;
    enter_host(&c, "IoReuseIrp", at);
    Packet *p = find(Irp);
    if (lives(p) && p->asking)
        settle(p, false);
    use_again(p, Status);
    leave_host();
}

VOID WdmIoMarkIrpPending(PIRP Irp, WDM_SITE at)
{
    Call c;
    enter_host(&c, "IoMarkIrpPending", at);
    Packet *p = find(Irp);
    await(p);
    Frame *f = p->asking;
    const int by = party_with_location(p);
    if (f && on_top(p) == f && f->kind != CANCELLING && !(f->kind == DISPATCH && p->next.skipped)) {
        const int j = f->kind == ROUTINE ? f->location + 1 : f->location;
        f->marked = true;
        if (f->kind == DISPATCH)
            decided_here(&f->e->asked[f->i]);
        if (j <= p->size) {
            set_pending_bit(p, j, true);
            if (f->kind == ROUTINE && p->at[j].frame)
                p->at[j].frame->marked_by_routine = true;
        }
    } else {
        if (lives(p))
            settle(p, false);
        Entry *e = begin(MARK, p, by);
        const char *no = rules_refusal(e);
        if (no)
            refuse(e, no);
        else {
            answered(e, DONE, 0);
            set_pending_bit(p, p->current, true);
        }
        if (on_top(p))
            self.frames->marked = true;
        if (on_top(p) && self.frames->kind == ROUTINE && p->at[p->current].frame)
            p->at[p->current].frame->marked_by_routine = true;
    }
    leave_host();
}
