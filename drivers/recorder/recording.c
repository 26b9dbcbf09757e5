/* recording.c: the lock, seats, entries, and small numbers that stand for pointers. */
#include "recording.h"
#include "platform.h"

IRPX_OPTIONS irpx_options = { TRUE, FALSE };
IrpxState irpx = { .next_use = 1 };
static struct { const void **raw; uint64_t *number; size_t room, n; } names;

/* The seat of this thread. Where all are taken, one whose thread isn't in a driver's routine changes hands. */
static int seat_of(uintptr_t thread)
{
    int found = 0;
    for (int i = 0; i < IRPX_SEATS; i++)
        if (irpx.seats[i].thread == thread)
            return i;
    while (found < IRPX_SEATS && irpx.seats[found].thread)
        found++;
    for (int i = 0; found == IRPX_SEATS && i < IRPX_SEATS; i++)
        if (!irpx.seats[i].frames)
            found = i;
    if (found == IRPX_SEATS) {
        irpx_lose();
        return 0;
    }
    irpx.seats[found].thread = thread;
    return found;
}

void irpx_enter(void)
{
    IRPX_LOCK();
    irpx.me = seat_of(IRPX_THREAD());
}

void irpx_leave(void) { IRPX_UNLOCK(); }

/* Lets other threads come to the lock. */
void irpx_pause(void)
{
    irpx_leave();
    IRPX_YIELD();
    irpx_enter();
}

void *irpx_take(size_t n) { return IRPX_ALLOC(n); }
void irpx_give(void *memory) { IRPX_FREE(memory); }

/* From here on nothing is recorded: what would follow isn't the whole of it. */
void irpx_lose(void) { irpx.counts.lost++; }

IrpxFrame *irpx_top(void) { return irpx.seats[irpx.me].frames; }

/* A new entry, which isn't in the history yet. */
IrpxEntry *irpx_begin(IrpxOp op, IrpxPacket *p, int by)
{
    static IrpxEntry nowhere;
    if (p && p->ghost && op != IRPX_SET_CANCEL && op != IRPX_CANCEL && op != IRPX_LOOK)
        irpx_tell_ghost(p);
    IrpxEntry *e = irpx_take(sizeof *e);
    if (!e) {
        irpx_lose();
        e = &nowhere;
        memset(e, 0, sizeof *e);
    } else {
        e->before = irpx.made;
        irpx.made = e;
    }
    e->op = op;
    e->by = by;
    e->seat = irpx.me;
    e->p = p;
    if (p) {
        e->slot = p->slot;
        e->use = p->use;
    }
    return e;
}

/* Its place in the history is decided now; its reply may come later. */
void irpx_seal(IrpxEntry *e)
{
    if (e->sealed || irpx.counts.lost)
        return;
    e->sealed = TRUE;
    e->flag = e->p && e->p->flag;
    if (irpx.last)
        irpx.last->next = e;
    else
        irpx.first = e;
    irpx.last = e;
    irpx.counts.entries++;
}

IrpxEntry *irpx_answer(IrpxEntry *e, IrpxReply reply, uint64_t answer)
{
    e->reply = reply;
    e->answer = answer;
    irpx_seal(e);
    return e;
}

/* Somebody is asked about the packet, in its open entry. */
IrpxAsked *irpx_ask(IrpxPacket *p, IrpxKind kind, int device, int location)
{
    static IrpxAsked nowhere;
    IrpxAsked *a = irpx_take(sizeof *a);
    if (!a) {
        irpx_lose();
        a = &nowhere;
        memset(a, 0, sizeof *a);
    } else if (p->open->last)
        p->open->last->next = a;
    else
        p->open->first = a;
    p->open->last = a;
    a->kind = kind;
    a->device = device;
    a->location = location;
    if (location > 0 && location <= p->size) {
        a->major = p->at[location].major;
        a->word = p->at[location].word;
    }
    a->status = kind == IRPX_CANCELLING ? p->status : (ULONG)p->irp->IoStatus.Status;
    a->information = kind == IRPX_CANCELLING ? p->information : p->irp->IoStatus.Information;
    if (kind != IRPX_CANCELLING) {
        irpx_see_cancel(p);
        a->flag_differs = !p->cancels && !p->irp->Cancel != !p->flag;
    }
    return a;
}

/* The one who is asked runs: the frame is this thread's innermost one from now on. */
void irpx_push(IrpxFrame *f, IrpxPacket *p, IrpxAsked *a)
{
    memset(f, 0, sizeof *f);
    f->up = irpx_top();
    f->p = p;
    f->use = p->use;
    f->asked = a;
    f->entry = p->open;
    f->seat = irpx.me;
    irpx.seats[irpx.me].frames = f;
}

void irpx_pop(const IrpxFrame *f) { irpx.seats[irpx.me].frames = f->up; }

int irpx_id(void **table, int *n, void *fn)
{
    for (int i = 0; i < *n; i++)
        if (table[i] == fn)
            return i;
    if (*n == IRPX_IDS) {
        irpx_lose();
        return 0;
    }
    table[*n] = fn;
    return (*n)++;
}

static void put_name(const void *raw, uint64_t number)
{
    size_t i = (size_t)((uintptr_t)raw * 0x9E3779B97F4A7C15u >> 20) & (names.room - 1);
    while (names.raw[i])
        i = (i + 1) & (names.room - 1);
    names.raw[i] = raw;
    names.number[i] = number;
}

/* Twice the room for names. Returns whether there is memory. */
static BOOLEAN grow_names(void)
{
    const size_t before = names.room, room = before ? 2 * before : 256;
    const void **raw = names.raw;
    uint64_t *number = names.number;
    const void **more = irpx_take(room * sizeof *more);
    uint64_t *numbers = irpx_take(room * sizeof *numbers);
    if (!more || !numbers) {
        irpx_give(more);
        irpx_give(numbers);
        return FALSE;
    }
    names.raw = more;
    names.number = numbers;
    names.room = room;
    for (size_t i = 0; i < before; i++)
        if (raw[i])
            put_name(raw[i], number[i]);
    irpx_give(raw);
    irpx_give(number);
    return TRUE;
}

/* A small number for a pointer, by order of appearance; 0 for none. */
uint64_t irpx_number_of(const void *raw)
{
    if (!raw)
        return 0;
    if (2 * names.n >= names.room && !grow_names()) {
        irpx_lose();
        return 1;
    }
    size_t i = (size_t)((uintptr_t)raw * 0x9E3779B97F4A7C15u >> 20) & (names.room - 1);
    while (names.raw[i] && names.raw[i] != raw)
        i = (i + 1) & (names.room - 1);
    if (!names.raw[i]) {
        names.raw[i] = raw;
        names.number[i] = ++names.n;
    }
    return names.number[i];
}

/* The one word that stands for all parameters: the minor and the first 32 bits, if nothing else is set; else a hash. */
uint64_t irpx_word_of(const IO_STACK_LOCATION *l)
{
    const unsigned char *bytes = (const unsigned char *)&l->Parameters;
    uint64_t hash = 0xcbf29ce484222325u ^ l->MinorFunction ^ (uint64_t)l->Flags << 8, low = 0, rest = l->Flags;
    for (size_t i = 0; i < sizeof l->Parameters; i++) {
        hash = (hash ^ bytes[i]) * 0x100000001b3u;
        if (i < 4)
            low |= (uint64_t)bytes[i] << 8 * i;
        else
            rest |= bytes[i];
    }
    return rest ? hash | 1ull << 63 : low | (uint64_t)l->MinorFunction << 32;
}

VOID IrpxCount(IRPX_COUNTS *Counts) { *Counts = irpx.counts; }

static void forget_entries(void)
{
    for (IrpxEntry *e = irpx.made, *next; e; e = next) {
        next = e->before;
        for (IrpxAsked *a = e->first, *more; a; a = more) {
            more = a->next;
            irpx_give(a);
        }
        irpx_give(e);
    }
    for (IrpxSetting *s = irpx.settings, *next; s; s = next) {
        next = s->next;
        irpx_give(s);
    }
}

VOID IrpxForget(VOID)
{
    irpx_enter();
    forget_entries();
    for (unsigned i = 0; i < irpx.n_packets; i++)
        irpx_give(irpx.packets[i]);
    irpx_give(names.raw);
    irpx_give(names.number);
    memset(&names, 0, sizeof names);
    memset(&irpx, 0, sizeof irpx);
    irpx.next_use = 1;
    irpx_leave();
}
