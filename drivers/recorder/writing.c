/* writing.c: the record as a transcript. lines.h has its lines. It needs no library. */
#include "recording.h"
#include "lines.h"

typedef struct {
    IrpxLines lines; /* first */
    char *buffer;
    size_t room, length;
    void *cancels[IRPX_IDS], *routines[IRPX_RULES][IRPX_IDS];
    unsigned char finishes[IRPX_IDS], leaves[IRPX_IDS];
    int n_cancels, n_routines[IRPX_RULES];
} Text;

/* A quote is written ' in the texts of lines.h. */
static void put(IrpxLines *to, const char *text)
{
    Text *t = (Text *)to;
    for (; *text; text++) {
        if (t->length < t->room)
            t->buffer[t->length] = *text == '\'' ? '"' : *text;
        t->length++;
    }
}

static void put_number(IrpxLines *to, uint64_t value)
{
    char digits[21] = { 0 };
    int i = 20;
    do
        digits[--i] = (char)('0' + value % 10);
    while (value /= 10);
    put(to, digits + i);
}

static void put_seat(IrpxLines *to, int seat) { put_number(to, (uint64_t)seat); }

static void put_irp(IrpxLines *to, unsigned slot, uint64_t use)
{
    put_number(to, slot);
    put(to, ",");
    put_number(to, use);
}

static int cancel_of(Text *t, PDRIVER_CANCEL fn)
{
    return fn ? irpx_id(t->cancels, &t->n_cancels, (void *)(uintptr_t)fn) : IRPX_NONE;
}

/* The smallest rule that fits what this setting's routine answered. */
static IrpxRule rule_of(const IrpxSetting *s)
{
    return s->kept ? s->replaced ? IRPX_FREE_RULE : IRPX_KEEPER : s->replaced ? IRPX_CHANGE : IRPX_WATCH;
}

static IrpxLineSetting setting_of(Text *t, const IrpxSetting *s)
{
    IrpxLineSetting made = { 0 };
    if (!s)
        return made;
    made.is_set = 1;
    made.rule = rule_of(s);
    made.routine = irpx_id(t->routines[made.rule], &t->n_routines[made.rule], (void *)(uintptr_t)s->fn);
    made.context = s->context;
    made.flags = s->flags;
    return made;
}

/* What was answered. A routine gets its number where its line names it. */
static void add_answer(Text *t, IrpxLineAsked *to, const IrpxAsked *a)
{
    const BOOLEAN sets = a->plan == IRPX_FORWARD || a->plan == IRPX_FORWARD_PEND;
    if (a->kind == IRPX_ROUTINE || (a->kind == IRPX_DISPATCH && sets))
        to->set = setting_of(t, a->set);
    else if (a->kind == IRPX_CANCELLING || (a->plan != IRPX_FINISH && a->plan != IRPX_SKIPS))
        to->cancel = cancel_of(t, a->cancel);
    if (a->kind == IRPX_CANCELLING && to->cancel != IRPX_NONE)
        (a->plan == IRPX_FINISH ? t->finishes : t->leaves)[to->cancel] = 1;
    to->mark = a->mark;
    to->replaced = a->replaced;
    to->new_status = a->new_status;
    to->new_information = a->new_information;
}

static void put_asked(Text *t, const IrpxEntry *e, const IrpxAsked *a)
{
    IrpxLineAsked made = { 0 };
    made.kind = a->kind;
    made.plan = a->plan;
    made.dispatch = a->id;
    made.cancel = IRPX_NONE;
    add_answer(t, &made, a);
    made.slot = e->slot;
    made.use = e->use;
    made.device = a->device;
    made.major = a->major;
    made.location = a->location;
    made.word = a->word;
    made.status = a->status;
    made.information = a->information;
    made.returned = a->returned;
    made.cancelled = a->flag_differs ? !e->flag : e->flag;
    made.context = a->set && a->kind == IRPX_ROUTINE ? a->set->context : 0;
    made.has_lower = a->has_lower;
    line_asked(&t->lines, &made);
}

static void put_call(Text *t, const IrpxEntry *e)
{
    IrpxLineCall made = { 0 };
    made.op = e->op;
    made.by = e->by;
    made.device = e->device;
    made.other = e->other;
    made.drained = 1;
    made.major = e->major;
    made.slot = e->slot;
    made.use = e->use;
    made.word = e->word;
    made.information = e->information;
    made.status = e->status;
    made.cancel = e->op == IRPX_SET_CANCEL ? cancel_of(t, e->routine) : IRPX_NONE;
    made.set = setting_of(t, e->op == IRPX_SET_ROUTINE ? e->set : NULL);
    line_call(&t->lines, &made);
}

static IrpxLineReply reply_of(Text *t, const IrpxEntry *e)
{
    IrpxLineReply made = { 0 };
    made.kind = e->reply;
    made.slot = e->slot;
    made.answer = e->answer;
    made.cancel = e->reply == IRPX_SEEN ? cancel_of(t, e->routine) : e->reply == IRPX_PREVIOUS ? cancel_of(t, e->previous) :
        IRPX_NONE;
    made.owner = e->by;
    made.current = e->other;
    made.is_cancelled = e->answer != 0;
    made.returned = e->returned;
    made.marked = e->marked;
    made.status = e->status;
    made.information = e->information;
    return made;
}

/* The entries, up to the first send that hasn't returned. */
static void put_entries(Text *t)
{
    uint64_t n = 0;
    for (const IrpxEntry *e = irpx.first; e && e->reply != IRPX_NONE_YET; e = e->next) {
        put(&t->lines, "{'asked':[");
        for (const IrpxAsked *a = e->first; a; a = a->next) {
            put(&t->lines, a == e->first ? "" : ",");
            put_asked(t, e, a);
        }
        put_call(t, e);
        const IrpxLineReply reply = reply_of(t, e);
        line_end(&t->lines, n++, &reply, e->seat);
    }
}

static int dispatch_of(int driver, int major)
{
    return irpx.drivers[driver].fn[major] ? irpx.drivers[driver].id[major] : IRPX_NONE;
}

static void put_header(Text *t)
{
    IrpxLineHeader h = { 0 };
    for (const IrpxEntry *e = irpx.first; e; e = e->next)
        h.n_seats = e->seat >= h.n_seats ? e->seat + 1 : h.n_seats;
    h.n_cancels = t->n_cancels;
    h.n_dispatches = irpx.n_dispatches;
    h.n_drivers = irpx.n_drivers;
    h.n_majors = IRPX_MAJORS;
    h.n_devices = irpx.n_devices;
    h.n_routines = t->n_routines;
    h.finishes = t->finishes;
    h.leaves = t->leaves;
    h.dispatch = dispatch_of;
    line_header(&t->lines, &h);
}

size_t IrpxTranscript(char *Buffer, size_t Room)
{
    static Text t;
    memset(&t, 0, sizeof t);
    t.lines.text = t.lines.word = put;
    t.lines.number = put_number;
    t.lines.seat = put_seat;
    t.lines.irp = put_irp;
    put_entries(&t); /* finds the routines' numbers, for the header */
    t.length = 0;
    t.buffer = Buffer;
    t.room = Room;
    put_header(&t);
    put_entries(&t);
    return t.length;
}
