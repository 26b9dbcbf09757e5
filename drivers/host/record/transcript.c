/* transcript.c: the history as a transcript. recorder/lines.h has its lines. */
#include "record/transcript.h"
#include "recorder/lines.h"

_Static_assert((int)CREATE == IRPX_CREATE && (int)FREE == IRPX_FREED && (int)LOOK == IRPX_LOOK, "calls in one order");
_Static_assert((int)DISPATCH == IRPX_DISPATCH && (int)CANCELLING == IRPX_CANCELLING, "kinds in one order");
_Static_assert((int)UNKNOWN == IRPX_UNDECIDED && (int)LEAVE == IRPX_LEAVE, "plans in one order");
_Static_assert((int)NONE_YET == IRPX_NONE_YET && (int)REFUSED == IRPX_REFUSED, "replies in one order");

typedef struct { int seat, lock, to; const char *act, *reply; uint64_t tag; unsigned step; unsigned long order; CallSite at;
    const Packet *p; uint64_t use; /* the packet that the tag is, where its dispatch or routine runs */
} Word;

Ids ids;
static unsigned char finishes[MAX_IDS], leaves[MAX_IDS];
static int n_declared;
static struct { PIO_COMPLETION_ROUTINE fn; IrpxRule rule; } declared[64];
static Word *words;
static size_t n_words, words_room;

const char *op_name(Op op) { return irpx_ops[op]; }

/* A step on a remove lock. */
void record_word(const char *act, int lock, PVOID tag, const char *reply, int by, int to)
{
    if (n_words == words_room) {
        words_room = words_room ? 2 * words_room : 256;
        words = realloc(words, words_room * sizeof *words);
        if (!words)
            give_up("out of memory");
    }
    const Frame *f = self.frames;
    const CallSite at = self.calls ? (CallSite){ self.calls->at, self.calls->name } : (CallSite){ { 0 }, NULL };
    words[n_words] = (Word){ by, lock, to, act, reply, (uint32_t)number_of(tag), (unsigned)n_words, n_recorded++, at,
        f && f->p && (PVOID)f->p->irp == tag ? f->p : NULL, f ? f->use : 0 };
    n_words++;
}

VOID WdmDeclareRule(PIO_COMPLETION_ROUTINE Routine, const char *Rule_)
{
    for (IrpxRule r = IRPX_WATCH; r < IRPX_RULES; r++)
        if (!strcmp(Rule_, irpx_rules[r]) && n_declared < 64)
            declared[n_declared].fn = Routine, declared[n_declared++].rule = r;
}

static int id_in(void **table, int *n, void *fn)
{
    for (int i = 0; i < *n; i++)
        if (table[i] == fn)
            return i;
    if (*n == MAX_IDS)
        reach_limit("more than 256 routines of one kind");
    table[*n] = fn;
    return (*n)++;
}

/* The declared rule; else the smallest that fits what this setting's routine answered. */
static IrpxRule rule_of(const Setting *s)
{
    for (int i = 0; i < n_declared; i++)
        if (declared[i].fn == s->fn)
            return declared[i].rule;
    return s->kept ? s->replaced ? IRPX_FREE_RULE : IRPX_KEEPER : s->replaced ? IRPX_CHANGE : IRPX_WATCH;
}

static int dispatch_of(void *fn) { return id_in(ids.dispatches, &ids.n_dispatches, fn); }

static int cancel_of(PDRIVER_CANCEL fn)
{
    return fn ? id_in(ids.cancels, &ids.n_cancels, (void *)fn) : IRPX_NONE;
}

static IrpxLineSetting setting_of(const Setting *s)
{
    if (!s)
        return (IrpxLineSetting){ 0 };
    const IrpxRule rule = rule_of(s);
    return (IrpxLineSetting){ 1, rule, id_in(ids.routines[rule], &ids.n_routines[rule], (void *)s->fn), s->context, s->flags };
}

/* A routine gets its number where its line names it. */
static void put_asked(Text *t, const Entry *e, const Asked *a)
{
    const bool sets = a->kind == ROUTINE || (a->kind == DISPATCH && (a->plan == FORWARD || a->plan == FORWARD_PEND));
    const bool cancels = a->kind == CANCELLING || (a->kind == DISPATCH && a->plan == HOLD);
    const IrpxLineAsked made = {
        .kind = (IrpxKind)a->kind, .plan = (IrpxPlan)a->plan, .dispatch = a->kind == DISPATCH ? dispatch_of(a->fn) : IRPX_NONE,
        .cancel = cancels ? cancel_of(a->cancel) : IRPX_NONE, .set = setting_of(sets ? a->set : NULL), .mark = a->mark,
        .replaced = a->replaced, .new_status = a->new_status, .new_information = a->new_information, .slot = e->slot,
        .use = e->use, .device = a->device < 0 ? IRPX_NONE : a->device, .major = a->major, .location = a->location,
        .returned = a->returned, .cancelled = e->cancel, .has_lower = a->has_lower, .word = a->word, .status = a->status,
        .information = a->information, .context = a->context };
    line_asked(&t->lines, &made);
}

static void put_call(Text *t, const Entry *e)
{
    const IrpxLineCall made = {
        .op = (IrpxOp)e->op, .by = e->by < 0 ? IRPX_ORIGINATOR : e->by, .cancel = cancel_of(e->op == SET_CANCEL ? e->routine : NULL),
        .device = e->op == CREATE ? (int)e->answer : e->device,
        .other = e->op == CREATE ? e->device : e->op == ALLOCATE ? (int)e->status : e->other, .drained = e->drained,
        .major = e->major, .slot = e->slot, .use = e->use, .word = e->word, .information = e->information,
        .status = e->status, .set = setting_of(e->op == SET_ROUTINE ? e->set : NULL) };
    line_call(&t->lines, &made);
}

static IrpxLineReply reply_of(const Entry *e)
{
    const bool names = e->reply == PREVIOUS || e->reply == SEEN;
    return (IrpxLineReply){
        .kind = (IrpxReply)e->reply, .slot = e->slot, .cancel = names ? cancel_of(e->seen.routine) : IRPX_NONE,
        .answer = e->reply != IRP_REF ? e->answer : e->op == REUSE ? e->word : e->use, .refused = e->refused,
        .owner = e->seen.owner, .current = e->seen.current, .is_cancelled = e->seen.cancel, .returned = e->seen.returned,
        .marked = e->seen.marked, .status = e->seen.status, .information = e->seen.information };
}

static void put_entry(Text *t, const Entry *e)
{
    t->lines.text(&t->lines, "{'asked':[");
    for (int i = 0; i < e->n; i++) {
        if (i)
            t->lines.text(&t->lines, ",");
        put_asked(t, e, &e->asked[i]);
    }
    put_call(t, e);
    const IrpxLineReply reply = reply_of(e);
    line_end(&t->lines, e->number, &reply, e->seat);
}

static void put_word(Text *t, const Word *w)
{
    IrpxLines *l = &t->lines;
    l->text(l, "{'do':'");
    l->word(l, w->act);
    line_number(l, "','lock':", (uint64_t)w->lock);
    l->text(l, ",'reply':");
    l->word(l, w->reply);
    l->text(l, ",'seat':");
    l->seat(l, w->seat);
    l->text(l, ",'step':");
    put_step(t, w->step);
    if (strcmp(w->act, "drained")) {
        l->text(l, ",'tag':");
        put_tag(t, w->tag);
    }
    if (w->to >= 0) {
        l->text(l, ",'to':");
        l->seat(l, w->to);
    }
    l->text(l, "}\n");
}

/* Behind the entries, by seat. A hand names who gives and, as `to`, who takes. */
static void put_words(Text *t)
{
    for (int s = 0; s < n_seats; s++)
        for (size_t i = 0; i < n_words; i++)
            if (words[i].seat == s)
                put_word(t, &words[i]);
}

/* For the file beside the transcript: where a step was made. */
static void put_word_place(FILE *o, size_t i)
{
    fprintf(o, "{\"by\":{");
    put_call_site(o, &words[i].at);
    fputs("}", o);
    if (words[i].p)
        fprintf(o, ",\"packet\":[%u,%lu]", words[i].p->slot, (unsigned long)words[i].use);
    fprintf(o, ",\"step\":%u}\n", words[i].step);
}

void add_words(void)
{
    for (size_t i = 0; i < n_words; i++)
        add_line(words[i].order, put_word_place, i);
}

static int dispatch_for(int driver, int major)
{
    PDRIVER_DISPATCH fn = drivers[driver]->MajorFunction[major];
    return fn ? dispatch_of((void *)fn) : IRPX_NONE;
}

/* Once each id has its number. */
static void put_header(Text *t)
{
    const IrpxLineHeader h = {
        .n_cancels = ids.n_cancels, .n_dispatches = ids.n_dispatches, .n_drivers = n_drivers,
        .n_majors = IRP_MJ_MAXIMUM_FUNCTION + 1, .n_devices = n_devices, .n_seats = n_seats, .n_routines = ids.n_routines,
        .finishes = finishes, .leaves = leaves, .dispatch = dispatch_for };
    line_header(&t->lines, &h);
}

/* The history up to the first send that hasn't returned: a reply is never made up. Returns how many entries. */
static size_t put_history(Text *t)
{
    size_t n = 0;
    while (n < n_history && history[n]->reply != NONE_YET)
        put_entry(t, history[n++]);
    put_words(t);
    return n;
}

static void learn_answers(void)
{
    for (size_t i = 0; i < n_history; i++)
        for (int k = 0; k < history[i]->n; k++) {
            const Asked *a = &history[i]->asked[k];
            if (a->kind == CANCELLING)
                (a->plan == FINISH ? finishes : leaves)[cancel_of(a->cancel)] = 1;
        }
}

/* Gives each id its number, in the order of the history. Returns the transcript's hash, and how many entries it has. */
uint64_t hash_transcript(size_t *n)
{
    Text t;
    begin_hash(&t);
    learn_answers();
    *n = put_history(&t);
    put_header(&t);
    return t.hash;
}

/* Once it has its hash. */
void write_transcript(FILE *out)
{
    Text t;
    begin_file(&t, out);
    put_header(&t);
    put_history(&t);
}
