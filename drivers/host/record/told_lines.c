/* told_lines.c: what the host told, for the file beside the transcript. */
#include "record/own.h"
#include "explore/explore.h"
#include "ke/ke.h"

typedef struct {
    const char *kind, *name, *known, *where, *said;
    const int *times;
    int seat;
    bool has_packet;
    unsigned slot;
    uint64_t use;
    unsigned long order;
    CallSite at;
} Remembered;
static Remembered remembered[1024];
static int n_remembered;

static const char *copy_of(const char *text)
{
    const char *made = text ? strdup(text) : NULL;
    if (text && !made)
        give_up("out of memory");
    return made;
}

void remember_told(const Telling *t)
{
    if (is_exploring || n_remembered == (int)(sizeof remembered / sizeof *remembered))
        return;
    const Call *c = self.calls;
    remembered[n_remembered++] = (Remembered){
        .kind = t->kind, .name = copy_of(t->name), .known = t->known, .where = copy_of(t->where), .said = copy_of(t->said),
        .times = t->times, .seat = self.seat, .has_packet = t->p, .slot = t->p ? t->p->slot : 0, .use = t->p ? t->p->use : 0,
        .order = n_recorded++, .at = c ? (CallSite){ c->at, c->name } : (CallSite){ { 0 }, NULL } };
}

static void put_text(FILE *o, const char *key, const char *text)
{
    if (!text)
        return;
    fprintf(o, ",\"%s\":", key);
    put_json_text(o, text);
}

static void put_remembered(FILE *o, size_t i)
{
    const Remembered *r = &remembered[i];
    fputs("{\"by\":{", o);
    put_call_site(o, &r->at);
    fprintf(o, "},\"%s\":", r->kind);
    put_json_text(o, r->name);
    put_text(o, "known", r->known);
    if (r->has_packet)
        fprintf(o, ",\"packet\":[%u,%lu]", r->slot, (unsigned long)r->use);
    put_text(o, "said", r->said);
    fprintf(o, ",\"seat\":%d", r->seat);
    if (r->times)
        fprintf(o, ",\"times\":%d", *r->times);
    put_text(o, "where", r->where);
    fputs("}\n", o);
}

void add_told(void)
{
    for (int i = 0; i < n_remembered; i++)
        add_line(remembered[i].order, put_remembered, (size_t)i);
}
