/* story.c: a run's schedule as text, and as who gave way to whom and where. */
#include "explore/exploration.h"
#include "record/record.h"

typedef struct {
    const char *from, *to; /* threads by their names: a place may be another one's later */
    int thread, other;
    unsigned long order;
    bool preempts, early, waits, ends, is_decision;
    Place at, next;
} Switch;
enum { MOST_LINES = 40, AT_AN_END = MOST_LINES / 2 };
static Switch switches[MAX_SWITCHES];
static int n_switches, first_chosen = -1, at_fault = -1;
extern char __executable_start;

void remember_switch(const Choices *c, int to, const Place *next)
{
    if (n_switches == MAX_SWITCHES)
        return;
    const bool chosen = to != c->usual;
    if (chosen && first_chosen < 0)
        first_chosen = n_switches;
    switches[n_switches++] = (Switch){
        .from = thread_name(c->current), .to = thread_name(to), .thread = c->current, .other = to,
        .order = n_recorded++, .preempts = c->may_stay && to != c->current,
        .early = is_early(c, to) && chosen, .waits = c->stop == AT_WAIT, .ends = c->stop == AT_END,
        .is_decision = chosen, .at = *c->place, .next = *next };
}

/* The first fault is told: the story goes to here. */
void remember_fault(void) { at_fault = at_fault < 0 ? n_switches : at_fault; }

static void put_place(FILE *out, const Place *p)
{
    const char *own = path_in_host(p->at.file);
    if (own && !p->pc)
        fprintf(out, "drivers/host/%.*s", (int)strcspn(own, "/") + 1, own);
    if (p->pc)
        fprintf(out, "+0x%lx in %s (%s)", place_in_program((const char *)p->pc - 1), function_name(p->pc), p->what);
    else
        fprintf(out, "%s%s%s", p->at.file ? place(p->at) : "", p->at.file ? ", " : "", p->what);
}

/* The place as a text, and the call there, for the file beside the transcript. */
static void put_stop(FILE *out, const Place *p)
{
    char where[300];
    const char *folder = p->at.file && is_hosts_file(p->at.file) ? "drivers/host/" : "";
    if (p->pc)
        snprintf(where, sizeof where, "+0x%lx in %s", place_in_program((const char *)p->pc - 1), function_name(p->pc));
    else
        snprintf(where, sizeof where, "%s%s", folder, p->at.file ? place(p->at) : "");
    fputs("{\"call\":", out);
    put_json_text(out, p->what);
    fputs(",\"where\":", out);
    put_json_text(out, where);
    fputs("}", out);
}

static void put_switch_line(FILE *out, size_t i)
{
    const Switch *s = &switches[i];
    fprintf(out, "{\"at\":");
    put_stop(out, &s->at);
    fprintf(out, ",\"early\":%s,\"is_decision\":%s,\"name\":", s->early ? "true" : "false", s->is_decision ? "true" : "false");
    put_json_text(out, s->from);
    fputs(",\"next\":", out);
    put_stop(out, &s->next);
    fprintf(out, ",\"switch\":\"%s\",\"thread\":%d,\"to\":%d,\"to_name\":",
            s->preempts ? "preempted" : s->ends ? "ends" : s->waits ? "waits" : "yields", s->thread, s->other);
    put_json_text(out, s->to);
    fputs("}\n", out);
}

void add_switches(void)
{
    for (int i = 0; i < n_switches; i++)
        add_line(switches[i].order, put_switch_line, (size_t)i);
}

static void put_next(FILE *out, const Switch *s, const char *then)
{
    fprintf(out, "schedule: %-30s goes on from ", s->to);
    put_place(out, &s->next);
    fprintf(out, "%s\n", then);
}

static void put_switch(FILE *out, const Switch *s)
{
    const char *how = s->preempts ? "preempted before " : s->ends ? "" : s->waits ? "waits in " : "yields in ";
    fprintf(out, "schedule: %-30s %s", s->from, how);
    put_place(out, &s->at);
    fprintf(out, "%s\n", s->early ? "; time passes early" : "");
}

/* Whether the thread that goes on was stopped at a place that is told: its story had begun. */
static bool was_stopped_before(int at)
{
    for (int i = first_chosen; i < at; i++)
        if (switches[i].from == switches[at].to)
            return true;
    return false;
}

/* These switches, each with who goes on then. */
static void put_switches(FILE *out, int from, int to, int end)
{
    for (int i = from; i < to; i++) {
        put_switch(out, &switches[i]);
        if (i + 1 == end)
            put_next(out, &switches[i], at_fault == end ? ", to the fault" : "");
        else if (was_stopped_before(i))
            put_next(out, &switches[i], "");
    }
}

/* From the first switch that isn't usual to the first fault, or else to the end. Of many the last, and the first where but a
   few aren't usual. */
void tell_story(FILE *out)
{
    const int end = at_fault < 0 ? n_switches : at_fault;
    int early = 0, chosen = 0;
    for (int i = 0; i < n_switches; i++) {
        chosen += switches[i].is_decision;
        early += switches[i].preempts || switches[i].early;
    }
    fprintf(out, "schedule: %d switch%s, %d of them preemptions or early timers\n", n_switches, n_switches == 1 ? "" : "es",
            early);
    if (first_chosen < 0 || end <= first_chosen)
        return;
    if (first_chosen)
        fprintf(out, "schedule: .. %d switches as usual\n", first_chosen);
    const int left = end - first_chosen > MOST_LINES ? end - first_chosen - MOST_LINES : 0;
    const int before = !left ? end : chosen > AT_AN_END ? first_chosen : first_chosen + AT_AN_END;
    put_switches(out, first_chosen, before, end);
    if (left)
        fprintf(out, "schedule: .. %d switches left out\n", end - AT_AN_END - before);
    put_switches(out, left ? end - AT_AN_END : end, end, end);
}

/* `p3830.3be6,8=1`: the racy places that are points, then at which decision which thread goes on. */
const char *schedule_text(const Schedule *s)
{
    static char text[1 << 17];
    size_t n = 0;
    const char *between = "";
    text[0] = 0;
    for (int i = 0; i < shared->n_active && n < sizeof text - 40; i++) {
        n += (size_t)snprintf(text + n, sizeof text - n, "%s%x", i ? "." : "p", shared->racy[i]);
        between = ",";
    }
    for (int i = 0; i < s->n && n < sizeof text - 40; i++, between = ",")
        n += (size_t)snprintf(text + n, sizeof text - n, "%s%u=%u", between, s->at[i].step, s->at[i].choice);
    return n ? text : "usual";
}

static const char *read_places(const char *text)
{
    do {
        char *end;
        const unsigned long at = strtoul(text + 1, &end, 16);
        if (end == text + 1 || shared->n_active == MAX_RACY)
            return NULL;
        shared->racy[shared->n_active++] = (uint32_t)at;
        shared->is_point[(uint16_t)at] = 1;
        text = end;
    } while (*text == '.');
    return *text == ',' ? text + 1 : *text ? NULL : text;
}

/* Returns whether the text is a schedule. */
bool read_schedule(const char *text, Schedule *s)
{
    int read = 0;
    unsigned step, choice;
    *s = (Schedule){ 0 };
    if (!strcmp(text, "usual"))
        return true;
    if (*text == 'p' && !(text = read_places(text)))
        return false;
    while (*text && s->n < MAX_DEVIATIONS && sscanf(text, "%u=%u%n", &step, &choice, &read) == 2 &&
           choice < MAX_THREADS) {
        s->at[s->n++] = (Deviation){ step, (uint8_t)choice };
        text += read;
        text += *text == ',';
    }
    return !*text;
}
