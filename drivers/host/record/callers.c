/* callers.c: which code of the program led to where a thread is. Addresses stand for lines: `run` puts these in. */
#include "record/record.h"
#include "explore/explore.h"
#include <unwind.h>

enum { MOST = 8 };

/* A walk up a stack: what lies above `from` of it, or above the handler of a signal, as far as `until`, and at most up
   to the function `last`. */
typedef struct {
    uintptr_t from, until;
    bool in_handler;
    const void *last;
    const void *at[MOST];
    int n;
    bool is_over, takes_all; /* takes_all: a place isn't looked up, which takes time */
} Walk;

static _Unwind_Reason_Code step(struct _Unwind_Context *context, void *given)
{
    Walk *w = given;
    int is_exact = 0;
    const uintptr_t ip = _Unwind_GetIPInfo(context, &is_exact), stack = _Unwind_GetCFA(context);
    const void *at = (const void *)(is_exact ? ip : ip - 1);
    if (is_exact)
        w->in_handler = false;
    if (stack <= w->from || w->in_handler)
        return _URC_NO_REASON;
    if (w->is_over || w->n == MOST || stack >= w->until)
        return _URC_END_OF_STACK;
    if (w->takes_all || is_in_program(at))
        w->at[w->n++] = at;
    w->is_over = w->last && _Unwind_FindEnclosingFunction((void *)(uintptr_t)at) == w->last;
    return _URC_NO_REASON;
}

/* As text: ", called at +0x12 in F, called at +0x34 in G". */
static const char *tell_walk(const Walk *w, int first)
{
    static _Thread_local char text[MOST * 80];
    size_t n = 0;
    *text = 0;
    for (int i = first; i < w->n && n < sizeof text; i++)
        n += (size_t)snprintf(text + n, sizeof text - n, ", called at +0x%lx in %s", place_in_program(w->at[i]),
                              function_name(w->at[i]));
    return text;
}

/* A compiler gives parts of a function names of their own, behind a dot. */
static bool is_named(const void *at, const char *function)
{
    const char *name = function_name(at);
    const size_t n = strlen(function);
    return !strncmp(name, function, n) && (!name[n] || name[n] == '.');
}

static Walk walk_from(const Call *c, bool takes_all)
{
    const Frame *f = self.frames;
    Walk w = { .from = (uintptr_t)c, .until = f ? (uintptr_t)f : UINTPTR_MAX, .last = f ? f->fn : NULL,
               .takes_all = takes_all };
    if (c->is_entered && c->at.function)
        _Unwind_Backtrace(step, &w);
    return w;
}

/* Without the function that makes the call. Where that is inlined its own place comes first, and `run`, which can tell,
   leaves it out. */
static const char *tell_callers(const Walk *w, const char *function)
{
    int own = 0;
    while (own < w->n && !is_named(w->at[own], function))
        own++;
    return tell_walk(w, own < w->n ? own + 1 : 0);
}

/* Who called the function that makes this call, up to the dispatch or routine that runs. */
const char *callers_of(const Call *c)
{
    const Walk w = walk_from(c, false);
    return w.n ? tell_callers(&w, c->at.function) : "";
}

/* Keeps who made this call, for `place_with_callers`. A run that is one of many leaves it to the one that is shown. */
void keep_callers(Callers *kept, const Call *c)
{
    kept->n = 0;
    if (is_exploring)
        return;
    const Walk w = walk_from(c, true);
    kept->n = w.n < MOST_CALLERS ? w.n : MOST_CALLERS;
    memcpy(kept->at, w.at, (size_t)kept->n * sizeof *kept->at);
}

/* A place, and where it is a helper's, the helper and who called it. */
const char *place_with_callers(WDM_SITE at, const Callers *kept)
{
    static _Thread_local char text[500];
    Walk w = { .n = 0 };
    for (int i = 0; i < kept->n; i++)
        if (is_in_program(kept->at[i]))
            w.at[w.n++] = kept->at[i];
    const char *callers = w.n ? tell_callers(&w, at.function) : "";
    snprintf(text, sizeof text, "%s%s%s%s", place(at), *callers ? " in " : "", *callers ? at.function : "", callers);
    return text;
}

/* Whether it stands in a function that copies, fills, compares or counts for its caller: the C library's, or hooks.c's. */
bool is_helper(const void *at)
{
    static const char *const begins[] = { "__mem", "__str", "wdm_", "__tsan_" };
    const char *name = function_name(at);
    for (size_t i = 0; i < sizeof begins / sizeof *begins; i++)
        if (!strncmp(name, begins[i], strlen(begins[i])))
            return true;
    return false;
}

/* Where this thread is, or was where a handler interrupted it: into `at`, as far as its dispatch or routine. Returns how
   many places. */
int where_is(bool in_handler, const void **at, int most)
{
    const Frame *f = self.frames;
    Walk w = { .from = in_handler ? 0 : (uintptr_t)__builtin_frame_address(0), .in_handler = in_handler,
               .until = f ? (uintptr_t)f : UINTPTR_MAX, .last = f ? f->fn : NULL };
    _Unwind_Backtrace(step, &w);
    const int n = w.n < most ? w.n : most;
    memcpy(at, w.at, (size_t)n * sizeof *at);
    return n;
}
