/* pageable.c: code that a driver's source puts into a pageable section (building.py finds it). At DISPATCH_LEVEL the code that
   runs has to be there. */
#include "rules/rules.h"
#include "ke/ke.h"
#include "record/record.h"

/* `of` is the entry of the driver whose code it is, or NULL of what isn't one driver's alone. */
extern const struct { const char *file, *function; PDRIVER_INITIALIZE of; } wdm_pageable[] __attribute__((weak));

enum { MOST_TOLD = 1024 };
static bool was_told[MOST_TOLD]; /* of a row */

static bool is_listed(const char *file, const char *function)
{
    for (int i = 0; wdm_pageable && wdm_pageable[i].file; i++)
        if (!strcmp(wdm_pageable[i].function, function) && !strcmp(wdm_pageable[i].file, file)) {
            was_told[i % MOST_TOLD] |= self.irql >= DISPATCH_LEVEL;
            return true;
        }
    return false;
}

/* The row of a function, or -1. */
static int row_of(const void *fn, const char *name)
{
    for (int i = 0; wdm_pageable && wdm_pageable[i].file; i++) {
        const void *of = (const void *)wdm_pageable[i].of;
        const bool is_its = of ? is_code_of_one(fn, of) : !is_code_of_one(fn, fn);
        if (is_its && !strcmp(wdm_pageable[i].function, name))
            return i;
    }
    return -1;
}

/* A driver's call: whether its own function may be paged out meanwhile. */
void check_pageable_call(const Call *c)
{
    if (self.irql < DISPATCH_LEVEL || !c->at.file || !c->at.function || !is_listed(c->at.file, c->at.function))
        return;
    const Hold *h = held_spin_lock();
    broken("PageableCode", NULL, "%s is in a pageable section, and runs at DISPATCH_LEVEL%s%s", c->at.function,
           h ? ", under the spin lock taken at " : "", h ? place(h->at) : "");
}

/* Tells of a function at this place. */
static void tell_called(const void *at, const Packet *p, const char *name)
{
    char where[200]; /* `run` has the line in place of the address */
    const Hold *h = held_spin_lock();
    snprintf(where, sizeof where, "+0x%lx in %s", place_in_program(at), function_name(at));
    Call *const calls = self.calls, here = { .name = where, .by = at };
    Frame *const frames = self.frames;
    self.calls = (Call *)&here;
    self.frames = NULL;
    broken("PageableCode", p, "%s is in a pageable section, and is called at DISPATCH_LEVEL%s%s", name,
           h ? ", under the spin lock taken at " : "", h ? place(h->at) : "");
    self.calls = calls;
    self.frames = frames;
}

/* A dispatch or routine begins at this level. */
void check_pageable_routine(const Frame *f)
{
    if (self.irql < DISPATCH_LEVEL || !wdm_pageable || !wdm_pageable[0].file)
        return;
    const char *name = function_name(f->fn);
    const int row = row_of(f->fn, name);
    if (row < 0)
        return;
    was_told[row % MOST_TOLD] = true;
    tell_called(f->fn, f->p, name);
}

/* A function of a driver is over, which this place called. One that makes no call of the host's is told here. */
void check_pageable_function(const void *fn, const void *caller)
{
    Call c;
    if (self.irql < DISPATCH_LEVEL || self.has_host || !wdm_pageable || !wdm_pageable[0].file)
        return;
    enter_quietly(&c, "a function returns", (WDM_SITE){ 0 });
    const char *name = function_name(fn);
    const int row = row_of(fn, name);
    if (row >= 0 && !was_told[row % MOST_TOLD]) {
        was_told[row % MOST_TOLD] = true;
        tell_called((const char *)caller - 1, NULL, name);
    }
    leave_host();
}
