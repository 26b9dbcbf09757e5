/*
 * covered.c: what runs came to: situations of the host's own test, functions of drivers, majors, minors, control codes,
 * completion routines that met an error, cancel routines that were called. Processes of an exploration share it, so that
 * it is of all orders. The summary of a run and the report of an exploration have it as lines, and `run` joins those.
 */
#include "test/test.h"
#include "record/record.h"
#include <stdatomic.h>
#include <sys/mman.h>

enum { MAX_RAN = 1 << 13, MOST_CODES = 256, MINORS = 256, MAJORS = IRP_MJ_MAXIMUM_FUNCTION + 1 };
typedef enum { NOT_COME, NOT_THERE, NOT_MADE, IS_MADE } State;
typedef struct { State state; const char *why; bool is_out; } Row; /* out: by what the drivers are */
typedef struct { _Atomic(const void *) fn; bool is_done; } Function; /* done: it met an error; it was called */
typedef struct { unsigned code; bool is_taken; } Code;

typedef struct {
    bool counts_situations;
    const char *piece_is_out;
    Row rows[N_SITUATIONS];
    Function ran[MAX_RAN], routines[MAX_RAN], cancels[MAX_RAN];
    const void *dispatches[MAX_DRIVERS][MAJORS];
    bool came[MAX_DRIVERS][MAJORS], minors[MAJORS][MINORS], knew[MAX_DRIVERS]; /* knew: a control code */
    Code codes[MOST_CODES];
    int n_codes;
} Covered;
static Covered *covered;

#define ROW_WORDS(name, words, needs) { words, needs },
static const struct { const char *words; Needs needs; } table[] = { SITUATIONS(ROW_WORDS) };

/* Before orders are explored, which begins before `main` too. Where there is no memory for it, nothing is counted. */
__attribute__((constructor(101))) static void share_covered(void)
{
    void *memory = mmap(NULL, sizeof *covered, PROT_READ | PROT_WRITE, MAP_SHARED | MAP_ANONYMOUS | MAP_NORESERVE, -1, 0);
    covered = memory == MAP_FAILED ? NULL : memory;
}

static Function *function_in(Function *functions, const void *fn)
{
    for (size_t i = ((uintptr_t)fn >> 2) % MAX_RAN, n = 0; n < MAX_RAN; i = (i + 1) % MAX_RAN, n++) {
        const void *there = NULL;
        if (functions[i].fn == fn || atomic_compare_exchange_strong(&functions[i].fn, &there, fn) || there == fn)
            return &functions[i];
    }
    return NULL;
}

static void keep(Function *f, bool is_done)
{
    if (f && is_done)
        f->is_done = true;
}

void function_ran(const void *fn)
{
    if (covered)
        function_in(covered->ran, fn);
}

void routine_was_called(const void *fn, bool with_error)
{
    if (covered)
        keep(function_in(covered->routines, fn), with_error);
}

void cancel_routine_set(const void *fn, bool is_called)
{
    if (covered)
        keep(function_in(covered->cancels, fn), is_called);
}

void request_came(int driver, UCHAR major, UCHAR minor)
{
    if (!covered || driver < 0 || major >= MAJORS)
        return;
    covered->came[driver][major] = true;
    covered->minors[major][minor] = true;
}

/* A driver ends a control: unless it says that it doesn't know the code, it does. */
void control_ended(int driver, UCHAR major, ULONG code, ULONG status)
{
    if (!covered || driver < 0 || status == (ULONG)STATUS_INVALID_DEVICE_REQUEST || status == (ULONG)STATUS_NOT_SUPPORTED)
        return;
    covered->knew[driver] |= major == IRP_MJ_DEVICE_CONTROL;
    control_sent(code, true);
}

/* At the end of a run: the dispatches that drivers have then. */
void learn_dispatches(void)
{
    for (int d = 0; covered && d < n_drivers; d++)
        for (int m = 0; m < MAJORS; m++)
            covered->dispatches[d][m] = (const void *)drivers[d]->MajorFunction[m];
}

void begin_situations(int has_stack, int may_hold)
{
    static const char no_stack[] = "no driver has AddDevice", holds_none[] = "no driver calls IoMarkIrpPending";
    if (!covered)
        return;
    covered->counts_situations = true;
    for (int i = 0; i < N_SITUATIONS; i++) {
        const Needs needs = table[i].needs;
        const bool lacks_stack = !has_stack && (needs == BELOW || needs == OF_STACK);
        if (lacks_stack || (!may_hold && (needs == BY_DRIVER || needs == OF_STACK || (needs == HELD && !has_stack))))
            covered->rows[i] = (Row){ NOT_THERE, lacks_stack ? no_stack : holds_none, true };
    }
}

static void set(Situation s, State state, const char *why)
{
    if (!covered)
        return;
    Row *r = &covered->rows[s];
    if (state == IS_MADE || (!r->is_out && r->state <= state))
        *r = (Row){ state, why, r->is_out };
}

void made(Situation s) { set(s, IS_MADE, NULL); }
void not_made(Situation s, const char *why) { set(s, NOT_MADE, why); }
void not_there(Situation s, const char *why) { set(s, NOT_THERE, why); }

void made_if(Situation s, int is, const char *why)
{
    if (is)
        made(s);
    else
        not_made(s, why);
}

void piece_not_there(const char *why)
{
    if (covered)
        covered->piece_is_out = why;
}

void control_sent(unsigned code, int is_taken)
{
    int i = 0;
    if (!covered)
        return;
    while (i < covered->n_codes && covered->codes[i].code != code)
        i++;
    if (i == MOST_CODES)
        return;
    covered->codes[i].code = code;
    covered->codes[i].is_taken |= is_taken != 0;
    covered->n_codes += i == covered->n_codes;
}

int control_is_taken(unsigned code)
{
    for (int i = 0; covered && i < covered->n_codes; i++)
        if (covered->codes[i].code == code)
            return covered->codes[i].is_taken;
    return false;
}

static void write_situations(FILE *out)
{
    static const char *const words[] = { "unmade", "apart", "unmade", "made" };
    for (int i = 0; covered->counts_situations && i < N_SITUATIONS; i++) {
        const Row *r = &covered->rows[i];
        fprintf(out, "situation %s %s|%s\n", words[r->state], table[i].words,
                r->why ? r->why : r->state == IS_MADE ? "" : "the test didn't come there");
    }
}

/* How many majors of the driver this function is the dispatch for. */
static int majors_of(int driver, const void *fn)
{
    int n = 0;
    for (int m = 0; m < MAJORS; m++)
        n += covered->dispatches[driver][m] == fn;
    return n;
}

/* A function that is the dispatch for most majors passes on or refuses what the driver doesn't handle. */
static void write_majors(FILE *out, int driver)
{
    for (int m = 0; m < MAJORS; m++) {
        const void *fn = covered->dispatches[driver][m];
        if (fn && majors_of(driver, fn) <= MAJORS / 2)
            fprintf(out, "%s %s %s\n", covered->came[driver][m] ? "came" : "uncame", function_name(fn), major_name(m));
    }
    const void *fn = covered->dispatches[driver][IRP_MJ_DEVICE_CONTROL];
    if (fn && covered->came[driver][IRP_MJ_DEVICE_CONTROL] && majors_of(driver, fn) <= MAJORS / 2)
        fprintf(out, "%s %s\n", covered->knew[driver] ? "knew" : "unknown", function_name(fn));
}

static void write_functions(FILE *out, const Function *functions, const char *done, const char *otherwise)
{
    for (int i = 0; i < MAX_RAN; i++)
        if (functions[i].fn)
            fprintf(out, "%s %s\n", functions[i].is_done ? done : otherwise, function_name(functions[i].fn));
}

void write_covered(FILE *out)
{
    if (!covered)
        return;
    write_situations(out);
    if (covered->piece_is_out)
        fprintf(out, "apart %s\n", covered->piece_is_out);
    for (int d = 0; d < MAX_DRIVERS; d++)
        write_majors(out, d);
    for (int major = 0; major < MAJORS; major++)
        for (int minor = 0; minor < MINORS; minor++)
            if (covered->minors[major][minor])
                fprintf(out, "minor %s %d\n", major_name(major), minor);
    for (int i = 0; i < covered->n_codes; i++)
        fprintf(out, "control %s 0x%x\n", covered->codes[i].is_taken ? "taken" : "refused", covered->codes[i].code);
    write_functions(out, covered->routines, "met", "unmet");
    write_functions(out, covered->cancels, "cancelled", "uncancelled");
    write_functions(out, covered->ran, "ran", "ran");
}
