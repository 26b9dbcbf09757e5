/* faults.c: faults and notes, on what standard error was at the start: a driver may close it, or open another file as
   descriptor 2. */
#include "record/own.h"
#include "explore/explore.h"
#include "ke/ke.h"
#include "mm/mm.h"
#include "rules/rules.h"
#include <fcntl.h>
#include <unistd.h>

enum { HIGH = 700 }; /* the host's own descriptors are above what a driver that closes them all in a loop reaches */
int n_faults, n_notes;
static int error_file = STDERR_FILENO;

__attribute__((constructor)) static void keep_standard_error(void)
{
    const int high = fcntl(STDERR_FILENO, F_DUPFD_CLOEXEC, HIGH);
    error_file = high < 0 ? STDERR_FILENO : high;
}

/* Opens a file to write, with a high descriptor. Returns NULL, with errno, where it can't be opened. */
FILE *open_high(const char *path)
{
    const int low = open(path, O_WRONLY | O_CREAT | O_TRUNC | O_CLOEXEC, 0666);
    if (low < 0)
        return NULL;
    const int high = fcntl(low, F_DUPFD_CLOEXEC, HIGH);
    if (high < 0)
        return fdopen(low, "w");
    close(low);
    return fdopen(high, "w");
}

/* From now on nothing is written there. */
void be_silent(void) { error_file = -1; }

/* Writes all of it, as far as it goes. */
void write_error(const char *text, size_t n)
{
    while (n) {
        const ssize_t written = write(error_file, text, n);
        if (written <= 0)
            return;
        text += written;
        n -= (size_t)written;
    }
}

/* One line of the host. */
void say(const char *how, ...)
{
    char text[2000];
    va_list list;
    if (error_file < 0)
        return;
    va_start(list, how);
    int n = snprintf(text, sizeof text, "host: ");
    n += vsnprintf(text + n, sizeof text - 1 - (size_t)n, how, list);
    va_end(list);
    if (n > (int)sizeof text - 2)
        n = (int)sizeof text - 2;
    text[n] = 0;
    if (!strncmp(how, "  ", 2))
        remember_told(&(Telling){ "detail", text + strlen("host:   "), NULL, NULL, NULL, NULL, NULL });
    text[n++] = '\n';
    write_error(text, (size_t)n);
}

static const struct { const char *rule, *known; } known_as[] = {
    { "CompletedTwice", "0x44" }, { "Ended", "its use was completed" }, { "TooShort", "0x35" },
    { "BadStatus", "Driver Verifier 0xC9 / 6" }, { "BadSize", "take the StackSize of the target, 1 to 32" },
    { "CancelRoutineSet", "0x48" }, { "InFlight", "memory freed in use" }, { "NotDrained", "RemoveLock rules" },
    { "NotHeld", "RemoveLock rules" }, { "AlreadyRemoving", "RemoveLock rules" },
    { "Status", "not the packet's status" },
    { "Returned", "rules MarkIrpPending, PendedCompletedRequest" }, { "MarkedLate", "rule PendedCompletedRequest" },
    { "Mark", "if (Irp->PendingReturned) IoMarkIrpPending(Irp)" }, { "NoIrp", "used after its free" },
    { "Touched", "used after its end" }, { "NotOwner", "somebody else has the packet" },
    { "NotPrepared", "the next location isn't filled" }, { "AfterSkip", "the location is the driver's below" },
    { "AlreadyCancelled", "if (Irp->Cancel && IoSetCancelRoutine(Irp, NULL)) complete it" },
    { "CancelledAndHeld", "nobody ends it" },
    { "Overwritten", "only the I/O manager writes there" },
    { "StackBlock", "what lies there is another's by then" }, { "NotAllocated", "who allocates memory frees it" },
    { "PacketMemory", "packets take IoSizeOfIrp(StackSize) nonpaged bytes" },
    { "NoLocation", "whoever allocated it has no location" },
};

static const char *expected[64];
static int n_expected;
static size_t wanted_entries = 1;

VOID WdmExpectRefusal(const char *Name)
{
    if (n_expected < 64)
        expected[n_expected++] = Name;
}

VOID WdmExpectEntries(ULONG Count) { wanted_entries = Count; }
size_t expected_entries(void) { return wanted_entries; }

bool is_expected_refusal(const char *name)
{
    for (int i = 0; i < n_expected; i++)
        if (!strcmp(expected[i], name))
            return true;
    return false;
}

/* For the summary: the refusals that the test expects. */
void tell_expected(FILE *out)
{
    for (int i = 0; i < n_expected; i++)
        fprintf(out, "expected %s\n", expected[i]);
}

/* A text that lasts for a few calls of this thread. */
static char *passing_text(void)
{
    static _Thread_local char texts[8][200];
    static _Thread_local int turn;
    return texts[turn++ % 8];
}

const char *who(int device)
{
    if (device < 0)
        return device == ORIGINATOR ? "the originator" : "nobody";
    char *text = passing_text();
    snprintf(text, 200, "D%d (%s)", device, devices[device].raw->DriverObject->HostName);
    return text;
}

const char *place(WDM_SITE at)
{
    if (!at.file)
        return "?";
    const char *slash = strrchr(at.file, '/');
    char *text = passing_text();
    snprintf(text, 200, "%s:%d", slash ? slash + 1 : at.file, at.line);
    return text;
}

/* A party of this packet: the originator is who allocated it. */
const char *who_of(const Packet *p, int device)
{
    if (device != ORIGINATOR || !p)
        return who(device);
    char *text = passing_text();
    if (p->allocator < 0 || p->built.by_manager)
        snprintf(text, 200, "its originator (built at %s)", place(p->sites.allocated));
    else
        snprintf(text, 200, "(%s), which %s it at %s", drivers[p->allocator]->HostName,
                 is_in_page(p->irp) ? "allocated" : "initialized", place(p->sites.allocated));
    return text;
}

/* Whose code makes the call that runs. */
const char *who_calls(void)
{
    const int driver = calling_driver();
    char *text = passing_text();
    if (driver < 0)
        return "the test";
    snprintf(text, 200, "(%s)", drivers[driver]->HostName);
    return text;
}

/* The dispatch or routine that runs: its function, its device, what it was asked. */
const char *what_runs(const Frame *f)
{
    char *text = passing_text(), *name = passing_text();
    snprintf(name, 100, is_in_program(f->fn) ? "%s" : "%s (%p, which is no function)", function_name(f->fn), f->fn);
    if (f->kind == DISPATCH)
        snprintf(text, 200, "%s, dispatch for %s of %s", name, major_name(f->major), who(f->device));
    else if (f->kind == WORK && f->device < 0 && f->driver >= 0)
        snprintf(text, 200, "%s, work of (%s)", name, drivers[f->driver]->HostName);
    else if (f->kind == ROUTINE && f->device < 0 && f->p->allocator >= 0)
        snprintf(text, 200, "%s, completion routine of (%s) for its own packet", name,
                 drivers[f->p->allocator]->HostName);
    else
        snprintf(text, 200, "%s, %s of %s", name,
                 f->kind == ROUTINE ? "completion routine" : f->kind == WORK ? "work" : "cancel routine",
                 f->kind == ROUTINE && f->device < 0 ? "the test" : who(f->device));
    return text;
}

/* Whether this fault was told before at this place. Where it wasn't, it is remembered. */
static struct { const char *rule, *file; const void *fn; int line, times; } told[256];
static int n_told;
static const int *times_of_last; /* that was told first */

static bool was_told(const char *rule, WDM_SITE at, const void *fn)
{
    for (int i = 0; i < n_told; i++)
        if (!strcmp(told[i].rule, rule) && told[i].file == at.file && told[i].line == at.line && told[i].fn == fn) {
            told[i].times++;
            return true;
        }
    times_of_last = n_told < 256 ? &told[n_told].times : NULL;
    if (n_told < 256) {
        told[n_told].rule = rule, told[n_told].file = at.file, told[n_told].line = at.line, told[n_told].fn = fn;
        told[n_told++].times = 1;
    }
    return false;
}

void tell_repeats(void)
{
    char where[200];
    for (int i = 0; i < n_told; i++) {
        snprintf(where, sizeof where, "+0x%lx in %s", place_in_program(told[i].fn), function_name(told[i].fn));
        if (told[i].times > 1)
            say("FAULT %s %d times at the same place (%s)", told[i].rule, told[i].times,
                told[i].file ? place((WDM_SITE){ told[i].file, NULL, told[i].line }) : told[i].fn ? where : "the end");
    }
}

static const char *known_name(const char *rule)
{
    for (size_t i = 0; i < sizeof known_as / sizeof *known_as; i++)
        if (!strcmp(known_as[i].rule, rule))
            return known_as[i].known;
    const Check *c = check_named(rule);
    return c ? c->code : NULL;
}

static void tell(const char *rule, const Packet *p, const char *where, const char *text)
{
    const char *known = known_name(rule);
    char irp[64] = "";
    if (p)
        snprintf(irp, sizeof irp, "(IRP %u.%lu)", p->slot, (unsigned long)p->use);
    say("FAULT %s%s%s%s: %s%s: %s [before entry %zu]", rule, known ? " (" : "", known ? known : "", known ? ")" : "",
        where, irp, text, n_history);
    char first[1600];
    snprintf(first, sizeof first, "%s: %s%s: %s", rule, where, irp, text);
    note_fault(first);
    remember_told(&(Telling){ "fault", rule, known, where, text, p, times_of_last });
}

void fault(const char *rule, const Packet *p, const char *how, ...)
{
    char text[900], where[1000];
    va_list list;
    va_start(list, how);
    vsnprintf(text, sizeof text, how, list);
    va_end(list);
    const Call *c = self.calls;
    const Frame *f = self.frames;
    n_faults++;
    if (was_told(rule, c ? c->at : (WDM_SITE){ 0 }, c && c->by ? c->by : f ? f->fn : NULL))
        return;
    if (c && c->is_access && f)
        snprintf(where, sizeof where, "%s (under %s)", c->name, what_runs(f));
    else if (!c || !c->at.file)
        snprintf(where, sizeof where, "%s", f ? what_runs(f) : c ? c->name : "the host");
    else if (f)
        snprintf(where, sizeof where, "%s in %s%s (under %s): %s", place(c->at), c->at.function, callers_of(c),
                 what_runs(f), c->name);
    else
        snprintf(where, sizeof where, "%s in %s%s: %s", place(c->at), c->at.function, callers_of(c), c->name);
    tell(rule, p, where, text);
}

/* A fault of what a dispatch or a routine returned, or did in all. */
void fault_of(const char *rule, const Packet *p, const Frame *f, const char *how, ...)
{
    char text[500], where[400];
    va_list list;
    va_start(list, how);
    vsnprintf(text, sizeof text, how, list);
    va_end(list);
    n_faults++;
    if (was_told(rule, f->last, f->fn))
        return;
    int n = 0;
    if (f->last.file)
        n = snprintf(where, sizeof where, "%s (after %s) in ", place(f->last), f->last_call);
    else if (is_in_program(f->fn))
        n = snprintf(where, sizeof where, "+0x%lx in %s: ", place_in_program(f->fn), function_name(f->fn));
    snprintf(where + n, sizeof where - (size_t)n, "%s, IRP %u.%lu", what_runs(f), p->slot, (unsigned long)p->use);
    tell(rule, NULL, where, text);
}

/* A fault of a call that was made before, at this place. */
void fault_at(const char *rule, const Packet *p, const char *call, WDM_SITE at, const char *how, ...)
{
    char text[900];
    va_list list;
    va_start(list, how);
    vsnprintf(text, sizeof text, how, list);
    va_end(list);
    const Call *const calls = self.calls;
    Frame *const frames = self.frames;
    Call then = { .name = call, .at = at };
    self.calls = &then;
    self.frames = NULL;
    fault(rule, p, "%s", text);
    self.calls = (Call *)calls;
    self.frames = frames;
}

/* Each note is told once. */
void note(const char *key, const char *how, ...)
{
    static const char *told_notes[64];
    static int n;
    char text[400];
    va_list list;
    va_start(list, how);
    vsnprintf(text, sizeof text, how, list);
    va_end(list);
    n_notes++;
    for (int i = 0; i < n; i++)
        if (!strcmp(told_notes[i], text))
            return;
    if (n < 64)
        told_notes[n++] = strdup(text);
    say("note, %s: %s", key, text);
    remember_told(&(Telling){ "note", key, NULL, NULL, text, NULL, NULL });
}
