"""Tests of snapshots in place of forks: the same classes and the same failures by both, programs that need forks, and
snapshots made wrong."""

import re

# Stacks whose orders are made by forks as well: with how many preemptions; and those where `compared` is chosen.
BY_BOTH = {"removal": 1, "keyboard": 1, "power": 1, "handover": 1, "watchdog": 2, "shared": 1}
LONGER = {"removal": 2, "keyboard": 2, "power": 2, "handover": 2, "samples": 1, "split": 1}

# Snapshots with one thing wrong, as in explored.py's table of explorers.
WRONG = [
    ("pages of the host's memory aren't put back", "tracking.c", "if (memcmp(h->page, v->bytes, PAGE)) {\n            memcpy(",
     "if (memcmp(h->page, v->bytes, PAGE) && (uintptr_t)h->page >> 36 != 0x200) {\n            memcpy(", "classes", "watchdog"),
    ("a page that became hot later isn't put back", "tracking.c", "i < p->n ? p->versions[i] : h->original;",
     "i < p->n ? p->versions[i] : h->last;", "classes", "watchdog"),
    ("a packet's page is left open", "packet_pages.c", "state == OPEN ? PROT_READ | PROT_WRITE : PROT_NONE",
     "PROT_READ | PROT_WRITE", "ending", "touch"),
    ("what a closed packet's page has in it counts as known", "packet_pages.c", "all->stamps[i] = ++all->last;",
     "all->stamps[i] = 1;", "classes", "keyboard"),
    ("a lost process isn't seen", "explorer.c", "return shared->n_begun != shared->n_ended &&",
     "return shared->n_begun < shared->n_ended &&", "ending", "deep"),
]

# A test that ends badly where a thread is preempted at one place; with the word `deep` it only needs much of its stack.
ENDS = """#include <wdm.h>
#include "wdm_test.h"
#include <pthread.h>
#include <unistd.h>

static pthread_mutex_t lock = PTHREAD_MUTEX_INITIALIZER;
static int is_between;
static char how[10]; /* copied: where the words of a command lie depends on the environment */
static PIRP ended;

static int deep(int n)
{
    volatile char room[4096];
    room[n % 4096] = (char)n;
    return n ? deep(n - 1) + room[n % 4096] : 0;
}

static void end_badly(void)
{
    volatile int zero = 0;
    switch (*how) {
    case 'n': *(volatile int *)8 = 1; break;
    case 'a': abort();
    case 'e': exit(7);
    case 'o': deep(1 << 20); break;
    case 'd': zero = 1 / zero; break;
    case 'j': ((void (*)(void))16)(); break;
    case 'l': for (;;) zero = zero + 1;
    case 't': ended->IoStatus.Information = 1; break;
    case 's': if (IoGetRemainingStackSize() < 1 << 16) abort(); break;
    case 'q': _exit(7);
    }
}

static void *go_between(void *context)
{
    pthread_mutex_lock(&lock);
    is_between = 1;
    pthread_mutex_unlock(&lock);
    pthread_mutex_lock(&lock);
    is_between = 0;
    pthread_mutex_unlock(&lock);
    return context;
}

static void *look(void *context)
{
    pthread_mutex_lock(&lock);
    const int seen = is_between;
    pthread_mutex_unlock(&lock);
    if (seen)
        end_badly();
    return context;
}

int main(int argc, char **argv)
{
    pthread_t t[3];
    strncpy(how, argc > 1 ? argv[1] : "", sizeof how - 1);
    WdmSend(WdmCreateBottom(FALSE), IRP_MJ_READ, 0, 4);
    ended = IoAllocateIrp(1, FALSE);
    IoFreeIrp(ended);
    pthread_create(&t[0], NULL, go_between, NULL);
    pthread_create(&t[1], NULL, look, NULL);
    pthread_create(&t[2], NULL, look, NULL);
    if (!strcmp(how, "deep") && deep(500) < 0)
        return 2;
    for (int i = 0; i < 3; i++)
        pthread_join(t[i], NULL);
    return WdmFinish();
}
"""
ENDINGS = ["well", "null", "abort", "exit", "overflow", "division", "jump", "touch", "stack", "quits", "deep"]
NEED_FORKS = ["quits", "deep"]
ASKED = "a test asks for it"


def found_by(made, way, **settings):
    """Returns what an exploration finds that doesn't depend on how its choices are made, and why it needed forks."""
    path = f"{made.folder}/classes by {way}"
    if way == "forks":
        settings["WDM_FORKS"] = ASKED
    report = made.report(WDM_CLASSES=path, **settings)
    with open(path, encoding="ascii") as it:
        classes = set(it.read().split())
    counts = [(it["bound"], it["all"], it["classes"]) for it in report.finished()]
    facts = {it: report.facts.get(it) for it in ("ended", "why", "cost", "schedule", "failed_runs")}
    return {"classes": classes, "counts": counts, "outcomes": sorted(report.outcomes), **facts}, report.facts.get("forks")


def difference(one, two):
    """Returns where two explorations differ, or None."""
    found = [f"{it}: {one[it]} and {two[it]}" for it in one if one[it] != two[it]]
    return "; ".join(found)[:800] or None


def wrong_ways(made, **settings):
    """Returns how snapshots find otherwise than forks, or why there were none, or None."""
    forks, _ = found_by(made, "forks", **settings)
    snapshots, why = found_by(made, "snapshots", **settings)
    return difference(forks, snapshots) or (f"there were forks, since {why}" if why else None)


def test_stack(made, name):
    yield f"stack {name}, the same by snapshots as by forks", wrong_ways(made)


def test_endings(made):
    """Ends that a process comes through, and those for which it needs forks."""
    for made.options.args in ENDINGS:
        forks, _ = found_by(made, "forks", WDM_GO_ON="1")
        snapshots, why = found_by(made, "snapshots", WDM_GO_ON="1")
        wrong = difference(forks, snapshots)
        if bool(why) != (made.options.args in NEED_FORKS):
            wrong = f"forks: {why}"
        yield f"an end by snapshots as by forks: {made.options.args}", wrong


HEADERS = ["fcntl.h", "pthread.h", "signal.h", "stdio.h", "time.h"]
# What snapshots don't put back, or what fails over pages that they have closed: what a test does, and the functions for that.
CALLS = {
    "opens files": ('fclose(fopen("/dev/null", "r"));', "fclose, fopen"),
    "reads into memory of its own": ("static char own[9000];\n    if (read(open(\"/dev/zero\", 0), own + 4096, 100) != 100)\n"
                                     "        abort();", "open, read"),
    "opens another file under a number": ('close(0);\n    open("/dev/zero", O_RDWR);', "close, open"),
    "sets a signal's handler": ("signal(SIGUSR1, SIG_IGN);", "signal"),
    "asks for the processor's time": ("if (clock() == -1)\n        abort();", "clock"),
}


def test_calls(explored_of):
    """Tests that need forks, and a line that says so."""
    headers = "".join(f"#include <{it}>\n" for it in HEADERS)
    for what, (code, calls) in CALLS.items():
        text = ENDS.replace("#include <pthread.h>\n", headers)
        made = explored_of(text.replace("    return WdmFinish();\n", f"    {code}\n    return WdmFinish();\n"))
        found, why = found_by(made, "itself")
        well = found["ended"] == "done" and why and f"it calls {calls}," in why
        yield f"forks for what {what}", None if well else f"{found['ended']}, {why}"


def test_coverage(bench, source):
    """The compiler's counts under every order: forks, each line that ran in any order, and as many classes as without."""
    words = ["--every-order", "--preemptions", "1", "--processes", "1", "--judge", "1", source]
    one, two = (bench.ran(*more, *words).stdout for more in ([], ["--coverage"]))
    wrong = [it for it in ("since counts of lines that ran would be put back\n", "\nlines       ") if it not in two]
    classes = [re.findall(r", (\d+) class\w* of orders", it) for it in (one, two)]
    yield "which lines ran in any order", f"{wrong}, {classes}: {two}" if wrong or classes[0] != classes[1] else None


def wrong_ending(right, wrong, name):
    """Returns how a wrong explorer shows where a test ends in that way, or None."""
    right.options.args = wrong.options.args = name
    forks, _ = found_by(right, "forks", WDM_GO_ON="1")
    snapshots, why = found_by(wrong, "snapshots", WDM_GO_ON="1")
    return difference(forks, snapshots) or (None if why or name != "deep" else "no forks")
