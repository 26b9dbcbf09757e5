"""The rules by which the host tells faults: each is broken by a test that asks for it by name, and has a row of a page.

`test silenced` silences each of them in turn in a copy of the host: then the test that breaks it has to fail. That takes
some minutes, so `test` leaves it out unless it is named."""

import os
import re
import shutil
import subprocess

import as_windows
import checked
import explored
import host_files
import newer
import planted
import reaching

HERE = os.path.dirname(os.path.abspath(__file__))
NO_COMPLAINT = None
# Told of the words `DriverEntry` and `AddDevice`, of what is left behind, and of a second completion.
OTHERS = {"DriverEntry", "AddDevice", "LeftBehind", "CompletedTwice"}
# Only tried by a run with a schedule: the real threads would stand still.
BY_SCHEDULE = {"Stuck"}
STUCK = "FAULT Stuck: every thread waits"


def text_of(path):
    with open(f"{HERE}/{path}", encoding="utf-8") as it:
        return it.read()


def rules():
    """Returns the names of all rules: those that the host's source tells, and the refusals."""
    found = set(OTHERS)
    for name in host_files.sources():
        found |= set(re.findall(r'\b(?:fault|fault_of|fault_at|broken)\(\s*"(\w+)"', host_files.text(name)))
    return found | set(re.findall(r'"([A-Z]\w+)"', host_files.text("refusals.c")))


def rule_of(text):
    """Returns the rule that a wanted text names, or None."""
    found = re.match(r"(?:FAULT )?(\w+)", text)
    return found[1] if found else None


def names_of(program):
    return subprocess.run([program, "names"], capture_output=True, text=True, check=True).stdout.split()


def tests_of(misuses, cases):
    """Returns for each rule the first test that wants it: a kind and what is run."""
    found = {}
    for case in cases:
        found.setdefault(case.split("_")[0], ("rules", case))
    for case in misuses:
        found.setdefault(case, ("misuse", case))
    for fault in planted.FAULTS:
        if not fault.by_order:
            found.setdefault(rule_of(fault.tells[0]), ("planted", fault))
    for name, tells in planted.HOSTILE.items():
        found.setdefault(rule_of(tells[0]), ("hostile", name))
    for path in as_windows.files() + newer.files():
        for (number, run, rule), _ in newer.mistakes_in(path):
            if not run:
                found.setdefault(rule, ("newer", (path, number)))
    for name, number, _, rule, *_ in reaching.BUGS:
        found.setdefault(rule, ("untested", (name, number)))
    for rule in BY_SCHEDULE:
        found[rule] = ("schedule", rule)
    return found


def rows():
    """Returns the names in the tables of the pages: those of drivers, and of the refusals."""
    text = text_of("README.md") + text_of("VERIFIER.md") + text_of("../docs/RULES.md")
    lines = re.findall(r"^\|.*\|", text, re.M)
    return {word for line in lines for word in re.findall(r"[A-Z]\w+", line)}


def line_of(case):
    """Returns the place of the case's call, or None where it is told of a routine."""
    for file in ("misuse.c", "test.c"):
        for number, line in enumerate(text_of(f"misuse/{file}").splitlines(), 1):
            if f"told: {case} " in line:
                return f"{file}:{number}"
    return None


def wrong_misuse(case, run):
    """Returns what is wrong with the run of a case, or None."""
    told = [line for line in run.said.splitlines() if "FAULT" in line]
    wanted = [f"FAULT {case}", line_of(case) or case]
    if not told or any(it not in told[0] for it in wanted):
        return f"the first line isn't of {' at '.join(wanted)}: {told[:1] or run.verdict}"
    return NO_COMPLAINT if run.complaints() else "it counts as clean"


def misused(bench):
    """Gives a complaint for each case of misuse/ that isn't told at its line, and for rules without a test or a row."""
    folder = bench.folder("misuse")
    program = bench.build(folder, [HERE + "/misuse"])
    misuses = names_of(program)
    for case in filter(lambda it: bench.wants(f"misuse {it}"), misuses):
        run = bench.run(folder, program, args=case, patience=1)
        yield f"misuse {case}", wrong_misuse(case, run)
    made = bench.ran("--shake", "1", "--args", "Stuck", HERE + "/misuse")
    told = STUCK in made.stderr and made.returncode == 1
    yield "misuse Stuck, by a schedule", NO_COMPLAINT if told else made.stderr[-600:]
    ours, known = rules(), tests_of(misuses, names_of(bench.build(bench.folder("rules"), [HERE + "/rules"])))
    missing = sorted(ours - set(known))
    yield "each rule is broken by a test that names it", f"without one: {missing}" if missing else NO_COMPLAINT
    missing = sorted(ours - rows())
    yield "each rule has a row of a page", f"without one: {missing}" if missing else NO_COMPLAINT


def silenced_library(bench, RUN, apply):
    """Builds a copy of the host that doesn't tell the rule in WDM_SILENCED."""
    folder = bench.folder("silenced host")
    shutil.copytree(HERE + "/host", folder + "/host")
    check = '    const char *silenced = getenv("WDM_SILENCED");\n    if (silenced && !strcmp(silenced, rule))\n        return;\n'
    begins = ["void fault(const char *rule, const Packet *p, const char *how, ...)\n{\n",
              "void fault_of(const char *rule, const Packet *p, const Frame *f, const char *how, ...)\n{\n"]
    apply(host_files.path("faults.c", folder + "/host"), [(it, it + check) for it in begins])
    return RUN.build_host(bench.cc, None, folder + "/host")


class Silenced:
    """Runs the tests of rules on the host that has one of them silenced."""

    def __init__(self, bench, library, told_as_planted, apply):
        self.bench, self.library, self.told_as_planted, self.apply = bench, library, told_as_planted, apply
        self.built = {}

    def program(self, name, sources):
        if name not in self.built:
            self.built[name] = self.bench.build(self.bench.folder(name), sources, library=self.library)
        return self.built[name]

    def run(self, program, args, rule, settings=None):
        settings = dict(settings or {}, WDM_SILENCED=rule)
        return self.bench.run(os.path.dirname(program), program, args=args, patience=1, timeout=20, settings=settings)

    def planted(self, fault, rule):
        if fault.where == planted.SHAPES:
            return self.told_as_planted(fault, self.run(self.program("shapes", [HERE + "/shapes"]), fault.args, rule))
        sources = self.bench.folder(fault.name) + "/sources"
        shutil.copytree(f"{HERE}/{fault.where}", sources)
        self.apply(f"{sources}/{fault.file}", fault.edits)
        named = [sources if fault.where == planted.SAMPLES else f"{sources}/{fault.file}"]
        return self.told_as_planted(fault, self.run(self.program(fault.name, named), fault.args, rule))

    def failure(self, kind, what, rule):
        """Returns what the test of a rule complains of."""
        if kind == "planted":
            return self.planted(what, rule)
        if kind == "misuse":
            return wrong_misuse(what, self.run(self.program("misuse", [HERE + "/misuse"]), what, rule))
        if kind == "rules":
            settings = checked.SETTINGS.get("_" + what.partition("_")[2], {})
            run = self.run(self.program("rules", [HERE + "/rules"]), f"{what} wrong", rule, settings)
            return checked.wrong_case(what, checked.lines_told().get(what, []), run)
        if kind == "newer":
            source, number = what
            folder = self.bench.folder(os.path.basename(source))
            program = self.bench.build(folder, [f"{HERE}/{source}"], library=self.library, flags=[f"-DWRONG={number}"])
            return NO_COMPLAINT if f"FAULT {rule}" in self.run(program, "", rule).said else "it isn't told"
        run = self.run(self.program(what, [f"{HERE}/hostile/{what}.c"]), "", rule)
        missing = [it for it in planted.HOSTILE[what] if it not in run.said]
        return f"it doesn't say {missing[0]}" if missing else NO_COMPLAINT


def silenced_stuck(bench, RUN, library):
    """Gives what is said of threads that all wait, by a schedule, where that isn't told."""
    options = explored.Options(bench.cc, HERE + "/misuse/misuse.c", 0)
    options.source, options.every_order, options.shake, options.args = [HERE + "/misuse"], False, 1, "Stuck"
    made = explored.Explored(RUN, bench, "silenced by a schedule", options, library)
    options.settings, options.transcript = {"WDM_SILENCED": "Stuck"}, made.folder + "/transcript"
    return RUN.Run(options, made.program, made.folder, 1).said


def silenced(bench, RUN, told_as_planted, apply):
    """Gives a complaint for each rule whose test is well without it; those that a test of the host's own shows are left out."""
    library = silenced_library(bench, RUN, apply)
    tried = Silenced(bench, library, told_as_planted, apply)
    misuses = names_of(tried.program("misuse", [HERE + "/misuse"]))
    cases = names_of(tried.program("rules", [HERE + "/rules"]))
    known = tests_of(misuses, cases)
    for rule in sorted(rules() & set(known)):
        kind, what = known[rule]
        if kind == "untested":
            continue
        if kind == "schedule":
            fails = STUCK not in silenced_stuck(bench, RUN, library)
        else:
            fails = tried.failure(kind, what, rule)
        yield f"silenced {rule}: {kind} {getattr(what, 'name', what)} fails", \
            NO_COMPLAINT if fails else "it is well without the rule"
