"""Tries the player on the host: all examples and 300 scripts made by chance are equal to the model; each of Wine's
differences, planted in the host, is told by its name, and another mistake as NEW.

IRPX names the program that judges. It prints what was wrong, and `tried: COUNT WRONG KIND` for each kind."""

import copy
import glob
import os
import random
import sys
import tempfile

sys.dont_write_bytecode = True
sys.path.insert(0, os.path.dirname(os.path.abspath(__file__)))
import building  # noqa: E402 (the path is set above)
import conditions  # noqa: E402
import kinds  # noqa: E402
import making  # noqa: E402
import refusals  # noqa: E402
import running  # noqa: E402
import scripts  # noqa: E402
import simulated  # noqa: E402
import trying  # noqa: E402

sys.path.insert(0, building.TOP + "/tests")
import random_scripts  # noqa: E402

EXAMPLES = building.TOP + "/examples"
RANDOM = 300
# Mistakes that are planted in the host, each with its edits and the kind that it is told as.
PLANTED = [
    (simulated.LOST_MARK,
     [("completion.c", "else if (l.pending && j < p->size)", "else if (0 && l.pending && j < p->size)")]),
    (simulated.ZERO_SUCCESS, [("completion.c", "!NT_SUCCESS(p->status)", "p->status != 0"),
                              ("completion.c", "NT_SUCCESS(p->status)", "p->status == 0")]),
    (simulated.OLD_STATUS,
     [("completion.c", "static bool is_met(", "static _Thread_local ULONG first_status;\n\nstatic bool is_met("),
      ("completion.c", "NT_SUCCESS(p->status)", "NT_SUCCESS(first_status)"),
      ("completion.c", "    p->unwinding = true;\n", "    p->unwinding = true;\n    first_status = p->status;\n")]),
    (simulated.NO_DISPATCH, [("sending.c", "p->irp->IoStatus.Information = 0;\n        finish(p, e, "
                              "(ULONG)STATUS_INVALID_DEVICE_REQUEST, 0);",
                              "finish(p, e, (ULONG)STATUS_INVALID_DEVICE_REQUEST, p->information);")]),
    (kinds.NEW, [("completion.c", "!NT_SUCCESS(p->status)", "p->status >= 0xC0000000u")]),
]


class Bench:
    """What was tried, by kind."""

    def __init__(self):
        self.model, self.manager, self.tried, self.room, self.within = running.Model(), running.Manager(), {}, None, 0

    def count(self, kind, name, wrong):
        done, bad = self.tried.get(kind, (0, 0))
        self.tried[kind] = (done + 1, bad + bool(wrong))
        if wrong:
            print(f"player: {name}: {str(wrong)[:500]}")

    def equal(self, kind, name, p, record, with_seats):
        """One script has to be equal to the model, and legal."""
        self.within += record.counts[4] if record else 0
        told, difference = kinds.kind_of(p, record, with_seats)
        verdict = self.model.judge(record.text) if record else ""
        legal = f"legal {sum('n' in it for it in record.lines)}" if record else ""
        wrong = f"{told}: {difference}" if told != kinds.EQUAL else f"{verdict}, not {legal}" if verdict != legal else None
        self.count(kind, name, wrong)


def try_examples(bench):
    paths = sorted(glob.glob(EXAMPLES + "/*/*.script"))
    many = [scripts.read(it, bench.model) for it in paths]
    for threads in (running.ONE_THREAD, running.BY_TURNS, running.WITHIN):
        some = [it for it in many if threads == running.ONE_THREAD or it.script["seats"] <= running.MOST_THREADS]
        for script, record in zip(some, bench.manager.play([it.feed for it in some], threads)):
            name = os.path.relpath(script.name, EXAMPLES)
            bench.equal("played examples", name, script.playable, record, threads != running.ONE_THREAD)
    bench.count("played examples", "steps within a dispatch or routine", bench.within < 20 and f"only {bench.within}")
    words = EXAMPLES + "/practice/completed_twice.words"
    bench.count("played examples", words, scripts.as_json(words) != scripts.as_json(words[:-5] + "script") and
                "its JSON isn't that of the script")


def try_refusing(bench):
    """Scripts of which many steps are refused: those are left out, and the rest is as it was."""
    many = []
    for n in range(RANDOM // 2):
        script = random_scripts.Maker(random.Random(f"player {n}")).script()
        many.append(scripts.Script(f"with refusals {n}", script, bench.model))
    for script, record in zip(many, bench.manager.play([it.feed for it in many])):
        bench.equal("played scripts by chance", script.name, script.playable, record, False)


def try_made(bench):
    """Scripts that nobody refuses, on one thread, by turns, within dispatches and routines, and with all seats at once."""
    for threads in (running.ONE_THREAD, running.BY_TURNS, running.WITHIN, running.AT_ONCE):
        at_once = threads == running.AT_ONCE
        many = [making.Made(random.Random(f"player {n}"), apart=at_once) for n in range(RANDOM // 8 + 1)]
        for n, (p, record) in enumerate(zip(many, bench.manager.play([it.feed() for it in many], threads))):
            if at_once:
                told = kinds.kind_at_once(p, record) if record else (kinds.NEW, "nothing came back")
                verdict = bench.model.judge(record.text) if record else ""
                bench.count("played scripts by chance", f"at once {n}", (told[0] != kinds.EQUAL and told) or
                            (not verdict.startswith("legal") and verdict))
            else:
                told = kinds.kind_of_made(p, record, threads != running.ONE_THREAD)
                bench.count("played scripts by chance", f"{threads} {n}", told[0] != kinds.EQUAL and told)


def try_minor(bench):
    """A power packet's minor reaches each dispatch as the script has it."""
    word, devices = 2 << 32 | 3, [{"seat": 0, "do": "create_device", "driver": it, "lock": it} for it in range(2)]
    steps = ["allocate 2 a", f"set_next o a 22 {word}", "set_routine o a keeper", "call_driver o a 1"]
    script = {"form": 1, "seats": 1, "locks": 2, "completions": [["keeper", "keep", "keep"]], "cancels": [],
              "dispatches": [["finish", 0, 5], ["forward", None]], "drivers": [[[22, 0]], [[22, 1]]],
              "setup": [*devices, {"seat": 0, "do": "attach", "device": 1, "to": 0}],
              "steps": [refusals.step_of(it) for it in steps]}
    it = scripts.Script("a minor", script, bench.model)
    record = bench.manager.play([it.feed])[0]
    bench.equal("played scripts by chance", it.name, it.playable, record, False)
    shown = [a["shown"][5] for e in record.lines[1:] for a in e["asked"]] if record else []
    bench.count("played scripts by chance", "its word", shown != [word] * 3 and f"shown {shown}, not {word}")


def try_simulation(bench):
    """The simulation, by which differences get their names, makes what irpx makes."""
    for n in range(20):
        made = making.Made(random.Random(f"player {n}"))
        script = scripts.Script(f"simulated {n}", made.script, bench.model)
        entries = kinds.simulated(made.script, script.playable.ops, (), len(script.playable.ops))
        lines = [{"drivers": [sorted(it) for it in made.script["drivers"]]}, *entries]
        bench.count("simulated scripts", script.name, kinds.first_difference(script.playable.expected, lines, made.script))


def edited_files(edits, folder):
    """Writes the host's files as edited. Returns their paths."""
    os.makedirs(folder)
    made = []
    for name in sorted({it[0] for it in edits}):
        text = building.host_files.text(name)
        for file, old, new in edits:
            if file == name and old not in text:
                raise building.Failed(f"{name} has no {old!r} to edit")
            text = text.replace(old, new) if file == name else text
        made.append(f"{folder}/{name}")
        with open(made[-1], "w", encoding="utf-8") as it:
            it.write(text)
    return made


def try_planted(bench, room):
    """At least one of 200 scripts finds a mistake and tells it by its name; none tells a known one as new. (Two known ones
    may do the same to a script.)"""
    many = [making.Made(random.Random(f"player {n}")) for n in range(200)]
    for k, (kind, edits) in enumerate(PLANTED):
        manager = running.Manager(edited_files(edits, f"{room}/planted{k}"))
        told = [kinds.kind_of_made(p, record)[0] for p, record in zip(many, manager.play([it.feed() for it in many]))]
        found = sorted({it for it in told if it != kinds.EQUAL})
        is_told = kind in found and (kind == kinds.NEW or kinds.NEW not in found)
        wrong = "no script finds it" if not found else not is_told and f"it is told as {found}"
        bench.count("planted mistakes that are told", f"mistake {k}", wrong)


def try_refused(bench):
    """What the host does with steps that the model refuses is what the page's table says."""
    page, seen = trying.page_rows(), trying.columns(["host"], bench.room)
    for row, cells in seen.items():
        wanted = page.get(row.what)
        bench.count("refused steps", row.what, "no row" if not wanted else wanted[1] != row.refusal and "another refusal" or
                    wanted[3] != cells["host"] and f"the page says {wanted[3]}, the host: {cells['host']}")
    bench.count("refused steps", "the page", [it for it in page if it not in {row.what for row in seen}])


def turned(playable, k):
    """Returns what is played with one condition turned round."""
    it, op = copy.copy(playable), playable.ops[k]
    it.ops = [*playable.ops[:k], (*op[:8], op[8] ^ conditions.NOT, op[9]), *playable.ops[k + 1:]]
    return it


def try_conditions(bench):
    """The player evaluates conditions by what the manager answers: with one of them turned round, it passes over the same
    steps as the simulation, up to where that would work on what isn't there."""
    many = [(it, k, turned(it.playable, k)) for it in map(lambda path: scripts.read(path, bench.model), conditioned())
            for k, op in enumerate(it.playable.ops) if op[7]]
    for (script, k, p), record in zip(many, bench.manager.play([it.feed() for _, _, it in many])):
        simulation = simulated.Manager(p.script, answered=record.replies if record else ())
        n = simulation.run(p.ops)
        made = [it != running.LEFT_OUT for it in record.replies[:n]] if record else []
        wrong = made != [it is not None for it in simulation.replies] and f"made: {made}, the simulation: {simulation.replies}"
        bench.count("conditions turned round", f"{os.path.basename(script.name)}, step {k}", wrong)


def conditioned():
    """Yields the examples that have conditions."""
    for path in sorted(glob.glob(EXAMPLES + "/*/*.script")):
        with open(path, encoding="utf-8") as it:
            if '"if"' in it.read():
                yield path


def try_rows(bench):
    """Each known difference has its section and its script."""
    with open(building.TOP + "/docs/PRACTICE.md", encoding="utf-8") as it:
        page = it.read()
    headings = [line[3:].lower().replace(" ", "-").replace("'", "") for line in page.splitlines() if line.startswith("## ")]
    for kind, (section, script) in simulated.KINDS.items():
        there = os.path.exists(f"{EXAMPLES}/practice/{script}.script")
        bench.count("rows of known differences", kind, section not in headings and "no section" or
                    f"`{script}`" not in page and "the page has no script of it" or not there and "no script")


def main():
    if {"-h", "--help"} & set(sys.argv[1:]):
        print(__doc__)
        return 0
    try:
        bench = Bench()
    except (running.Missing, building.Failed) as why:
        print(f"player: {why}\ntried: 1 1 builds of the player")
        return 1
    with tempfile.TemporaryDirectory() as room:
        bench.room = room
        for it in (try_rows, try_refused, try_conditions, try_examples, try_refusing, try_made, try_minor, try_simulation):
            it(bench)
        try:
            try_planted(bench, room)
        except building.Failed as why:
            bench.count("planted mistakes that are told", "a build", why)
    for kind, (done, bad) in bench.tried.items():
        print(f"tried: {done} {bad} {kind}")
    return 1 if any(bad for _, bad in bench.tried.values()) else 0


if __name__ == "__main__":
    sys.exit(main())
