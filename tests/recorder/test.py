"""Tries the recorder on the host: the thirty scenarios, Wine's differences planted one by one, threads, and races.

IRPX names the program that judges. It prints what was wrong, and `tried: COUNT WRONG KIND` for each kind."""

import concurrent.futures
import importlib.machinery
import importlib.util
import os
import shutil
import subprocess
import sys
import tempfile

sys.dont_write_bytecode = True
sys.path.insert(0, os.path.dirname(os.path.abspath(__file__)))
import building  # noqa: E402 (the path is set above)
import expected  # noqa: E402

NEEDED = {"memcpy", "memset"} | {"bare_" + it for it in ("take", "give", "thread", "lock", "unlock", "yield")}


def load_judge():
    loader = importlib.machinery.SourceFileLoader("judge", building.DRIVERS + "/recorder/judge")
    module = importlib.util.module_from_spec(importlib.util.spec_from_loader("judge", loader))
    loader.exec_module(module)
    return module


JUDGE = load_judge()


class Bench:
    """The judge, a folder that goes at the end, and what was tried."""

    def __init__(self, irpx, room):
        self.irpx, self.room, self.tried = irpx, room, {}

    def count(self, kind, name, wrong):
        done, bad = self.tried.get(kind, (0, 0))
        self.tried[kind] = (done + 1, bad + bool(wrong))
        if wrong:
            print(f"recorder: {name}: {wrong}")

    def run(self, words, wanted=1, **more):
        """Returns the first line of the verdict, and the exit status of the program that was recorded."""
        try:
            made = subprocess.run(words, capture_output=True, text=True, check=False, timeout=100,
                                  env={**os.environ, **more})
        except subprocess.TimeoutExpired:
            return "no end after 100 seconds", None
        return JUDGE.judge(self.irpx, made.stdout, wanted)[1][0], made.returncode


def differs(verdict, wanted):
    """Returns what is wrong with a verdict, or None."""
    return None if verdict == wanted or verdict.startswith(wanted + ":") else f"{verdict}, not {wanted}"


def run_scenarios(bench, program, changed=(), rows=expected.ROWS):
    """Runs all; those that are changed must be as on Wine. Returns each with what is wrong."""
    def one(row):
        name, wine, host, _ = row
        verdict, status = bench.run([program, name])
        wanted = wine if name in changed else host
        return name, differs(verdict, wanted) or (f"exit status {status}" if status else None)
    with concurrent.futures.ThreadPoolExecutor(4) as pool:
        return list(pool.map(one, rows))


def try_scenarios(bench, scenarios, host, recorder):
    program = building.link(scenarios + host + recorder, bench.room + "/scenarios")
    named = subprocess.run([program], capture_output=True, text=True, check=True).stdout.split()
    wanted = [row[0] for row in expected.ROWS + expected.HOST_ROWS]
    bench.count("recorded scenarios", "all are expected", sorted(named) != sorted(wanted) and "they aren't")
    for name, wrong in run_scenarios(bench, program, rows=expected.ROWS + expected.HOST_ROWS):
        bench.count("recorded scenarios", name, wrong)
    try_page_command(bench, host)


def try_page_command(bench, host):
    """As the page has it, all files, those of the recorder too, are compiled with `-include recorder.h`."""
    flags = ["cc", *building.STRICT, *building.HOST_FLAGS, "-include", "recorder.h"]
    objects = building.compile_all(building.SCENARIOS + building.RECORDER, bench.room + "/page", flags)
    program = building.link(objects + host, bench.room + "/page/scenarios")
    for name, wrong in run_scenarios(bench, program):
        bench.count("scenarios by the page's command", name, wrong)
    if shutil.which("x86_64-w64-mingw32-gcc") and os.path.isdir(building.HEADERS):
        program = building.by_the_page(bench.room + "/as_written")
        bench.count("scenarios by the page's command", "as written", not os.path.exists(program) and "it makes no program")


def try_planted(bench, scenarios, host, recorder):
    for i, (name, edits, changed) in enumerate(expected.PLANTED):
        folder = f"{bench.room}/planted{i}"
        objects = building.with_edits(host, folder, edits)
        program = building.link(scenarios + objects + recorder, folder + "/scenarios")
        for scenario, wrong in run_scenarios(bench, program, changed, expected.ROWS + expected.HOST_ROWS):
            bench.count("planted differences of Wine", f"{name}, {scenario}", wrong)
    program = building.link(scenarios + objects + forgetful(bench, recorder), folder + "/forgetful")
    verdict = bench.run([program, "built"])[0]
    bench.count("planted differences of Wine", "a recorder that takes a built packet for an old one",
                f"it is {verdict}" if verdict.startswith("legal") else None)


def forgetful(bench, recorder):
    """Returns the recorder's objects, where that of packets.c is made wrong."""
    with open(building.DRIVERS + "/recorder/packets.c", encoding="utf-8") as it:
        text = it.read()
    if expected.FORGETFUL[0] not in text:
        raise building.Failed("packets.c has no built packets to forget")
    os.makedirs(bench.room + "/forgetful")
    with open(bench.room + "/forgetful/packets.c", "w", encoding="utf-8") as it:
        it.write(text.replace(*expected.FORGETFUL))
    flags = ["cc", *building.STRICT, *building.HOST_FLAGS, f"-I{building.DRIVERS}/recorder"]
    made = building.compile_all([bench.room + "/forgetful/packets.c"], bench.room + "/forgetful", flags)
    return made + [it for it in recorder if os.path.basename(it) != "packets.o"]


def try_threads(bench, host, recorder):
    program = building.threads_program(bench.room + "/threads", host, recorder)
    runs = [(threads, seed) for threads in ("2", "4") for seed in range(1, 9)]

    def one(run):
        return run, bench.run([program, run[0], "10"], wanted=150, WDM_SHAKE=str(run[1]))

    with concurrent.futures.ThreadPoolExecutor(2) as pool:
        for (threads, seed), (verdict, status) in pool.map(one, runs):
            wrong = None if verdict.startswith("legal ") and not status else f"{verdict}, exit status {status}"
            bench.count("recorded runs with threads", f"{threads} threads, seed {seed}", wrong)


def try_at_once(bench, host, recorder):
    """Two cancels of one packet, and a delete while a packet is completed: each order is legal."""
    program = building.at_once_program(bench.room + "/at_once", host, recorder)
    named = subprocess.run([program], capture_output=True, text=True, check=True).stdout.split()
    bench.count("recorded races", "all are expected", named != [row[0] for row in expected.AT_ONCE] and "they aren't")
    for name, entries, _ in expected.AT_ONCE:
        for seed in range(1, 11 if name.startswith("many") else 3):
            verdict, status = bench.run([program, name], wanted=entries, WDM_SHAKE=str(seed))
            wrong = None if verdict.startswith("legal ") and not status else f"{verdict}, exit status {status}"
            bench.count("recorded races", f"{name}, seed {seed}", wrong)


def try_stacks(bench, host, recorder):
    """Right drivers over a device that is compiled without the recorder: legal, or outside the model as expected. The
    recorder's looks touch packets in the drivers' names, so the host's traps are off."""
    folder = bench.room + "/stacks"
    finishing = building.compile_all([building.HERE + "/finishing.c"], folder,
                                     ["cc", *building.STRICT, *building.HOST_FLAGS, "-DWdmFinish=RecorderFinish"])

    def one(row):
        program = building.stack_program(row[0], folder, finishing + host + recorder)
        return row, bench.run([program], wanted=row[2], WDM_TRANSCRIPT="/dev/null", WDM_NO_TRAP="1")

    with concurrent.futures.ThreadPoolExecutor(4) as pool:
        for (name, wanted, _), (verdict, status) in pool.map(one, expected.STACKS):
            wrong = None if verdict.startswith(wanted) and not status else f"{verdict}, not {wanted}; exit status {status}"
            bench.count("recorded stacks", name, wrong)


def try_memory(bench, scenarios, host):
    """All memory comes back; where some is missing, the transcript ends before that."""
    counting = building.recorder_objects(bench.room + "/counting", ['-DIRPX_PLATFORM="counting.h"'])
    counted = building.compile_all(building.RUNNER, bench.room + "/counted",
                                   ["cc", *building.STRICT, *building.HOST_FLAGS, "-DCOUNTED"])
    program = building.link(counted + scenarios + host + counting, bench.room + "/counting/scenarios")
    for name in ("three_held", "cancel_leaves", "own_packet"):
        verdict, status = bench.run([program, name])
        bench.count("recorder's memory", name, status and f"exit status {status}: not all came back ({verdict})")
        for most in range(0, 40, 3):
            verdict, status = bench.run([program, name], RECORDER_MEMORY=str(most))
            good = verdict.startswith("legal ") or (most < 3 and verdict.startswith("short"))
            bench.count("recorder's memory", f"{name} with {most} pieces", None if good and not status else verdict)


def try_judge(bench):
    """An empty or a short transcript isn't clean."""
    status, said = JUDGE.judge(bench.irpx, "")
    bench.count("recorder's judge", "empty", None if status == JUDGE.WRONG and said[0].startswith("short") else said)
    text = subprocess.run([bench.room + "/scenarios", "finish"], capture_output=True, text=True, check=True).stdout
    for cut in range(1, 10):
        status, said = JUDGE.judge(bench.irpx, "".join(text.splitlines(True)[:cut]), 9)
        entries = "1 entry" if cut == 2 else f"{cut - 1} entries"
        wrong = None if status == JUDGE.WRONG and said[0] == f"short: {entries} of at least 9" else said
        bench.count("recorder's judge", f"cut behind line {cut}", wrong)
    status, said = JUDGE.judge(bench.irpx, text, 9)
    bench.count("recorder's judge", "whole", None if (status, said) == (JUDGE.LEGAL, ["legal 9"]) else said)
    text = subprocess.run([bench.room + "/scenarios", "wait_for_lower"], capture_output=True, text=True,
                          check=True).stdout
    status, said = JUDGE.judge(bench.irpx, text, 18)
    wrong = None if status == JUDGE.OUTSIDE and said[-1] == "without it: legal 10" else said
    bench.count("recorder's judge", "the rest without the packet outside the model", wrong)


def try_compilers(bench):
    """Each compiler that is there takes the recorder without a warning; without a library it needs two functions."""
    windows = ["-isystem", building.HEADERS]
    for compiler, flags in (("gcc", building.HOST_FLAGS), ("clang", building.HOST_FLAGS),
                            ("x86_64-w64-mingw32-gcc", windows)):
        if not shutil.which(compiler) or (flags is windows and not os.path.isdir(building.HEADERS)):
            continue
        try:
            building.compile_all(building.RECORDER, f"{bench.room}/{compiler}",
                                 [compiler, *building.STRICT, "-pedantic", *building.INCLUDES, *flags])
            wrong = None
        except building.Failed as why:
            wrong = str(why)
        bench.count("compilers of the recorder", compiler, wrong)
    objects = building.recorder_objects(bench.room + "/bare", ["-ffreestanding", '-DIRPX_PLATFORM="bare.h"'])
    names = subprocess.run(["nm", "-u", *objects], capture_output=True, text=True, check=True).stdout.split()
    more = {it for it in names if it != "U" and not it.endswith(":") and
            not it.startswith(("Wdm", "irpx", "Irpx", "_GLOBAL"))}
    bench.count("compilers of the recorder", "freestanding", more - NEEDED and f"needs {sorted(more - NEEDED)}")


def main():
    if {"-h", "--help"} & set(sys.argv[1:]):
        print(__doc__)
        return 0
    with tempfile.TemporaryDirectory() as room:
        bench = Bench(os.environ.get("IRPX") or JUDGE.find_irpx(), room)
        try:
            host, recorder = building.host_objects(room), building.recorder_objects(room + "/recorder")
            scenarios = building.compile_all(building.SCENARIOS, room, ["cc", *building.STRICT, *building.HOST_FLAGS])
            try_scenarios(bench, scenarios, host, recorder)
            try_judge(bench)
            try_planted(bench, scenarios, host, recorder)
            try_threads(bench, host, recorder)
            try_at_once(bench, host, recorder)
            try_stacks(bench, host, recorder)
            try_memory(bench, scenarios[len(building.RUNNER):], host)
            try_compilers(bench)
        except building.Failed as why:
            print(f"recorder: {why}")
            bench.count("builds of the recorder", "a build", "failed")
    for kind, (done, bad) in bench.tried.items():
        print(f"tried: {done} {bad} {kind}")
    return 1 if any(bad for _, bad in bench.tried.values()) else 0


if __name__ == "__main__":
    sys.exit(main())
