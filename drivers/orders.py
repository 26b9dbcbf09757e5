"""What `run --every-order` does: it has every order of the threads' steps made, and tells what was covered and what failed.

The program explores itself (host/explore/explorer.c), and leaves a report of lines with a key and values. Here the failing schedule
is made shorter and run again, distinct transcripts are judged, and all is told."""

import concurrent.futures
import functools
import linecache
import math
import os
import re
import shutil
import subprocess
import sys
import tempfile

import covering
import distinct
import places
import snapshots

RENAMED = ["pthread_create", "pthread_join", "pthread_detach", "pthread_self", "pthread_exit", "pthread_mutex_lock",
           "pthread_mutex_unlock", "pthread_mutex_trylock", "pthread_cond_wait", "pthread_cond_timedwait", "pthread_cond_signal", "pthread_cond_broadcast", "sched_yield",
           "usleep", "nanosleep", "sem_wait", "sem_trywait", "sem_post", "pthread_rwlock_rdlock",
           "pthread_rwlock_wrlock", "pthread_rwlock_unlock", "memcpy", "memset", "memmove", "malloc", "calloc", "realloc",
           "strdup", "free"]
# The sanitizer's compiler pass, and hooks of the host's in place of its library.
FLAGS = ["-fsanitize=thread", *(f"-D{it}=wdm_{it}" for it in RENAMED)]
MANY = 200  # decisions of a run, from which on a test is told to be made smaller


# The pieces of the host's own test (host/test/overlaps.c).
SCENARIOS = {"overlap": "a read and a write at once", "cancel": "a read that is cancelled meanwhile",
             "power": "power goes and comes while a read is under way",
             "remove": "the device is removed while it holds reads",
             "surprise": "the device is gone while it holds reads"}


# What happens while a thread sends, and the words for it.
MEANWHILE = {"cancel": "cancelled", "cleanup": "while its file is closed, and another one has a read",
             "stop": "over a stop and a start", "surprise": "while the device goes by surprise",
             "power": "while power goes and comes"}
REFUSED = "no driver takes the control"
QUICKLY = 1  # preemptions of the first round of pieces, by which they are sorted
JUDGED_OF_A_PIECE = 6  # distinct transcripts
LONG = {"long": "a long read"}  # which a driver may split
CHANGES = re.compile(r"\+\+|--|[-+*/%&|^]=(?!=)|<<=|>>=")  # what it reads


class Piece:
    """A piece of the host's own test that has no name of its own: who sends what, and what happens meanwhile."""

    def __init__(self, scenario, names):
        self.scenario, self.names, self.is_refused = scenario, names, False
        what, _, other = (it.lstrip("i") for it in scenario.partition("+"))
        names = {**names, **LONG}
        self.name = names.get(what, what)
        if other in MEANWHILE:
            self.name += f", {MEANWHILE[other]}"
        elif not other:
            self.name += " alone"
        else:
            self.name += " beside " + ("itself" if other == what else names.get(other, other))
        self.meets, self.report = 0, None

    def learn(self, report):
        """How much both sides touch in common: where they race, and in how many ways their steps can come."""
        self.report = report
        rounds = report.finished()
        self.meets = 1000 * len(report.racy) + (rounds[-1]["classes"] if rounds else 0)


def words_of(scenario, codes):
    """Returns the words for a piece; None for a test that isn't the host's own."""
    names = {hex(code): name for code, name in codes.items() if name}
    return scenario and (SCENARIOS.get(scenario) or Piece(scenario, names).name)


def is_out(piece, report):
    """Returns why the piece can't be played with these drivers, or None."""
    refused = [it for it in piece.scenario.split("+") if it.lstrip("i") in report.covered.missing("taken")]
    return report.facts.get("apart") or (REFUSED if refused else None)


def tell_piece(piece):
    """Tells in one line what was covered of a piece."""
    last = piece.report.finished()[-1]
    print(f"{piece.name}: {bound_words(last)}: {plural(last['runs'], 'run')}, {plural(last['classes'], 'class')} of "
          f"orders, {last['seconds']:.1f} s", flush=True)


def is_scenario(text):
    """Returns the text where it names a piece of the host's own test."""
    sent = r"(read|write|long|i?0x[0-9a-f]+)"
    if text in SCENARIOS or re.fullmatch(rf"{sent}(\+({sent}|{'|'.join(MEANWHILE)}))?", text):
        return text
    raise ValueError(text)


def pieces_of(codes, names):
    """Returns the pieces of controls that are taken, of reads and of writes: each with itself, with each other one, and
    with what happens meanwhile. `names`: of the codes."""
    sent = ["read", "write", *codes]
    pairs = [f"{what}+{other}" for at, what in enumerate(sent) for other in sent[at:]]
    pairs += [f"{what}+{other}" for what in sent for other in MEANWHILE] + ["long+long", "long+write", "long+cancel"]
    return [Piece(it, names) for it in [*codes, *pairs] if it not in ("read+write", "read+cancel", "read+power")]


def sent_inside(refused, others):
    """Returns the pieces that are left, with a control as an internal one that is refused otherwise: first that alone. Not one
    of METHOD_NEITHER, with which a structure of the sender's may come."""
    code, inside = refused.scenario, "i" + refused.scenario
    if code.startswith("i") or int(code, 16) & 3 == 3:
        return others
    words = [[inside if it == code else it for it in other.scenario.split("+")] for other in others]
    return [Piece(inside, refused.names), *(Piece("+".join(it), refused.names) for it in words)]


@functools.lru_cache
def link_flags(compiler):
    """Returns flags by which a process has fewer pages and mappings to copy: the host's small variables lie side by side,
    and the library in the program, where it is there for that."""
    sorts, static = "-Wl,--sort-section=alignment", "-static-pie"
    with tempfile.TemporaryDirectory() as room:
        words = [compiler, static, sorts, "-x", "c", "-", "-o", room + "/program"]
        made = subprocess.run(words, input="int main(void) { return 0; }", capture_output=True, text=True, check=False)
    return [sorts] if made.returncode else [static, sorts]


def fixed(words):
    """Returns the command with addresses that are the same in each run."""
    return ["setarch", "-R", *words] if shutil.which("setarch") else words


class Report:
    """What an exploration left."""

    def __init__(self, path):
        self.rounds, self.outcomes, self.places, self.racy, self.facts = [], [], [], [], {}
        self.covered = covering.Covered()
        with open(path, encoding="utf-8", errors="replace") as it:
            for line in it.read().splitlines():
                self.take(*line.partition(" ")[::2])

    def take(self, key, rest):
        if key.removeprefix("part_of_") in ("round", "choices"):
            words = rest.split()
            self.rounds.append({"bound": int(words[0]), "all": not key.startswith("part_of_"), "kind": key.removeprefix("part_of_"),
                                **{words[i]: float(words[i + 1]) for i in range(1, len(words) - 1, 2)}})
        elif key == "outcome":
            classes, _, text = rest.partition(" ")
            self.outcomes.append((int(classes), text.rstrip("; ")))
        elif key == "place":
            self.places.append((rest[0] == "1", rest[2:]))
        elif key == "racy":
            self.racy.append(rest)
        elif not self.covered.take(key, rest):
            self.facts[key] = rest

    def racy_places(self):
        """Returns the places that race, as a schedule names them."""
        return [int(re.match(r"\+(0x[0-9a-f]+)", it)[1], 16) + 1 for it in self.racy]

    def finished(self):
        """Returns the rounds that count: of each kind those behind its last start."""
        found = []
        for kind, first in ("round", 0), ("choices", 1):
            its = [it for it in self.rounds if it["kind"] == kind]
            found += its[max((at for at, it in enumerate(its) if it["bound"] == first), default=0):]
        return found


def settings_of(options, seed=None):
    """Returns what the environment of a run by a schedule says besides."""
    made = {"WDM_ROUNDS": str(options.rounds)} if options.every_order or options.schedule else {}
    if getattr(options, "one_processor", False):
        made["WDM_ONE_PROCESSOR"] = "1"
    if getattr(options, "scenario", None):
        made["WDM_SCENARIO"] = options.scenario
    if options.schedule:
        made["WDM_SCHEDULE"] = options.schedule
    elif seed is not None:
        made["WDM_CHANCE"] = str(seed)
    return made


def racy_in(schedule):
    """Returns the places that race which a schedule names."""
    places_of = schedule.partition(",")[0]
    return [int(it, 16) for it in places_of[1:].split(".")] if places_of.startswith("p") else []


def updates(program, racy):
    """Returns which places that race, as a schedule names them, stand in lines that change what they read: for the host."""
    found = []
    for at, calls in places.read_lines(program, [hex(it - 1) for it in racy]).items():
        path, _, line = calls[0][1].rpartition(":") if calls else ("", "", "")
        if line.isdigit() and CHANGES.search(re.sub(r"/\*.*?\*/|//.*", "", linecache.getline(path, int(line)))):
            found.append(f"{at + 1:x}")
    return ",".join(sorted(found))


def explore(options, program, folder, settings, tells=False):
    """Has the orders made, and tells before about how many there are. Returns the report."""
    kept, path = folder + "/transcripts", folder + "/report"
    with open(kept, "wb"):
        pass
    setting = dict(os.environ, **settings, WDM_EXPLORE=str(options.preemptions), WDM_REPORT=path,
                   WDM_ORDERS=kept, WDM_SECONDS=str(int(options.minutes * 60)))
    setting.setdefault("WDM_CLASSES", folder + "/classes")
    setting.pop("WDM_TRANSCRIPT", None)
    if snapshots.why_forks(folder):
        setting.setdefault("WDM_FORKS", snapshots.why_forks(folder))
    words = fixed([program, *options.args.split()])
    if options.processes:
        setting["WDM_PROCESSES"] = str(options.processes)
    if getattr(options, "goes_further", False):
        setting["WDM_FURTHER"] = "1"
    if options.part:
        part, _, parts = options.part.partition("/")
        setting.update(WDM_PART=str(int(part) - 1), WDM_PARTS=parts)
    if tells:
        subprocess.run(words, env=dict(setting, WDM_EXPLORE="-1"), stdout=subprocess.DEVNULL, check=False)
        tell_estimate(Report(path), options.preemptions + getattr(options, "goes_further", False))
    subprocess.run(words, env=setting, stdout=subprocess.DEVNULL, check=False)
    return Report(path)


def estimate(free, priced, bound):
    """Returns about how many runs there are at most: each set of so many of the first run's other choices."""
    return (1 + free) * sum(math.comb(priced, many) for many in range(bound + 1))


def tell_estimate(report, most):
    free, priced = (int(it) for it in report.facts.get("first", "0 0").split())
    runs = "; ".join(f"{plural(estimate(free, priced, it), 'run')} with {it}" for it in range(1, most + 1))
    print(f"the usual order has {plural(free + priced, 'other choice')}: at most about {runs} (estimated)")
    sys.stdout.flush()


def write_result(report, options, folder):
    """Writes lines that merge with those of other parts: a class of orders each, outcomes, races, and what was covered."""
    piece = options.scenario + " " if options.scenario else ""
    with open(folder + "/classes", encoding="ascii") as it:
        lines = {f"class {piece}{line}" for line in it.read().split()}
    lines |= {f"outcome {piece}{text}" for _, text in report.outcomes} | {f"racy {piece}{it}" for it in report.racy}
    for it in report.finished():
        is_last = it is report.finished()[-1]
        covered = "all" if it["all"] else report.facts.get("ended", "crashed") if is_last else "stopped"
        lines.add(f"covered {piece}{cost_words(it)}, part {options.part or '1/1'}: {covered}")
    is_first = options.scenario in (None, next(iter(SCENARIOS)))
    with open(options.result, "w" if is_first else "a", encoding="utf-8") as it:
        it.writelines(line + "\n" for line in sorted(lines))


def plural(count, word):
    return f"{count:,.0f} {word}{'' if count == 1 else 'es' if word.endswith('s') else 's'}"


def bound_words(it):
    """What a round has that was made whole."""
    if not it["bound"]:
        return "the usual order, and each choice where a thread waits"
    return f"every order with at most {cost_words(it)}{early_words(it)}"


def cost_words(it):
    return plural(it["bound"], "preemption") if it["kind"] == "round" else plural(it["bound"], "choice") + " other than the usual order's"


def early_words(it):
    return f" or early timer{'s' if it['bound'] > 1 else ''}" if it["kind"] == "round" else ""


def covered_words(it):
    """What a round that was stopped covers: how much, where the round before it was made whole, and so tells that."""
    if not it["expected"]:
        return f"some of those with {cost_words(it)}"
    share = min(100 * it["begun"] / it["expected"], 99)
    return f"all with {it['bound'] - 1}, about {share:.0f} % of those with {cost_words(it)} (estimated)"


def tell_rounds(report, part):
    """What was covered, and never more."""
    rounds = report.finished()
    for it in rounds:
        seconds = f"{it['seconds']:.1f} s"
        if it["all"]:
            print(f"{bound_words(it)}{f', part {part}' if part else ''}: "
                  f"{plural(it['runs'], 'run')}, {plural(it['classes'], 'class')} of orders, {seconds}")
        elif it is not rounds[-1]:
            print(f"stopped, since there are too many: {covered_words(it)}, {plural(it['runs'], 'run')}, {seconds}")
        elif report.facts.get("ended") == "failed":
            print(f"stopped at a failure: {plural(it['runs'], 'run')} with at most {cost_words(it)}, {seconds}")
        else:
            print(f"stopped, since time is up: {covered_words(it)}, {plural(it['runs'], 'run')}, {seconds}")
    if "limited" in report.facts:
        many, _, why = report.facts["limited"].partition(" ")
        print(f"{plural(int(many), 'run')} not tried further: {why}")
    if "forks" in report.facts:
        print(f"each choice was a process of its own, which is slower, since {report.facts['forks']}")


def tell_next(report):
    """Tells what one more preemption would take, by the choices that were left out and how many of such were runs before."""
    rounds = report.finished()
    last = rounds[-1] if rounds else None
    if report.facts.get("ended") != "done" or len(rounds) < 2 or last["kind"] != "round" or not last["expected"] or not last["beyond"]:
        return
    times = last["beyond"] / last["expected"]
    seconds = max((last["seconds"] - rounds[-2]["seconds"]) * times, 1)
    print(f"with {plural(last['bound'] + 1, 'preemption')} it would be about {plural(last['runs'] * times, 'run')}, "
          f"{plural(round(seconds), 'second')} (estimated)")


def tell_small(report):
    decisions = int(report.facts.get("most_decisions", 0))
    if decisions > MANY and report.facts.get("ended") == "stopped":
        print(f"a run has up to {decisions} decisions: make its test smaller (WdmRounds, fewer threads, --rounds 1)")


def tell_places(report, with_lines):
    if report.racy:
        print("accesses that race: " + "; ".join(with_lines(it) for it in report.racy))
    if report.facts.get("ended") == "failed":
        return
    never = sorted({with_lines(text) for was, text in report.places if not was} -
                   {with_lines(text) for was, text in report.places if was})
    if never:
        print(f"no thread was preempted before {len(never)} of {len(set(it[1] for it in report.places))} places, where the "
              f"test may let too little overlap: " + "; ".join(never[:8]) + ("; .." if len(never) > 8 else ""))


@functools.lru_cache
def status_names():
    """Returns the names of statuses by their values: of several names the first one that the header has."""
    with open(os.path.dirname(os.path.abspath(__file__)) + "/include/wdm_status.h", encoding="ascii") as it:
        found = re.findall(r"^#define (STATUS_\w+) \(\(NTSTATUS\)(0x[0-9A-F]{8})\)", it.read(), re.M)
    return {int(value, 16): name for name, value in reversed(found)}


def with_status_names(outcome):
    """Returns an outcome with its statuses by name."""
    return re.sub(r"(?<!sent) (0x[0-9a-f]+|0)\b", lambda it: " " + status_names().get(int(it[1], 16), it[1]), outcome)


def tell_outcomes(report):
    """What each packet ended with, as bin/irp_orders tells outcomes."""
    whole = sum(classes for classes, _ in report.outcomes)
    print(f"outcomes: {len(report.outcomes)}, of {plural(whole, 'class')} of orders")
    for at, (classes, text) in enumerate(sorted(report.outcomes, reverse=True)[:20], 1):
        print(f"outcome {at}: {classes:,} of {plural(whole, 'class')} of orders ({100 * classes / whole:.1f} %)\n    "
              f"{with_status_names(text)}")


def first_fault(run):
    found = re.search(r"^host: (?:FAULT|STOPPED).*?(?= \[before entry|$)", run.said, re.M)
    return found[0] if found else "; ".join(run.complaints())


def shorter(schedule, try_it):
    """Leaves out deviations, the last first, as long as the run fails in the same way. Returns the schedule."""
    places, _, rest = schedule.partition(",") if schedule.startswith("p") else ("", "", schedule)
    whole, deviations = try_it(schedule), [it for it in rest.split(",") if "=" in it]
    for at in reversed(range(len(deviations))):
        fewer = deviations[:at] + deviations[at + 1:]
        text = ",".join(([places] if places else []) + fewer) or "usual"
        if try_it(text) == whole:
            deviations = fewer
    return ",".join(([places] if places else []) + deviations) or "usual"


def verdict_of(irpx, transcript):
    made = subprocess.run([irpx, "check"], input=transcript.text(), capture_output=True, check=False)
    return made.stdout.decode().strip() or made.stderr.decode().strip()


def judge(options, irpx, folder, quiet=False):
    """Has distinct transcripts judged, each, or as many as --judge says. Returns the first that isn't legal, with its
    verdict, or None."""
    found = distinct.found_in(folder + "/transcripts")
    step = max(1, -(-len(found) // options.judge)) if options.judge else 1
    chosen = found[::step]
    with concurrent.futures.ThreadPoolExecutor(options.processes or os.cpu_count()) as pool:
        for it, said in zip(chosen, pool.map(lambda it: verdict_of(irpx, it), chosen)):
            if not said.startswith("legal "):
                return it.schedule, said
    if not quiet:
        print(f"judged: {plural(len(chosen), 'distinct transcript')}{f' of {len(found)}' if step > 1 else ''}, legal")
    return None


def tell(report, with_lines):
    tell_next(report)
    tell_small(report)
    tell_places(report, with_lines)
    tell_outcomes(report)
    sys.stdout.flush()
