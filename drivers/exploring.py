"""`run --every-order`: every order of a test, or of the host's own one piece by piece: those that have names first; then
controls, reads and writes beside each other, and what happens to the device or the file meanwhile."""

import re
import sys
import time

import building
import command_line
import covering
import orders
import places
import reporting
import snapshots

LEAST_MINUTES = 0.05  # that a piece gets, once those before it have used up the time
NO_TIME = "not every order was made in the time: give more --minutes"
QUICK_ALONE = "orders with one preemption were made, and no others in the time: give more --minutes"


def fails(run):
    """Returns whether the host or the run's end tells something. It isn't judged yet."""
    return any(it != run.verdict for it in run.complaints())


class Exploration:
    """What every order needs of `run`, and what was found so far. `settings_of`, `make_run` and `tell_run` are those of
    `run`."""

    def __init__(self, options, program, folder, irpx, settings_of, make_run, tell_run):
        self.options, self.program, self.folder, self.irpx = options, program, folder, irpx
        self.settings_of, self.make_run, self.tell_run = settings_of, make_run, tell_run
        self.found = reporting.Found([], covering.Covered(), {})
        self.ended, self.told, self.bounds = 0, set(), []

    def all(self):
        """Makes all. Returns the exit status, and what was found."""
        options = self.options
        has_main = building.find_sources(options.source)[2]
        until, most = time.monotonic() + 60 * options.minutes, options.preemptions
        if has_main or options.scenario:
            self.named([options.scenario], until)
        else:
            self.named(list(orders.SCENARIOS), until - 30 * options.minutes)
            self.pieces(until)
        options.preemptions = most
        self.found.never = options.its.never(self.found.covered)
        self.sum_up()
        return self.ended, self.found

    def takes(self, made):
        """Keeps how a piece ended: a fault counts before an end of the time."""
        self.ended = made if made == 1 or not self.ended else self.ended

    def named(self, wanted, until):
        """Makes every order of the pieces that have names, or of a test."""
        options = self.options
        for n, options.scenario in enumerate(wanted):
            words = orders.words_of(options.scenario, options.codes)
            options.minutes = max((until - time.monotonic()) / 60 / (len(wanted) - n), LEAST_MINUTES)
            if options.scenario:
                print(f"{options.scenario}: {words}")
            began = time.monotonic()
            report = self.explored(tells=True)
            orders.tell_rounds(report, options.part)
            if options.result:
                orders.write_result(report, options, self.folder)
            made = self.tell(report)
            self.keep(words, report, made, began)

    def explored(self, tells=False):
        """Makes every order of a piece; again where that finds other lines that race and change what they read. A failure
        that doesn't come again along its schedule is looked for by forks."""
        options, began = self.options, time.monotonic()
        report = orders.explore(options, self.program, self.folder, self.settings_of(options), tells=tells)
        updates = orders.updates(self.program, report.racy_places())
        if "schedule" not in report.facts and updates != options.settings.get("WDM_UPDATES", ""):
            options.settings["WDM_UPDATES"] = updates
            options.minutes = max(options.minutes - (time.monotonic() - began) / 60, LEAST_MINUTES)
            report = orders.explore(options, self.program, self.folder, self.settings_of(options))
        schedule = report.facts.get("schedule")
        if not schedule or "forks" in report.facts or fails(self.followed(schedule)):
            return report
        settings = dict(self.settings_of(options), WDM_FORKS=f"{snapshots.CAME_ONCE}: {report.facts['why']}")
        return orders.explore(options, self.program, self.folder, settings, tells=tells)

    def keep(self, words, report, made, began):
        """Keeps what became of a piece, or of a test without a name."""
        self.takes(made)
        if made == 0:
            self.bounds.append(max((it["bound"] for it in report.finished() if it["all"] and it["kind"] == "round"), default=0))
        self.found.covered.join(report.covered)
        if words:
            is_out = report.facts.get("apart")
            state = ("apart", is_out) if is_out else ("unmade", NO_TIME) if made == 3 else ("made", "")
            self.found.covered.situate(words, state[1], state[0])
        wrong = [places.with_lines(report.facts.get("why", "illegal"), self.program)] if made == 1 else []
        self.found.cases.append(reporting.Case(words or "every order", time.monotonic() - began, wrong))

    def tell(self, report, quiet=False):
        """Tells what fails, and unless quiet what was covered. Returns the exit status."""
        options, schedule = self.options, report.facts.get("schedule")
        if schedule is None:
            illegal = orders.judge(options, self.irpx, self.folder, quiet)
            schedule = illegal[0] if illegal else None
        elif self.is_told(report):
            why = places.with_lines(report.facts.get("why", ""), self.program)
            print(f"the same fault: {why[:120]} ..")
            return 1
        else:
            schedule = orders.shorter(schedule, lambda it: orders.first_fault(self.followed(it)))
        if not quiet or schedule is not None:
            orders.tell(report, lambda it: places.with_lines(it, self.program))
        if schedule is None:
            return 0 if report.facts.get("ended") == "done" and "limited" not in report.facts else 3
        run = self.followed(schedule)
        run.judge(self.irpx)
        self.tell_run(run, options)
        scenario = f"--scenario {options.scenario} " if options.scenario else ""
        print(f"again with  {command_line.again(options)}{scenario}--schedule {schedule}")
        return 1

    def is_told(self, report):
        """Whether the fault was told of another piece: by its rule and its place."""
        found = re.match(r"(\w+).*?([\w.]+:\d+)", report.facts.get("why", ""))
        key = found.groups() if found else report.facts.get("why", "")
        is_told = key in self.told
        self.told.add(key)
        return is_told

    def followed(self, schedule):
        """Returns a run by a schedule."""
        self.options.schedule, self.options.every_order = schedule, False
        made = self.make_run(self.options, self.program, self.folder, None)
        self.options.schedule, self.options.every_order = None, True
        return made

    def pieces(self, until):
        """Makes every order of the other pieces: of each with one preemption; then with all, and those first whose sides
        touch the most in common."""
        options, most, judge = self.options, self.options.preemptions, self.options.judge
        options.judge = options.judge or orders.JUDGED_OF_A_PIECE
        names = {hex(code): name for code, name in options.codes.items() if name}
        left = orders.pieces_of(list(names), names)
        for it in left:
            self.found.covered.situate(it.name, NO_TIME, "unmade")
        rounds = [most] if most <= orders.QUICKLY else [orders.QUICKLY, most]
        further = options.goes_further
        for options.preemptions in rounds:
            is_last = options.preemptions == most
            options.goes_further = further and is_last
            left = self.round(sorted(left, key=lambda it: ("+" in it.scenario, -it.meets)), until, is_last)
        options.judge, options.scenario, options.goes_further = judge, None, further

    def round(self, pieces, until, is_last):
        """Makes a round of pieces. Returns those that are left."""
        options, left = self.options, []
        for n, it in enumerate(pieces):  # the list may change behind n
            minutes = (until - time.monotonic()) / 60
            if minutes <= 0:
                self.takes(3)
                return left + pieces[n:]
            share = minutes / (len(pieces) - n)
            options.scenario, options.minutes = it.scenario, max(min(minutes, 4 * share), LEAST_MINUTES)
            if self.piece(it, is_last):
                left.append(it)
            elif it.is_refused and options.internals == "1":
                pieces[n + 1:] = orders.sent_inside(it, pieces[n + 1:])
        return left

    def piece(self, piece, is_last):
        """Makes every order of a piece. Returns whether it is for the next round too."""
        began = time.monotonic()
        report = self.explored()
        is_out = orders.is_out(piece, report)
        piece.learn(report)
        if is_out and "schedule" not in report.facts:
            piece.is_refused = is_out == orders.REFUSED and "+" not in piece.scenario
            self.found.covered.join(report.covered)
            self.found.covered.situate(piece.name, is_out, "apart")
            return False
        if "schedule" in report.facts:
            print(f"{piece.scenario}: {piece.name}")
        made = self.tell(report, quiet=True)
        if made == 0 and not is_last:
            self.found.covered.situate(piece.name, QUICK_ALONE, "unmade")
            return True
        self.keep(piece.name, report, made, began)
        if self.options.result:
            orders.write_result(report, self.options, self.folder)
        if made == 0:
            orders.tell_piece(piece)
        return made == 3 and not is_last

    def sum_up(self):
        """Tells how all ended, and what never came."""
        options = self.options
        most = f"with at most {orders.plural(min(self.bounds, default=options.preemptions), 'preemption')} or early timers"
        part = f"part {options.part} of the orders" if options.part else "any order"
        if self.ended != 1:
            print("no fault so far, and not every order was made" if self.ended else f"no fault in {part} {most}: clean")
        if self.found.covered.situations:
            sys.stdout.writelines(f"{it}\n" for it in covering.lines_of(self.found.never))
