"""Makes scripts by chance, whose steps nobody refuses: a simulation of the manager says what may be done next. So more
happens in such a script than in those of tests/random_scripts.py, which also try refusals."""

from collections import Counter

from playable import OPS, RULES, Playable, number_routines, setting_words
from simulated import Manager

STATUSES = [0, 0, 0, 1, 0x104, 0x40000000, 0x7FFFFFFF, 0x80000005, 0x80000016, 0xBFFFFFFF, 0xC0000001, 0xC0000001,
            0xC0000010, 0xC0000120, 0xC0000120, 0xFFFFFFFF]
MAJORS = [3, 3, 3, 4, 14, 22, 27]
FLAGS = ["", "s", "e", "c", "se", "sc", "ec", "sec", "sec", "sec"]


class Made(Playable):
    """A script that is made as it is simulated. With `apart` each packet is of one seat alone, and the devices stay as they
    are, so that the seats may run at once. With `kept` the originator keeps each packet, as Windows wants it of whoever
    calls IoAllocateIrp. The switches are those of the simulation: by a manager's known differences a script goes on behind
    them."""

    def __init__(self, chance, switches=frozenset(), apart=False, kept=False):
        self.chance, self.kept, self.apart = chance, kept, False
        self.completions = [self.completion() for _ in range(chance.randrange(1, 9))]
        if kept:
            self.completions.append(["keeper", "keep", "keep"])
        self.cancels = [chance.choice([["finish", chance.randrange(9)], ["leave"]]) for _ in range(chance.randrange(4))]
        self.dispatches = [self.plan() for _ in range(chance.randrange(2, 9))]
        self.drivers = [self.driver() for _ in range(chance.randrange(1, 6))]
        self.seats = chance.choice([2, 3, 4] if apart else [1, 1, 2, 3, 4])
        self.script = {"form": 1, "seats": self.seats, "locks": 64, "completions": self.completions,
                       "cancels": self.cancels, "dispatches": self.dispatches, "drivers": self.drivers,
                       "setup": [], "steps": []}
        self.routines, self.sim = number_routines(self.script), Manager(self.script, switches)
        self.ops, self.sizes, self.left_out = [], [], Counter()
        self.tower()
        self.n_setup = len(self.ops)
        self.script["setup"], self.script["steps"] = self.script["steps"], []
        self.apart = apart
        for _ in range(80 if apart else chance.randrange(10, 60)):
            self.move()
        if not apart and self.odds(0.3):
            self.take_down()

    # What is fixed.

    def one_of(self, *many):
        return self.chance.choice(many)

    def odds(self, share):
        return self.chance.random() < share

    def status(self):
        return self.chance.choice(STATUSES)

    def information(self):
        return self.one_of(0, self.chance.randrange(1, 1000), self.chance.randrange(2**64))

    def word(self):
        return self.one_of(self.chance.randrange(2**32), self.chance.randrange(100), self.chance.randrange(2**64))

    def behaviour(self):
        return "continue" if self.odds(0.4) else ["replace", self.status(), self.information()]

    def completion(self):
        rule = self.chance.choice(RULES)
        return [rule, *{"watch": ["continue", "continue"], "change": [self.behaviour(), self.behaviour()],
                        "keeper": ["keep", "keep"], "keep_on_error": ["continue", "keep"],
                        "free": [self.one_of("keep", self.behaviour()), self.one_of("keep", self.behaviour())]}[rule]]

    def setting(self, rules):
        known = [it[0] for it in self.completions]
        rules = [it for it in rules if it in known]
        if not rules:
            return None
        rule = self.chance.choice(rules)
        context = 0 if self.odds(0.1) else self.chance.randrange(2**64)
        return [rule, self.chance.randrange(known.count(rule)), context, self.chance.choice(FLAGS)]

    def plan(self):
        kind = self.one_of("finish", "hold", "hold", "skip", "forward", "forward", "forward_pend", "forward_pend")
        if kind == "finish":
            return [kind, self.status(), self.information()]
        if kind == "hold":
            return [kind, self.chance.choice([None, *range(len(self.cancels))])]
        if kind == "skip":
            return [kind]
        return [kind, None if self.odds(0.2) else self.setting(RULES[:1] if kind == "forward" else RULES)]

    def driver(self):
        majors = sorted({self.chance.choice(MAJORS) for _ in range(self.chance.randrange(1, 6))})
        return [[major, self.chance.randrange(len(self.dispatches))] for major in majors]

    # Steps.

    def do(self, name, by=None, args=(), packet=None, **keys):
        """Makes one step, in the script and in the simulation. Who frees or reuses isn't named in a script."""
        seat = self.chance.randrange(self.seats)
        if self.apart:
            seat = (packet if packet is not None else args[0]) % self.seats
        step = {"seat": seat, "do": name, **keys}
        if by is not None and name not in ("free", "reuse"):
            step["by"] = by
        if packet is not None:
            step["irp"] = f"p{packet}"
            args = (packet, *args)
        self.script["steps"].append(step)
        number = 0 if by is None else 1 if by == "o" else by + 2
        self.ops.append((OPS.index(name), seat, number, *args, *[0] * (4 - len(args))))
        self.sim.step(self.ops[-1])

    def tower(self):
        n = self.one_of(1, 2, 2, 3, 3, 4, 5) if not self.odds(0.05) else self.chance.randrange(6, 16)
        for _ in range(n):
            self.create()
        for it in range(1, n):
            if not self.odds(0.06):
                self.attach(it, self.one_of(it - 1, self.bottom(it - 1)))

    def create(self):
        driver, n = self.chance.randrange(len(self.drivers)), len(self.sim.devices)
        self.do("create_device", args=(driver, 0), driver=driver, lock=n % 64)

    def attach(self, a, b):
        self.do("attach", args=(a, b), device=a, to=b)

    def end_of(self, device, way):
        while self.sim.devices[device][way] is not None:
            device = self.sim.devices[device][way]
        return device

    def bottom(self, device):
        return self.end_of(device, "lower")

    def height(self, device):
        n = 1
        while self.sim.devices[device]["lower"] is not None:
            device, n = self.sim.devices[device]["lower"], n + 1
        return n

    def live(self):
        return [d for d, it in enumerate(self.sim.devices) if it["live"]]

    def move(self):
        """Makes one or a few steps of one packet, or on devices."""
        packets = list(self.sim.packets)
        if not packets or self.odds(0.12) and len(packets) < (12 if self.apart else 6):
            self.allocate()
            return
        if self.odds(0.04) and not self.apart:
            self.on_devices()
            return
        k = self.chance.choice(packets)
        p = self.sim.packets[k]
        if p.owner == "ended":
            if self.odds(0.5):
                del self.sim.packets[k]
        elif self.odds(0.1):
            self.do("cancel", packet=k)
        elif p.owner == "o":
            self.originator(k, p)
        else:
            self.device(k, p)

    def allocate(self):
        need = max([self.height(self.end_of(d, "upper")) for d in self.live()], default=1)
        k, size = len(self.sizes), min(16, need + self.one_of(0, 0, 0, 1, 2, 5))
        self.sizes.append(size)
        self.do("allocate", args=(k, size), size=size, **{"as": f"p{k}"})

    def set_routine(self, k, by, setting):
        if setting:
            self.do("set_routine", by, setting_words(self.routines, setting), packet=k, set=setting)

    def originator(self, k, p):
        if p.prepared is None and self.odds(0.25) and p.current == p.size + 1:
            if self.odds(0.3):
                self.do("free", "o", packet=k)
                return
            status = self.one_of(self.status(), 259, 0xC00000BB)
            self.do("reuse", "o", (status,), packet=k, status=status)
            return
        major, word = self.chance.choice(MAJORS), self.word()
        self.do("set_next", "o", (major, word), packet=k, major=major, word=word)
        setting = self.setting(["keeper"] if self.kept else ["keeper", "keeper", *RULES])
        if self.odds(0.1) and not self.kept:
            setting = None
        if setting and (self.odds(0.5) or self.kept):
            setting[3] = "sec"
        self.set_routine(k, "o", setting)
        if self.odds(0.1):
            self.do("cancel", packet=k)
        targets = [d for d in self.live() if self.height(d) <= p.current - 1]
        tops = [d for d in targets if self.sim.devices[d]["upper"] is None]
        if targets:
            target = self.chance.choice(tops if tops and self.odds(0.8) else targets)
            self.do("call_driver", "o", (target,), packet=k, target=target)

    def device(self, k, p):
        d = p.owner
        lower = self.sim.devices[d]["lower"]
        fits = lower is not None and self.height(lower) <= p.current - 1
        if p.cancel is not None:
            self.has_routine(k, p)
        elif p.prepared == "skipped":
            self.send_down(k, d, lower, fits)
        else:
            what = self.one_of("complete", "complete", "complete", "send", "send", "skip", "cancel_routine",
                               "mark_pending", "prepare")
            self.held(what, k, p, lower, fits)

    def has_routine(self, k, p):
        if self.odds(0.3):
            self.do("cancel", packet=k)
            return
        number = self.chance.randrange(len(self.cancels)) if self.odds(0.2) and not p.flag else None
        self.do("set_cancel_routine", p.owner, (0 if number is None else number + 1,), packet=k, cancel=number)

    def held(self, what, k, p, lower, fits):
        d = p.owner
        if what == "complete":
            status, information = self.status(), self.information()
            self.do("complete", d, (status, information), packet=k, status=status, information=information)
        elif what == "mark_pending":
            self.do(what, d, packet=k)
        elif what == "cancel_routine" and self.cancels and not p.flag:
            number = self.chance.randrange(len(self.cancels))
            self.do("set_cancel_routine", d, (number + 1,), packet=k, cancel=number)
        elif what == "skip" and lower is not None:
            self.do("skip", d, packet=k)
            self.send_down(k, d, lower, self.height(lower) <= p.current - 1)
        elif what in ("send", "prepare") and p.current >= 2:
            self.prepare(k, d)
            if what == "send" and fits and self.odds(0.1):
                self.do("cancel", packet=k)
            self.send_down(k, d, lower, what == "send" and fits)

    def prepare(self, k, d):
        if self.odds(0.6):
            self.do("copy_to_next", d, packet=k)
        else:
            major, word = self.chance.choice(MAJORS), self.word()
            self.do("set_next", d, (major, word), packet=k, major=major, word=word)
        self.set_routine(k, d, None if self.odds(0.3) else self.setting(RULES))

    def send_down(self, k, d, lower, fits):
        if fits:
            self.do("call_driver", d, (lower,), packet=k, target=lower)

    def on_devices(self):
        devices, live = self.sim.devices, self.live()
        lowers = [d for d in live if devices[d]["upper"] is not None]
        alone = [d for d in live if devices[d]["upper"] is None and devices[d]["lower"] is None]
        if self.odds(0.4) and lowers:
            lower = self.chance.choice(lowers)
            self.do("detach", args=(lower,), lower=lower)
        elif self.odds(0.5) and len(devices) < 20:
            self.create()
        elif alone and len(live) > 1:
            a = self.chance.choice(alone)
            to = self.chance.choice([d for d in live if d != a])
            if self.height(self.end_of(to, "upper")) < 15:
                self.attach(a, to)

    def take_down(self):
        """Detaches and deletes what can be, by the remove lock of each device."""
        for d in self.live():
            if self.sim.devices[d]["upper"] is not None and self.odds(0.8):
                self.do("detach", args=(d,), lower=d)
        for d in self.live():
            it = self.sim.devices[d]
            if it["upper"] is not None or it["lower"] is not None or self.stands(d) or self.odds(0.3):
                continue
            seat = self.chance.randrange(self.seats)
            for do in ("acquire", "begin_remove", "drained", "delete"):
                self.remove(seat, do, d)

    def remove(self, seat, do, d):
        """As `do`, but one seat asks for the lock all along, whose tag is 7."""
        tag = {} if do == "drained" else {"tag": 7}
        keys = {"device": d} if do == "delete" else {"lock": d, **tag}
        self.script["steps"].append({"seat": seat, "do": do, **keys})
        self.ops.append((OPS.index(do), seat, 0, d, keys.get("tag", 0), 0, 0))
        self.sim.step(self.ops[-1])

    def stands(self, d):
        """Whether a packet is with this device, or will come by it."""
        return any(p.owner != "ended" and (p.owner == d or any(p.at[j]["device"] == d for j in
                   range(p.current, p.size + 1))) for p in self.sim.packets.values())
