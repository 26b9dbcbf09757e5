"""Makes scripts by chance: with every step, plan, rule and refusal, and, where wanted, with one fault.

Most steps are such that a packet's life goes on; some name what isn't there, or come from one who may not.
"""

import json

PENDING, MORE_PROCESSING = 259, 3221225494
STATUSES = [0, 258, 0x7FFFFFFF, 0x80000005, 3221225473, 3221225488, 3221225760]
MAJORS = [3, 3, 3, 4, 14, 22, 27]
FLAGS = ["", "s", "e", "c", "se", "sc", "ec", "sec", "sec", "sec"]
RULES = ["watch", "change", "keeper", "keep_on_error", "free"]


class Maker:
    """Makes one script, with the numbers that chance gives."""

    def __init__(self, chance):
        self.chance = chance
        self.seats = chance.choice([1, 2, 2, 3, 4, 8])
        self.locks = chance.choice([1, 1, 2, 64])
        self.completions = [self.completion() for _ in range(chance.randrange(7))]
        self.cancels = [self.one_of(["finish", chance.randrange(9)], ["leave"]) for _ in range(chance.randrange(4))]
        self.dispatches = [self.plan() for _ in range(chance.randrange(1, 7))]
        self.drivers = [self.driver() for _ in range(chance.randrange(1, 5))]
        self.devices = 0
        self.labels = 0
        self.driver_of = []
        self.holder = None

    def one_of(self, *many):
        return self.chance.choice(many)

    def seldom(self, share=0.06):
        return self.chance.random() < share

    def seat(self):
        return self.chance.randrange(self.seats)

    # What is fixed beforehand.

    def status(self):
        return self.chance.choice(STATUSES)

    def behaviour(self):
        return self.one_of("continue", ["replace", self.status(), self.chance.randrange(99)])

    def completion(self):
        """Returns a completion routine that keeps its rule."""
        rule = self.chance.choice(RULES)
        behaviours = {
            "watch": ["continue", "continue"],
            "change": [self.behaviour(), self.behaviour()],
            "keeper": ["keep", "keep"],
            "keep_on_error": ["continue", "keep"],
            "free": [self.one_of("keep", self.behaviour()), self.one_of("keep", self.behaviour())],
        }
        return [rule, *behaviours[rule]]

    def setting(self, rules):
        """Returns the setting of one of the completion routines of these rules, or None where there is none."""
        known = [it[0] for it in self.completions]
        rules = [rule for rule in rules if rule in known]
        if not rules or self.seldom(0.2):
            return None
        rule = self.chance.choice(rules)
        number, context = self.chance.randrange(known.count(rule)), self.chance.randrange(2**64)
        return [rule, number, context, self.chance.choice(FLAGS)]

    def plan(self):
        kind = self.one_of("finish", "hold", "hold", "skip", "forward", "forward", "forward_pend")
        if kind == "finish":
            return [kind, self.status(), self.chance.randrange(99)]
        if kind == "hold":
            return [kind, self.chance.choice([None, *range(len(self.cancels))])]
        if kind == "skip":
            return [kind]
        return [kind, self.setting(RULES[:1] if kind == "forward" else RULES)]

    def driver(self):
        majors = sorted({self.chance.choice(MAJORS) for _ in range(self.chance.randrange(1, 6))})
        return [[major, self.chance.randrange(len(self.dispatches))] for major in majors]

    # Steps.

    def device(self):
        if self.seldom():
            return self.chance.randrange(self.devices + 1)
        return max(0, self.chance.randrange(-1, self.devices))

    def party(self):
        return self.one_of("o", self.device())

    def wild(self, irp):
        """Returns a step in which hardly anything fits."""
        number = self.chance.choice([0, 1, 2, 5, 27, 28, 255])
        lock = self.chance.choice([0, self.locks - 1, self.locks])
        irp = self.one_of(irp, irp, [0, 1], [1, 2], [9, 9], "nobody")
        setting = [self.chance.choice(RULES), self.chance.randrange(3), number, "sec"]
        owned = {"by": self.party(), "irp": irp}
        return self.one_of(
            {"do": "create_device", "driver": self.chance.randrange(len(self.drivers) + 1), "lock": lock},
            {"do": "attach", "device": self.device(), "to": self.device()},
            {"do": "detach", "lower": self.device()},
            {"do": "delete", "device": self.device()},
            {"do": "allocate", "size": self.chance.choice([0, 16, 17, 255]), "as": "wild"},
            {"do": self.one_of("free", "cancel", "look"), "irp": irp},
            {"do": "reuse", "irp": irp, "status": self.one_of(PENDING, 2**32 - 1)},
            {"do": "set_next", **owned, "major": number, "word": number},
            {"do": self.one_of("copy_to_next", "skip", "mark_pending"), **owned},
            {"do": "set_routine", **owned, "set": setting},
            {"do": "call_driver", **owned, "target": self.device()},
            {"do": "complete", **owned, "status": self.one_of(PENDING, MORE_PROCESSING, 0), "information": number},
            {"do": "set_cancel_routine", **owned, "cancel": self.one_of(None, 0, number)},
            *self.lock_steps(lock)[:2],
        )

    def sent(self, irp):
        """Returns the steps of an originator until its packet is sent."""
        major, word = self.chance.choice(MAJORS), self.chance.randrange(2**64)
        steps = [{"do": "set_next", "by": "o", "irp": irp, "major": major, "word": word}]
        setting = self.setting(RULES)
        if setting:
            steps.append({"do": "set_routine", "by": "o", "irp": irp, "set": setting})
        target = max(0, self.devices - 1 if self.seldom(0.8) else self.device())
        self.holder = self.likely_holder(target, steps[0]["major"])
        return [*steps, {"do": "call_driver", "by": "o", "irp": irp, "target": target}]

    def likely_holder(self, target, major):
        """Returns the device that holds a packet sent to the target, or None, where each stands upon the one before."""
        for device in range(min(target, self.devices - 1), -1, -1):
            dispatch = dict(self.drivers[self.driver_of[device]]).get(major)
            plan = ["finish"] if dispatch is None else self.dispatches[dispatch]
            if plan[0] in ("finish", "hold"):
                return device if plan[0] == "hold" else None
        return None

    def held(self, irp):
        """Returns steps of a device that may hold the packet, or has it because its routine kept it."""
        by = self.device() if self.holder is None or self.seldom(0.2) else self.holder
        owned = {"by": by, "irp": irp}
        send = {"do": "call_driver", **owned, "target": max(0, by - 1)}
        routine = {"do": "set_routine", **owned, "set": self.setting(RULES) or ["watch", 0, 0, "sec"]}
        cancel = self.chance.choice([None, *range(len(self.cancels))])
        set_cancel = {"do": "set_cancel_routine", **owned, "cancel": cancel}
        status = self.chance.choice([*STATUSES, PENDING, MORE_PROCESSING])
        complete = {"do": "complete", **owned, "status": status, "information": self.chance.randrange(99)}
        return self.one_of(
            [{"do": "copy_to_next", **owned}, routine, send],
            [{"do": "set_next", **owned, "major": 3, "word": 1}, send],
            [{"do": "skip", **owned}, {"do": self.one_of("skip", "copy_to_next"), **owned}, send],
            [{"do": "set_next", **owned, "major": self.one_of(3, 28, 255), "word": 1}],
            [{"do": "copy_to_next", **owned}, {**routine, "set": ["watch", 9, 0, "sec"]}],
            [{"do": "mark_pending", **owned}, complete],
            [set_cancel, self.one_of(send, complete, {"do": "cancel", "irp": irp})],
            [complete],
            [{"do": "cancel", "irp": irp}, set_cancel],
        )

    def life(self):
        """Returns the steps of one packet's life."""
        irp = f"p{self.labels}"
        self.labels += 1
        size = self.chance.randrange(1, 17) if self.seldom(0.3) else min(16, max(1, self.devices))
        steps = [{"do": "allocate", "size": size, "as": irp}]
        for _ in range(self.chance.randrange(1, 3)):
            steps += self.sent(irp)
            for _ in range(self.chance.randrange(5)):
                steps += self.held(irp)
            steps.append({"do": self.one_of("look", "look", "cancel"), "irp": irp})
            steps.append({"do": "reuse", "irp": irp, "status": self.status()})
        steps.append({"do": "free", "irp": irp})
        return [self.wild(irp) if self.seldom() else step for step in steps]

    def lock_steps(self, lock):
        tag = self.chance.randrange(3)
        named = {"lock": lock, "tag": tag}
        return [
            {"do": "acquire", **named},
            {"do": self.one_of("release", "begin_remove"), **named},
            {"do": "drained", "lock": lock},
            {"do": "delete", "device": self.device()},
        ]

    def tower(self):
        """Returns the steps that create devices, most of them one upon the other."""
        self.devices = self.chance.choice([1, 2, 3, 3, 4, 5, 17])
        if self.seldom(0.02):
            self.devices = 66
        numbers = range(self.devices)
        self.driver_of = [self.chance.randrange(len(self.drivers)) for _ in numbers]
        steps = [
            {"do": "create_device", "driver": driver, "lock": self.chance.randrange(self.locks)}
            for driver in self.driver_of
        ]
        return steps + [{"do": "attach", "device": it, "to": it - 1} for it in numbers if it and not self.seldom(0.1)]

    def script(self):
        """Returns a script that `run` takes."""
        setup = [{**step, "seat": self.seat()} for step in self.tower()]
        lanes = []
        for _ in range(self.chance.randrange(1, 6)):
            seat, lock = self.seat(), self.chance.randrange(self.locks)
            lanes.append([{**step, "seat": seat if not self.seldom() else self.seat()} for step in self.life()])
            lanes.append([{**step, "seat": seat} for step in self.lock_steps(lock)])
        if self.seldom(0.03):
            seat = self.seat()
            lanes.append([{"do": "acquire", "lock": 0, "tag": 0, "seat": seat} for _ in range(66)])
        return {
            "form": 1, "seats": self.seats, "locks": self.locks,
            "completions": self.completions, "cancels": self.cancels,
            "dispatches": self.dispatches, "drivers": self.drivers,
            "setup": setup, "steps": self.mixed(lanes),
        }  # fmt: skip

    def mixed(self, lanes):
        """Returns the steps of these lanes in an order that keeps each lane's."""
        steps = []
        while lanes := [lane for lane in lanes if lane]:
            steps.append(self.chance.choice(lanes).pop(0))
        return steps


def text_of(chance, script):
    """Returns the script's text: its keys in any order, with white space or without."""
    keys = list(script)
    chance.shuffle(keys)
    layout = chance.choice([{"separators": (",", ":")}, {}, {"indent": 1}])
    return json.dumps({key: script[key] for key in keys}, **layout).encode()


# Faults. Each changes a script in one place, and returns what `run` tells of it.


def key_is_missing(chance, script):
    del script[chance.choice([key for key in script if key != "form"])]
    return "S4 top 0"


def key_is_unknown(chance, script):
    script[chance.choice(["more", "Seats", ""])] = 0
    return "S4 top 0"


def form_is_unknown(chance, script):
    script["form"] = chance.choice([0, 3, "1", None, 1.5, [1]])
    return "S3"


def count_is_wrong(chance, script):
    key = chance.choice(["seats", "locks"])
    script[key] = chance.choice([0, 65, -1, "1", None, 1.0])
    return f"S4 {key} 0"


def list_is_none(chance, script):
    key = chance.choice(["completions", "cancels", "dispatches", "drivers", "setup", "steps"])
    script[key] = chance.choice([0, None, {}, "none"])
    return f"S4 {key} 0"


def step_lacks_a_key(chance, script):
    at = chance.randrange(len(script["steps"]))
    del script["steps"][at][chance.choice(list(script["steps"][at]))]
    return f"S4 steps {at}"


def step_has_another_key(chance, script):
    at = chance.randrange(len(script["steps"]))
    script["steps"][at][chance.choice(["as", "more", "to", "slot"])] = chance.choice([[], {}, -1, 2**32, ""])
    return f"S4 steps {at}"


def seat_is_not_there(chance, script):
    at = chance.randrange(len(script["steps"]))
    script["steps"][at]["seat"] = chance.choice([script["seats"], 2**32, -1, 0.5, "0", None])
    return f"S4 steps {at}"


def lock_in_setup(chance, script):
    script["setup"].append({"do": "drained", "lock": 0, "seat": 0})
    return f"S4 setup {len(script['setup']) - 1}"


def routine_breaks_its_rule(chance, script):
    script["completions"].append(chance.choice(RULE_BREAKERS))
    return f"S5 completions {len(script['completions']) - 1}"


def plan_breaks_its_rule(chance, script):
    at = chance.randrange(len(script["dispatches"]))
    script["dispatches"][at] = chance.choice(PLAN_BREAKERS)
    return f"S5 dispatches {at}"


def plan_names_nothing(chance, script):
    at = chance.randrange(len(script["dispatches"]))
    plans = ["hold", len(script["cancels"])], ["forward_pend", ["free", 256, 0, ""]]
    script["dispatches"][at] = chance.choice(plans)
    return f"S6 dispatches {at}"


def driver_is_wrong(chance, script):
    script["drivers"].append(chance.choice([[[28, 0]], [[3, len(script["dispatches"])]], [[4, 0], [4, 0]]]))
    return f"S7 drivers {len(script['drivers']) - 1}"


def too_many(chance, script):
    lists = ("drivers", 64, []), ("dispatches", 256, ["skip"]), ("cancels", 256, ["leave"])
    key, least, member = chance.choice(lists)
    script[key] += [member] * (least + chance.randrange(1, 3) - len(script[key]))
    return f"S8 {key} {least}"


RULE_BREAKERS = (
    ["watch", "keep", "continue"], ["keeper", "keep", "continue"], ["keep_on_error", "keep", "keep"],
    ["change", "continue", "keep"], ["free", ["replace", PENDING, 0], "keep"],
)  # fmt: skip
PLAN_BREAKERS = (["finish", PENDING, 0], ["finish", MORE_PROCESSING, 1], ["forward", ["keeper", 0, 0, "s"]])
FAULTS = (
    key_is_missing, key_is_unknown, form_is_unknown, count_is_wrong, list_is_none, step_lacks_a_key,
    step_has_another_key, seat_is_not_there, lock_in_setup, routine_breaks_its_rule, plan_breaks_its_rule,
    plan_names_nothing, driver_is_wrong, too_many,
)  # fmt: skip


def faulty(chance, script):
    """Returns a copy of the script with one fault, and what `run` tells of it."""
    script = json.loads(json.dumps(script))
    return script, chance.choice(FAULTS)(chance, script)
