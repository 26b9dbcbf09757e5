"""From a script and the model's transcript of it to what a manager can be asked to do.

What can't be asked for is left out step by step, not script by script:

- a step that the model refuses: a refused call changes nothing in the model, so the rest goes on as it was;
- a look: the recorder looks by itself;
- the free of a packet that has ended, which is gone on a manager; its reuse becomes an allocate and a reuse;
- steps of cancel slots, where the model alone has a word: a finish_taken is a complete by who holds the packet.

Each is counted by its kind. The player evaluates conditions while it plays, from what the manager answered; only where
the step that a condition asks about is left out, the model's reply decides. `feed` makes the player's words."""

import struct
from collections import Counter

from conditions import UNMET, condition_words, is_answer, is_refused

RULES = ["watch", "change", "keeper", "keep_on_error", "free"]
OPS = ["create_device", "attach", "detach", "delete", "allocate", "free", "reuse", "set_next", "copy_to_next", "skip",
       "set_routine", "mark_pending", "call_driver", "complete", "set_cancel_routine", "cancel", "acquire", "release",
       "begin_remove", "drained"]  # as in state.h
PLANS = ["finish", "hold", "skip", "forward", "forward_pend"]  # as in state.h
TOGETHER = 256  # beside an operation: only where the one before it of its seat was made
REFUSED = 512  # and: it is made, though the model refuses it
ON_LOCKS = ("acquire", "release", "begin_remove", "drained")
SLOTS, LOOKS, HANDS, FREED, REFUSES, UNKNOWN = "a cancel slot is the model's alone", "the recorder looks by itself", \
    "a manager knows no seats: its release comes from the other thread", "the manager has freed the packet", \
    "the model refuses it", "its condition isn't met, and names what isn't there"
LEFT_OUT = {"publish": SLOTS, "withdraw": SLOTS, "request": SLOTS, "hand": HANDS, "look": LOOKS}
MOVES = ("call_driver", "complete", "cancel", "finish_taken")
OP_WORDS = 10
MOST = {"completions": 256, "cancels": 256, "dispatches": 256, "packets": 512, "steps": 4096}


class Unplayable(Exception):
    """Why a script can't be played."""


def owner_after(entry, before):
    """Returns who owns the packet after an entry that was answered: a device, "o" or "ended"."""
    asked = entry["asked"]
    if entry["call"]["do"] == "cancel" and (not asked or asked[0]["answer"][0] == "leave"):
        return before
    last = asked[-1] if asked else None
    if last and "plan" in last and last["plan"][0] in ("hold", "hold_slot"):
        return last["shown"][0]
    if last and "completion" in last and last["answer"][0] == "keep":
        return "o" if last["shown"][0] is None else last["shown"][0]
    return "ended"


def walk(script, lines):
    """Yields each step, its place (None in the setup), and its entry or word line, None where the model passed it over."""
    entries = iter([it for it in lines[1:] if "n" in it])
    words = {it["step"]: it for it in lines[1:] if "n" not in it}
    replies = {}
    for place, step in [(None, it) for it in script["setup"]] + list(enumerate(script["steps"])):
        if "if" in step:
            kind, k, wanted = step["if"]
            if k not in replies or is_answer(replies[k], wanted) != (kind == "is"):
                yield step, place, None
                continue
        made = words[place] if place is not None and place in words else next(entries)
        if place is not None:
            replies[place] = made["reply"]
        yield step, place, made


def number_routines(script):
    """Returns the place in `completions` of each routine, by rule and number."""
    found, counts = {}, dict.fromkeys(RULES, 0)
    for place, (rule, *_) in enumerate(script["completions"]):
        found[rule, counts[rule]] = place
        counts[rule] += 1
    return found


def setting_words(routines, setting):
    rule, number, context, flags = setting
    return [routines[rule, number] + 1, context, ("s" in flags) + 2 * ("e" in flags) + 4 * ("c" in flags)]


def behaviour_words(it):
    return [0, 0, 0] if it == "continue" else [1, 0, 0] if it == "keep" else [2, it[1], it[2]]


class Playable:
    """What is played of a script: `ops`, each with what the model makes of it in `expected` (an entry or a word line; None
    where its condition isn't met). `forced` names the places of steps that are made though the model refuses them.
    `left_out` counts what isn't played: what and why."""

    def __init__(self, script, lines, forced=()):
        self.script, self.routines, self.forced = script, number_routines(script), forced
        self.ops, self.expected = [], []  # an op: its number, seat, by, four words, and three of its condition
        self.left_out = Counter()
        self.pseudo = self.n_setup = 0
        self.packet_of, self.labels, self.sizes, self.owners = {}, {}, [], []  # a use's, a label's packet; of each packet
        self.places = {}  # of a script's step, that of its op
        self.condition, self.flags = (0, 0, 0), 0
        for step, place, made in walk(script, lines):
            n = len(self.ops)
            if self.may_be_made(step, made):
                self.add_unmet(step) if made is None else self.add(step, place, made)
            if place is None:
                self.n_setup = len(self.ops)
            elif len(self.ops) > n:
                self.places[place] = len(self.ops) - 1

    def leave_out(self, do, why):
        self.left_out[do, why] += 1

    def may_be_made(self, step, made):
        """Sets the condition of what is made of this step. Where the step that it asks about is left out, the model's reply
        decides. Returns whether the step may be made."""
        self.condition = (0, 0, 0)
        if "if" not in step:
            return True
        kind, k, wanted = step["if"]
        if k in self.places:
            op = self.places[k]
            self.condition = (op + 1, *condition_words(OPS[self.ops[op][0] & 255], kind, wanted))
        elif made is None:
            self.leave_out(step["do"], UNMET)
            return False
        return True

    def put(self, name, seat, by, made, *args):
        self.ops.append((OPS.index(name) + self.flags, seat, by, *args, *[0] * (4 - len(args)), *self.condition))
        self.expected.append(made)

    def add(self, step, place, made):
        do, seat = step["do"], step["seat"]
        self.flags = REFUSED if is_refused(made["reply"]) and place in self.forced else 0
        if is_refused(made["reply"]) and not self.flags:
            reply = made["reply"]
            self.leave_out(do, f"{REFUSES} ({reply['refused'] if isinstance(reply, dict) else reply})")
        elif do in LEFT_OUT:
            self.leave_out(do, LEFT_OUT[do])
        elif do in ON_LOCKS:
            self.put(do, seat, 0, made, step["lock"], step.get("tag", 0))
        elif do == "allocate":
            if not self.flags:
                self.packet_of[made["reply"]["irp"][1]] = len(self.sizes)
            self.allocate(step, made["call"]["size"], made)
        elif "irp" in made["call"]:
            self.on_packet(step, seat, made["call"], made)
        else:
            self.on_devices(do, seat, made["call"], made)
        self.flags = 0

    def allocate(self, step, size, made):
        self.labels[step.get("as")] = len(self.sizes)
        self.put("allocate", step["seat"], 0, made, len(self.sizes), size)
        self.sizes.append(size)
        self.owners.append("o")

    def on_devices(self, do, seat, call, made):
        keys = {"create_device": ["driver"], "attach": ["device", "to"], "detach": ["lower"], "delete": ["device"]}
        self.put(do, seat, 0, made, *(call[key] for key in keys[do]))

    def add_unmet(self, step):
        """A step that the model passes over, since its condition isn't met; a manager may answer otherwise."""
        do, seat = step["do"], step["seat"]
        by = step.get("by", "o" if do in ("free", "reuse") else None)
        by = 0 if by is None else 1 if by == "o" else by + 2
        if do in LEFT_OUT or do == "finish_taken":
            self.leave_out(do, LEFT_OUT.get(do, SLOTS))
        elif do in ON_LOCKS:
            self.put(do, seat, 0, None, step["lock"], step.get("tag", 0))
        elif do == "allocate" and step["as"] not in self.labels:
            self.allocate(step, step["size"], None)
        elif "irp" in step and step["irp"] in self.labels:
            self.put(do, seat, by, None, self.labels[step["irp"]], *self.words_of(do, step))
        elif "irp" in step or do == "allocate":
            self.leave_out(do, UNKNOWN)
        else:
            self.on_devices(do, seat, step, None)

    def on_packet(self, step, seat, call, made):
        do, use = step["do"], call["irp"][1]
        if use not in self.packet_of:
            raise Unplayable(f"no packet has the use {use}")
        p = self.packet_of[use]
        owner = self.owners[p]
        by = 1 if owner == "o" else 0 if owner == "ended" else owner + 2
        if do in MOVES and not self.flags:
            self.owners[p] = owner_after(made, owner)
        if do == "free" and owner == "ended":
            self.leave_out(do, FREED)
        elif do == "reuse":
            self.reuse(p, seat, by, call, made)
        elif do == "finish_taken":
            same = {it: call[it] for it in ("irp", "status", "information")}
            made = dict(made, call={"by": owner, "do": "complete", **same})
            self.put("complete", seat, by, made, p, call["status"], call["information"])
        else:
            self.put(do, seat, 0 if do == "cancel" else by, made, p, *self.words_of(do, call))

    def words_of(self, do, call):
        if do == "set_routine":
            return setting_words(self.routines, call["set"])
        if do == "set_cancel_routine":
            return [0 if call["cancel"] is None else call["cancel"] + 1]
        keys = {"set_next": ["major", "word"], "call_driver": ["target"], "complete": ["status", "information"],
                "reuse": ["status"]}
        return [call[key] for key in keys.get(do, ())]

    def reuse(self, p, seat, by, call, made):
        """A packet that has ended is allocated anew; the model has no entry for that, so one is made up."""
        if not self.flags:
            self.packet_of[made["reply"]["irp"][1]] = p
        if self.owners[p] == "ended":
            self.pseudo -= 1
            self.put("allocate", seat, 0, {"asked": [], "call": {"do": "allocate", "size": self.sizes[p]},
                                           "reply": {"irp": [0, self.pseudo]}, "seat": seat}, p, self.sizes[p])
            by, made = 1, dict(made, call=dict(call, irp=[0, self.pseudo]))
        if not self.flags:
            self.owners[p] = "o"
        self.put("reuse", seat, by, made, p, call["status"])

    def plan_words(self, plan):
        kind = "hold" if plan[0] == "hold_slot" else plan[0]
        words = [PLANS.index(kind), 0, 0, 0, 0, 0, 0]
        if kind == "finish":
            words[1:3] = plan[1:]
        elif plan[0] == "hold" and plan[1:] and plan[1] is not None:
            words[3] = plan[1] + 1
        elif kind.startswith("forward") and plan[1]:
            words[4:7] = setting_words(self.routines, plan[1])
        return words

    def feed(self):
        script = self.script
        for name, many in (("packets", self.sizes), ("steps", self.ops), *((it, script[it]) for it in list(MOST)[:3])):
            if len(many) > MOST[name]:
                raise Unplayable(f"more than {MOST[name]} {name}")
        words = [len(script["completions"])]
        for _, on_ok, on_error in script["completions"]:
            words += behaviour_words(on_ok) + behaviour_words(on_error)
        words.append(len(script["cancels"]))
        for it in script["cancels"]:
            words += [1, it[1]] if it[0] == "finish" else [0, 0]
        words.append(len(script["dispatches"]))
        for plan in script["dispatches"]:
            words += self.plan_words(plan)
        words.append(len(script["drivers"]))
        for table in script["drivers"]:
            words += [len(table), *(it for pair in table for it in pair)]
        words += [script["locks"], len(self.sizes), self.n_setup, len(self.ops)]
        for op in self.ops:
            words += [*op, *[0] * (OP_WORDS - len(op))]
        return struct.pack(f"<{len(words) + 1}Q", len(words), *words)
