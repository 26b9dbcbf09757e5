"""The rules of docs/RULES.md once more, for calls that nobody refuses, with a switch for each known difference of a
manager. With all switches off it makes the model's entries. It is no second proof: it says what the whole of a script gives
by a known difference, and so looks behind the first illegal entry."""

from conditions import is_met
from playable import ON_LOCKS, OPS, number_routines

PENDING, CANCELLED, INVALID = 259, 3221225760, 3221225488
OLD_STATUS, ZERO_SUCCESS, LOST_MARK, NO_DISPATCH = "old status", "success as zero", "lost mark", \
    "information where no dispatch is"
# The known differences, all of them Wine's. Each has a section of docs/PRACTICE.md, which says who is right, and the
# smallest script that shows it in examples/practice.
KINDS = {
    OLD_STATUS: ("flags-are-tested-against-an-old-status", "flags_after_a_mended_error"),
    ZERO_SUCCESS: ("success-is-taken-as-zero", "informational_success"),
    LOST_MARK: ("a-pending-mark-is-lost-where-no-routine-is-asked", "pending_mark_passes_up"),
    NO_DISPATCH: ("a-kept-packet-meets-no-dispatch", "information_where_no_dispatch_is"),
}


def word_of(reply):
    """Returns the number that the player writes for a reply of the model."""
    if not isinstance(reply, dict):
        return 1 if reply == "yes" else 0
    key, value = next(iter(reply.items()))
    if key == "previous":
        return 0 if value is None else value + 1
    return {"status": value, "device": value, "cancelled": value is True and 1 or 0}.get(key, 0)


class Parted(Exception):
    """The step works on what isn't there, or isn't its party's."""


def cleared():
    return {"device": None, "major": 0, "word": 0, "set": None, "pending": False}


class Packet:
    def __init__(self, size, use, status=0):
        self.size, self.use, self.status, self.information = size, use, status, 0
        self.current, self.owner, self.flag, self.cancel, self.returned = size + 1, "o", False, None, False
        self.prepared = None
        self.at = [None] + [cleared() for _ in range(size)]

    def shown(self, device, location, has_lower=False, returned=False, context=0):
        l = self.at[location]
        return [device, 0, self.use, l["major"], location, l["word"], self.status, self.information, returned, self.flag,
                context, has_lower]

    def seen(self):
        marked = self.current <= self.size and self.at[self.current]["pending"]
        return [self.owner, self.current, self.status, self.information, self.flag, self.cancel, self.returned, marked]


class Manager:
    """A manager that makes one operation of the player after the other, and keeps the entries."""

    def __init__(self, script, switches=frozenset(), answered=()):
        self.script, self.switches, self.answered = script, switches, answered
        self.tables = [dict(map(tuple, it)) for it in script["drivers"]]
        self.routines = number_routines(script)
        self.names = {place: name for name, place in self.routines.items()}
        self.devices, self.packets, self.next_use, self.entries, self.replies = [], {}, 1, [], []

    def run(self, ops):
        """Returns how many operations were made."""
        for k, op in enumerate(ops):
            try:
                self.replies.append(self.conditioned(op, k))
            except Parted:
                return k
        return len(ops)

    def conditioned(self, op, k):
        """Makes one operation if its condition is met. Returns its reply, None where it wasn't made."""
        if not is_met(op, self.replies):
            return None
        n = len(self.entries)
        self.step(op)
        if len(self.entries) > n:
            return word_of(self.entries[-1]["reply"])
        return self.answered[k] if k < len(self.answered) else 0

    # Unwinding.

    def is_met(self, flags, status, flag):
        good = status == 0 if ZERO_SUCCESS in self.switches else status < 2**31
        return "s" in flags and good or "e" in flags and not good or "c" in flags and flag

    def behaviour(self, setting, status):
        _, on_ok, on_error = self.script["completions"][self.routines[setting[0], setting[1]]]
        return on_ok if status < 2**31 else on_error

    def ask_routine(self, p, j, above, asked):
        """Asks the routine at location j. Returns whether it keeps the packet, and whether it marks."""
        setting = p.at[j]["set"]
        does = self.behaviour(setting, p.status)
        mark = does != "keep" and p.returned and above is not None
        replaced = list(does[1:]) if does[0] == "replace" else None
        asked.append({"answer": ["keep" if does == "keep" else "continue", mark, replaced], "completion": setting[:2],
                      "shown": p.shown(above, j, False, p.returned, setting[2])})
        if replaced:
            p.status, p.information = replaced
        return does == "keep", mark

    def unwind(self, p, asked):
        for j in range(1, p.current):
            p.at[j] = cleared()
        p.prepared, first = None, p.status
        for j in range(p.current, p.size + 1):
            l = p.at[j]
            p.returned = l["pending"]
            above = p.at[j + 1]["device"] if j < p.size else None
            flags = l["set"][3] if l["set"] else ""
            if self.is_met(flags, first if OLD_STATUS in self.switches else p.status, p.flag):
                keeps, marks = self.ask_routine(p, j, above, asked)
            else:
                keeps, marks = False, p.returned and j < p.size and LOST_MARK not in self.switches
            p.at[j] = cleared()
            if keeps:
                p.current, p.owner = j + 1, "o" if above is None else above
                return
            if marks:
                p.at[j + 1]["pending"] = True
        p.current, p.owner = p.size + 1, "ended"

    # Descending.

    def plan_of(self, p, device, number):
        plan = self.script["dispatches"][number]
        if plan[0] in ("skip", "forward", "forward_pend") and device["lower"] is None:
            return ["finish", INVALID, 0]
        return ["finish", CANCELLED, 0] if plan[0] == "hold" and plan[1] is not None and p.flag else plan

    def no_dispatch(self, p, asked):
        p.status = INVALID
        if NO_DISPATCH not in self.switches:
            p.information = 0
        self.unwind(p, asked)
        return INVALID

    def follow(self, p, plan, target, asked):
        """Follows a plan. Returns the status of a plan that passes nothing down, else None."""
        j = p.current
        l = p.at[j]
        if plan[0] == "finish":
            p.status, p.information = plan[1:]
            self.unwind(p, asked)
            return plan[1]
        if plan[0] in ("hold", "hold_slot"):
            l["pending"], p.owner = True, target
            p.cancel = plan[1] if plan[0] == "hold" else None
            return PENDING
        if plan[0] == "skip":
            p.current += 1
        else:
            l["pending"] = l["pending"] or plan[0] == "forward_pend"
            p.at[j - 1] = dict(cleared(), major=l["major"], word=l["word"], set=plan[1])
        return None

    def descend(self, p, target, asked):
        """Returns the reply of a send."""
        pended, status = False, None
        while status is None:
            p.current -= 1
            j, device = p.current, self.devices[target]
            p.at[j]["device"], p.prepared = target, None
            number = self.tables[device["driver"]].get(p.at[j]["major"])
            if number is None:
                status = self.no_dispatch(p, asked)
                break
            plan = self.plan_of(p, device, number)
            asked.append({"dispatch": number, "plan": plan, "shown": p.shown(target, j, device["lower"] is not None)})
            pended = pended or plan[0] == "forward_pend"
            status = self.follow(p, plan, target, asked)
            target = device["lower"]
        return PENDING if pended else status

    # Steps.

    def put(self, call, reply, asked=(), seat=0, seen=None):
        self.entries.append({"asked": list(asked), "call": call, "n": len(self.entries), "reply": reply, "seat": seat,
                             "seen": seen.seen() if seen else None})

    def step(self, op):
        """Makes one operation. Raises Parted where it can't."""
        name, seat, by, a, b, c, d = OPS[op[0] & 255], *op[1:7]
        if name in ON_LOCKS:
            return
        if name in ("create_device", "attach", "detach", "delete"):
            self.on_devices(name, seat, a, b)
            return
        p = self.packets.get(a)
        if name == "allocate":
            if p and p.owner != "ended":
                raise Parted
            self.packets[a] = self.new_packet(b, 0)
            self.put({"do": name, "size": b}, {"irp": [0, self.packets[a].use]}, seat=seat, seen=self.packets[a])
        elif p is None or p.owner == "ended" or by and p.owner != ("o" if by == 1 else by - 2):
            raise Parted
        else:
            self.on_packet(name, seat, p, a, b, c, d)

    def new_packet(self, size, status):
        self.next_use += 1
        return Packet(size, self.next_use - 1, status)

    def on_packet(self, name, seat, p, a, b, c, d):
        call, asked, reply = {"do": name, "irp": [0, p.use]}, [], "done"
        if name not in ("free", "cancel", "reuse"):
            call["by"] = p.owner
        if name in ("set_next", "copy_to_next", "skip", "set_routine"):
            self.prepare(name, p, call, b, c, d)
        elif name == "free":
            del self.packets[a]
        elif name == "reuse":
            self.packets[a] = self.new_packet(p.size, b)
            call["status"], reply = b, {"irp": [0, self.packets[a].use]}
        elif name == "mark_pending":
            p.at[p.current]["pending"] = True
        elif name == "call_driver":
            call["target"] = b
            reply = {"status": self.descend(p, b, asked)}
        elif name == "complete":
            call["status"], call["information"] = p.status, p.information = b, c
            self.unwind(p, asked)
        elif name == "set_cancel_routine":
            call["cancel"], reply = (b - 1 if b else None), {"previous": p.cancel}
            p.cancel = call["cancel"]
        else:
            reply = {"cancelled": self.cancel(p, asked)}
        self.put(call, reply, asked, seat, self.packets.get(a))

    def prepare(self, name, p, call, b, c, d):
        below = p.current - 1
        if name == "set_next":
            p.at[below] = dict(cleared(), major=b, word=c)
            call.update(major=b, word=c)
        elif name == "copy_to_next":
            l = p.at[p.current]
            p.at[below] = dict(cleared(), major=l["major"], word=l["word"])
        elif name == "set_routine":
            flags = "s" * (d & 1) + "e" * (d >> 1 & 1) + "c" * (d >> 2 & 1)
            p.at[below]["set"] = call["set"] = [*self.names[b - 1], c, flags]
            return
        else:
            if p.prepared == "filled":
                p.at[below] = cleared()
            p.current += 1
        p.prepared = "skipped" if name == "skip" else "filled"

    def cancel(self, p, asked):
        """Returns whether there was a cancel routine."""
        p.flag = True
        number, p.cancel = p.cancel, None
        if number is None:
            return False
        does = self.script["cancels"][number]
        asked.append({"answer": does, "cancel": number, "shown": p.shown(p.owner, p.current)})
        if does[0] == "finish":
            p.status, p.information = CANCELLED, does[1]
            self.unwind(p, asked)
        return True

    def on_devices(self, name, seat, a, b):
        devices = self.devices
        if name == "create_device":
            devices.append({"driver": a, "lower": None, "upper": None, "live": True})
            self.put({"do": name, "driver": a, "lock": 0}, {"device": len(devices) - 1}, seat=seat)
        elif name == "attach":
            top = b
            while devices[top]["upper"] is not None:
                top = devices[top]["upper"]
            devices[a]["lower"], devices[top]["upper"] = top, a
            self.put({"do": name, "device": a, "to": b}, {"device": top}, seat=seat)
        elif name == "detach":
            upper = devices[a]["upper"]
            if upper is None:
                raise Parted
            devices[a]["upper"] = devices[upper]["lower"] = None
            self.put({"do": name, "lower": a}, {"device": upper}, seat=seat)
        else:
            devices[a]["live"] = False
            self.put({"do": name, "device": a, "drained": True, "lock": 0}, "done", seat=seat)
