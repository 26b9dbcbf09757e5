"""What the things and events of a history are called, in the words of the WDK."""

from tables import CANCELLED, NO_USE, REFUSALS, WINDOWS, major, result, status
from parts import counted

FLAGS = {"s": "on success", "e": "on error", "c": "on cancel"}
STEPS = {"acquire": "IoAcquireRemoveLock", "release": "IoReleaseRemoveLock", "begin_remove": "IoReleaseRemoveLockAndWait",
         "publish": "publish in", "withdraw": "withdraw from", "request": "request",
         "finish_taken": "finish by the token of"}
GIVES = {"ok": "", "not_held": "not held", "lost": "lost: another took it", "nothing": "nothing there",
         "no_token": "no token: nothing was called", "standing": "it stands there"}
# Replies of steps that say that something is wrong.
FAILED = ("not_held", "seat_full", "already_removing", "no_lock", "no_slot", "used", "not_standing")
SENT_ON = {"skip": "sends it on", "forward": "sends it on", "forward_pend": "pends it, sends it on"}


class Words:
    """How the things of a run are called. `owners` has which device has which remove lock."""

    def __init__(self, names, owners):
        self.names, self.owners = names, owners

    # ---- things

    def device(self, number):
        name = self.names.devices.get(number)
        return f"D{number} {name}" if name else f"D{number}"

    def party(self, it):
        return "originator" if it in ("o", None) else self.device(it)

    def packet(self, use):
        if use[0] == NO_USE:
            return "an IRP that isn’t there"
        label = self.names.packets.get(tuple(use))
        return f"IRP {use[0]}.{use[1]}" + (f" {label}" if label else "")

    def thread(self, seat):
        name = self.names.seats.get(seat)
        if name and name.startswith(f"T{seat}, "):
            name = name.partition(", ")[2]
        return f"T{seat} {name}" if name else f"T{seat}"

    def dispatch(self, number):
        return self.names.dispatches.get(number) or f"dispatch {number}"

    def routine(self, rule, number, with_rule=True):
        name = self.names.completions[rule].get(number)
        return f"{name} ({rule})" if name and with_rule else name or f"{rule} {number}"

    def cancel(self, number):
        return self.names.cancels.get(number) or f"cancel routine {number}"

    def setting(self, setting):
        """A completion routine with its context and when it is asked."""
        rule, number, context, flags = setting
        asked = ", ".join(FLAGS[it] for it in flags) or "never asked"
        return f"{self.routine(rule, number)}, context 0x{context:x}, {asked}"

    def lock(self, number):
        name, device = self.names.locks.get(number), self.owners.get(number)
        of = f" of {self.device(device)}" if device is not None and not name else ""
        return f"remove lock {name or number}{of}"

    def slot(self, number):
        return f"cancel slot {self.names.slots.get(number, number)}"

    def driver_of(self, entry, is_host):
        """The driver that makes a device."""
        made = entry["reply"].get("device") if isinstance(entry["reply"], dict) else None
        name = self.names.devices.get(made) if is_host else self.names.drivers.get(entry["call"]["driver"])
        return name or f"driver {entry['call']['driver']}"

    # ---- calls and replies

    def call(self, entry, is_host=False):
        """The call of an entry."""
        call = entry["call"]
        do, name = call["do"], WINDOWS[call["do"]]
        irp = self.packet(call["irp"]) if "irp" in call else ""
        of_device = {"create_device": lambda: f"{self.driver_of(entry, is_host)}, remove lock {call['lock']}",
                     "attach": lambda: f"{self.device(call['device'])}, the stack of {self.device(call['to'])}",
                     "detach": lambda: f"what stands on {self.device(call['lower'])}",
                     "delete": lambda: self.device(call["device"]),
                     "allocate": lambda: counted(call["size"], "location"),
                     "set_routine": lambda: f"{irp}, {self.setting(call['set']) if call['set'] else 'none'}",
                     "call_driver": lambda: f"{self.device(call['target'])}, {irp}",
                     "reuse": lambda: f"{irp}, {status(call['status'])}",
                     "set_cancel_routine": lambda: f"{irp}, {self.cancel_or_null(call['cancel'])}"}
        if do in of_device:
            return f"{name}({of_device[do]()})"
        if do == "set_next":
            return f"{name}({irp}): {major(call['major'], call['word'])}"
        if do in ("complete", "finish_taken"):
            token = " with its token," if do == "finish_taken" else " with"
            return f"{name}({irp}){token} {result(call['status'], call['information'])}"
        return f"look at {irp}" if do == "look" else f"{name}({irp})"

    def cancel_or_null(self, number):
        return "NULL" if number is None else self.cancel(number)

    def reply(self, entry):
        """The reply of an entry, or nothing where the call is just done."""
        reply, do = entry["reply"], entry["call"]["do"]
        if reply == "done":
            return ""
        key, value = next(iter(reply.items()))
        if key == "device":
            return {"attach": "attached above ", "detach": ""}.get(do, "") + self.device(value) + \
                (" detached" if do == "detach" else "")
        said = {"irp": lambda: self.packet(value), "status": lambda: status(value), "seen": lambda: self.seen(value),
                "previous": lambda: f"returned {self.cancel_or_null(value)}", "refused": lambda: f"refused: {value}",
                "cancelled": lambda: "TRUE" if value else "FALSE: no cancel routine"}
        return said[key]()

    def seen(self, seen):
        """What a look shows of a packet."""
        owner, current, code, information, cancel, routine, returned, marked = seen
        who = {"o": "the originator has it", "ended": "completed"}.get(owner) or f"{self.device(owner)} has it"
        more = [text for text, is_so in (("cancel flag", cancel), (self.cancel(routine), routine is not None),
                                         ("PendingReturned", returned), ("marked pending", marked)) if is_so]
        return ", ".join([who, f"current location {current}", result(code, information), *more])

    @staticmethod
    def refusal(entry):
        """Why a call is refused, and what Windows does."""
        meaning, windows = REFUSALS.get(entry["reply"]["refused"], ("", {}))
        code = windows.get(entry["call"]["do"])
        return meaning + (f". In Windows: {code}" if code else "")

    # ---- questions and answers

    def question(self, asked):
        """Who was asked, and what was shown."""
        device, _, _, code, location, word, now, information, returned, cancel, _, has_lower = asked["shown"]
        who, more = self.party(device), ", cancel flag" if cancel else ""
        if "dispatch" in asked:
            below = "" if has_lower else ", nothing below"
            below += f", {result(now, information)}" if now or information else ""
            return f"{who} {self.dispatch(asked['dispatch'])}: {major(code, word)}, location {location}{below}{more}"
        if "completion" in asked:
            pended = ", PendingReturned" if returned else ""
            routine = self.routine(*asked["completion"])
            return f"{who} {routine} (location {location}): {result(now, information)}{pended}{more}"
        return f"{who} {self.cancel(asked['cancel'])}: cancel flag set"

    def answer(self, asked):
        """What whoever was asked did."""
        if "dispatch" in asked:
            return self.plan(*asked["plan"])
        if "completion" in asked:
            kind, mark, replaced = asked["answer"]
            ends = "returns STATUS_CONTINUE_COMPLETION" if kind == "continue" else \
                "returns STATUS_MORE_PROCESSING_REQUIRED: it keeps the packet"
            return ("IoMarkIrpPending, " if mark else "") + (f"sets {result(*replaced)}, " if replaced else "") + ends
        if asked["answer"][0] == "finish":
            return f"IoCompleteRequest with {result(CANCELLED, asked['answer'][1])}"
        return "leaves the packet where it is"

    def plan(self, kind, *rest):
        """What a dispatch did."""
        if kind == "finish":
            return f"IoCompleteRequest with {result(*rest)}"
        if kind == "hold":
            routine = f"IoSetCancelRoutine({self.cancel(rest[0])}), " if rest[0] is not None else ""
            return f"IoMarkIrpPending, {routine}keeps the packet, returns STATUS_PENDING"
        if kind == "hold_slot":
            return "IoMarkIrpPending, keeps the packet for a cancel slot, returns STATUS_PENDING"
        if kind == "skip":
            return "IoSkipCurrentIrpStackLocation, IoCallDriver"
        mark = "IoMarkIrpPending, " if kind == "forward_pend" else ""
        routine = f"IoSetCompletionRoutine({self.setting(rest[0])}), " if rest[0] else ""
        pended = ", returns STATUS_PENDING" if kind == "forward_pend" else ""
        return f"{mark}IoCopyCurrentIrpStackLocationToNext, {routine}IoCallDriver{pended}"

    def in_short(self, asked):
        """A question with its answer, in a few words: the way down, or up."""
        who = self.party(asked["shown"][0])
        if "completion" in asked:
            ends = "keeps it" if asked["answer"][0] == "keep" else "goes on"
            return f"▲ {who} {self.routine(*asked['completion'], False)}: {ends}"
        if "cancel" in asked:
            ends = "" if asked["answer"][0] == "leave" else f": completes it, {status(CANCELLED, True)}"
            return f"▼ {who} {self.cancel(asked['cancel'])} begins{ends}"
        kind, *rest = asked["plan"]
        did = f"completes it, {result(*rest, True)}" if kind == "finish" else SENT_ON.get(kind, "pends and holds it")
        routine = f", cancel routine {self.cancel(rest[0])}" if kind == "hold" and rest[0] is not None else ""
        return f"▼ {who} {self.dispatch(asked['dispatch'])}: {did}{routine}"

    def end(self, outcome):
        """Where a call left its packet."""
        kind, *rest = outcome
        if kind == "completed":
            return f"completed: {result(*rest)}"
        if kind == "kept" and rest[0] is None:
            return f"the originator has the packet again: {result(*rest[1:])}"
        if kind == "stays":
            return "the packet stays with its device"
        return f"{self.party(rest[0])} {'holds' if kind == 'held' else 'keeps'} the packet"

    # ---- steps on remove locks and cancel slots

    def step(self, step):
        """A step, and what it gave."""
        do, reply = step["do"], step["reply"]
        thing = self.lock(step["lock"]) if "lock" in step else self.slot(step["slot"])
        tag = f", tag {step['tag']}" if "tag" in step else ""
        gives = reply if isinstance(reply, str) else "; ".join(self.gave(*it) for it in reply.items())
        gives, to = GIVES.get(gives, gives), f" to {self.thread(step['to'])}" if "to" in step else ""
        if do == "drained":
            return f"is {thing} drained?", gives
        if do == "hand":
            return f"hands over {thing}{tag}{to}", gives
        return (f"{STEPS[do]}({thing}{tag})" if "lock" in step else f"{STEPS[do]} {thing}") + to, gives

    @staticmethod
    def gave(key, value):
        return status(value) if key == "status" else f"{value} still counted" if key == "busy" else f"takes use {value}"


def is_failed(step):
    """Whether a step's reply says that something is wrong."""
    return step["reply"] in FAILED


def place(by):
    """Returns where a call was made."""
    if "file" not in by:
        return ""
    under = f" under {by['under']}" if "under" in by else ""
    return f"{by['file']}:{by['line']} in {by['function']}{under}"
