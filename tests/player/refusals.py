"""Steps that the model refuses and a real manager may take: one small script for each. The refused step is marked `!`; what
stands behind it shows what comes of it.

Refusals that name what isn't there (NoIrp, Stale, Ended, NoDevice, DeviceGone, NoDriver, NoLock, NoRoutine, Full) aren't
here: their memory is gone, or never was, so no manager can be asked."""

from collections import namedtuple

Row = namedtuple("Row", "what refusal steps")
KEYS = {"create_device": "driver lock", "attach": "device to", "detach": "lower", "delete": "device",
        "allocate": "size as", "free": "irp", "cancel": "irp", "reuse": "irp status", "set_next": "by irp major word",
        "copy_to_next": "by irp", "skip": "by irp", "mark_pending": "by irp", "set_routine": "by irp set",
        "call_driver": "by irp target", "complete": "by irp status information", "set_cancel_routine": "by irp cancel",
        "acquire": "lock tag", "release": "lock tag", "begin_remove": "lock tag", "drained": "lock"}
SETTINGS = {"keeper": ["keeper", 0, 10, "sec"], "watch": ["watch", 0, 20, "sec"]}
# D1 stands on D0, D2 alone. D1 holds a read (3), passes a write (4) down by skip, and a control (14) by forward; D0 and D2
# hold a read, hold a write with a cancel routine, and finish a control.
TABLES = {"form": 1, "seats": 2, "locks": 20,
          "completions": [["keeper", "keep", "keep"], ["watch", "continue", "continue"]], "cancels": [["finish", 1]],
          "dispatches": [["hold", None], ["hold", 0], ["finish", 0, 5], ["skip"], ["forward", None]],
          "drivers": [[[3, 0], [4, 1], [14, 2]], [[3, 0], [4, 3], [14, 4]]]}
DEVICES = "create_device 0 0; create_device 1 1; attach 1 0; create_device 0 2; "
NEW = "allocate 2 a; set_next o a 3 7; set_routine o a keeper; "
AT_D1 = NEW + "call_driver o a 1; "  # D1 holds the read
AT_D0 = NEW + "call_driver o a 0; "  # D0 holds it; one location is left below
CANCELABLE = "allocate 2 a; set_next o a 4 7; set_routine o a keeper; call_driver o a 0; "  # with a cancel routine
LOCK = "acquire 0 5; "
SIXTEEN = "".join(f"create_device 0 0; attach {k} {k - 1}; " for k in range(4, 19))

ROWS = [
    Row("a device sends to another stack", "WrongTarget", AT_D1 + "copy_to_next 1 a; ! call_driver 1 a 2"),
    Row("a device sends to itself", "WrongTarget", AT_D1 + "copy_to_next 1 a; ! call_driver 1 a 1"),
    Row("a device sends once it is detached", "WrongTarget",
        AT_D1 + "copy_to_next 1 a; detach 0; ! call_driver 1 a 0"),
    Row("one location, sent to D1, which holds it", "TooShort",
        "allocate 1 a; set_next o a 3 7; set_routine o a keeper; ! call_driver o a 1"),
    Row("one location, sent to D1, which forwards it", "TooShort",
        "allocate 1 a; set_next o a 14 7; set_routine o a keeper; ! call_driver o a 1"),
    Row("a location that nobody filled is sent", "NotPrepared", "allocate 2 a; ! call_driver o a 0"),
    Row("a packet with a cancel routine is sent down", "CancelRoutineSet",
        "allocate 2 a; set_next o a 3 7; set_routine o a keeper; call_driver o a 1; set_cancel_routine 1 a 0; "
        "copy_to_next 1 a; ! call_driver 1 a 0"),
    Row("the originator sends what D0 holds", "NotOwner", AT_D0 + "! call_driver o a 2"),
    Row("D1 completes what D0 holds", "NotOwner", AT_D0 + "! complete 1 a 0 4"),
    Row("the originator completes what it hasn't sent", "NoLocation", "allocate 2 a; ! complete o a 0 4"),
    Row("completed with PENDING", "BadStatus", AT_D1 + "! complete 1 a 259 4"),
    Row("completed with MORE_PROCESSING_REQUIRED", "BadStatus", AT_D1 + "! complete 1 a 3221225494 4"),
    Row("completed with its cancel routine set", "CancelRoutineSet", CANCELABLE + "! complete 0 a 0 4"),
    Row("completed after a skip", "AfterSkip", AT_D1 + "skip 1 a; ! complete 1 a 0 4"),
    Row("the originator fills a location below D1's", "NotOwner", AT_D1 + "! set_next o a 4 9; complete 1 a 0 4"),
    Row("a location below the last is filled", "TooShort", "allocate 1 a; set_next o a 3 7; set_routine o a keeper; "
        "call_driver o a 0; ! set_next 0 a 4 9; complete 0 a 0 4"),
    Row("filled after a skip", "AfterSkip",
        AT_D1 + "skip 1 a; ! set_next 1 a 3 9; call_driver 1 a 0; complete 0 a 0 4"),
    Row("major 0x1c", "BadMajor", "allocate 2 a; ! set_next o a 28 7"),
    Row("the originator copies a location", "NoLocation", "allocate 2 a; ! copy_to_next o a"),
    Row("a location is copied below the last", "TooShort", "allocate 1 a; set_next o a 3 7; set_routine o a keeper; "
        "call_driver o a 0; ! copy_to_next 0 a; complete 0 a 0 4"),
    Row("the originator skips", "NoLocation", "allocate 2 a; ! skip o a"),
    Row("skipped twice", "AfterSkip", AT_D1 + "skip 1 a; ! skip 1 a; call_driver 1 a 0"),
    Row("skipped with a cancel routine set", "CancelRoutineSet", AT_D1 + "set_cancel_routine 1 a 0; ! skip 1 a"),
    Row("a routine is set, then the location is filled", "NotPrepared",
        "allocate 2 a; ! set_routine o a keeper; set_next o a 3 7; call_driver o a 0; complete 0 a 0 4"),
    Row("a routine is set after a skip", "AfterSkip",
        AT_D1 + "skip 1 a; ! set_routine 1 a watch; call_driver 1 a 0; complete 0 a 0 4"),
    Row("marked after a skip", "AfterSkip",
        AT_D1 + "skip 1 a; ! mark_pending 1 a; call_driver 1 a 0; complete 0 a 0 4"),
    Row("the originator marks", "NoLocation", "allocate 2 a; ! mark_pending o a"),
    Row("the originator sets a cancel routine", "NoLocation", "allocate 2 a; ! set_cancel_routine o a 0; cancel a"),
    Row("a cancel routine for a cancelled packet", "AlreadyCancelled",
        AT_D1 + "cancel a; ! set_cancel_routine 1 a 0; cancel a"),
    Row("a cancel routine after a skip", "AfterSkip", AT_D1 + "skip 1 a; ! set_cancel_routine 1 a 0"),
    Row("freed in flight", "InFlight", AT_D1 + "! free a"),
    Row("reused in flight", "InFlight", AT_D1 + "! reuse a 0"),
    Row("attached to its own stack", "SameStack", "! attach 0 1"),
    Row("attached with a device below", "StillAttached", "! attach 1 2"),
    Row("attached to a stack of sixteen", "TooDeep",
        "create_device 0 0; " + SIXTEEN + "create_device 0 0; ! attach 19 18"),
    Row("detached where nothing stands above", "NothingAttached", "! detach 2"),
    Row("deleted under another", "StillAttached", "acquire 0 5; begin_remove 0 5; drained 0; ! delete 0"),
    Row("deleted on another", "StillAttached", "acquire 1 5; begin_remove 1 5; drained 1; ! delete 1"),
    Row("deleted while it holds a packet", "InFlight",
        "allocate 2 a; set_next o a 3 7; set_routine o a keeper; call_driver o a 2; acquire 2 5; begin_remove 2 5; "
        "drained 2; ! delete 2; complete 2 a 0 4"),
    Row("deleted with its lock held", "NotDrained", "acquire 2 5; ! delete 2"),
    Row("allocated without a location", "BadSize", "! allocate 0 a"),
    Row("allocated with 17 locations", "BadSize", "! allocate 17 a"),
    Row("allocated with 127 locations", "BadSize", "! allocate 127 a"),
    Row("another thread releases", "not_held", LOCK + "! 1:release 0 5"),
    Row("released without a reference", "not_held", "! release 0 5; acquire 0 6; begin_remove 0 6; drained 0"),
    Row("removal begins without a reference", "not_held", "! begin_remove 0 5; drained 0"),
    Row("removal begins twice", "already_removing", LOCK + "acquire 0 6; begin_remove 0 5; ! begin_remove 0 6; drained 0"),
]


def value_of(key, text):
    return SETTINGS[text] if key == "set" else text if key in ("as", "irp") or text == "o" else int(text)


def step_of(text):
    """Returns a step of a text such as `1:release 0 5`."""
    words = text.split()
    seat, _, do = words[0].rpartition(":")
    return {"seat": int(seat or 0), "do": do, **{key: value_of(key, it) for key, it in zip(KEYS[do].split(), words[1:])}}


def script_of(row):
    """Returns the script, and the place of the step that is refused."""
    texts = [it.strip() for it in row.steps.split(";")]
    place = next(k for k, it in enumerate(texts) if it.startswith("!"))
    setup = [step_of(it) for it in DEVICES.split("; ") if it]
    return dict(TABLES, setup=setup, steps=[step_of(it.lstrip("! ")) for it in texts]), place
