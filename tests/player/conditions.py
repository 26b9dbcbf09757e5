"""Conditions of steps: what a reply of the model is to them, and the words by which the player asks what the manager
answered."""

REFUSING_WORDS = ("seat_full", "not_held", "already_removing", "no_lock", "used", "not_standing", "no_slot", "no_token")
IFS = ["any", "never", "equals", "success", "some"]  # as in state.h
NOT = 256  # beside a kind
UNMET = "its condition asks about a step that is left out, and the model's reply doesn't meet it"
STATUSES = ("call_driver", "acquire")  # whose reply is a status


def is_refused(reply):
    return "refused" in reply if isinstance(reply, dict) else reply in REFUSING_WORDS


def is_answer(reply, wanted):
    """Whether a step's reply is the answer that a condition names, as docs/FORMATS.md says."""
    if wanted == "refused":
        return is_refused(reply)
    if isinstance(wanted, dict):
        return reply == wanted
    if wanted == "success":
        return isinstance(reply, dict) and "status" in reply and reply["status"] < 2**31
    if wanted == "routine":
        return isinstance(reply, dict) and reply.get("previous") is not None
    if wanted == "done":
        return reply in ("done", "ok")
    return reply == wanted or isinstance(reply, dict) and wanted in reply


def is_done(do):
    """Whether a step that was made is answered `done` or `ok`."""
    return do not in (*STATUSES, "create_device", "attach", "detach", "allocate", "reuse", "set_cancel_routine", "cancel",
                      "drained")


def asked_of(do, wanted):
    """Returns the kind and the value that the player compares its reply with, of a step that was made."""
    if isinstance(wanted, dict):
        key, value = next(iter(wanted.items()))
        if key == "previous" and do == "set_cancel_routine":
            return "equals", 0 if value is None else value + 1
        if key == "status" and do in STATUSES or key == "cancelled" and do == "cancel":
            return "equals", int(value)
        return "never", 0
    if wanted == "success" and do in STATUSES:
        return "success", 0
    if wanted == "routine" and do == "set_cancel_routine":
        return "some", 0
    if wanted in ("yes", "busy") and do == "drained":
        return "equals", int(wanted == "yes")
    return "any" if wanted == "done" and is_done(do) else "never", 0


def condition_words(do, kind, wanted):
    """Returns the last two words of a condition on a step that does `do`."""
    asks, value = asked_of(do, wanted)
    return IFS.index(asks) + NOT * (kind == "is_not"), value


def is_met(op, replies):
    """Whether the condition of an operation is met, where the operations before it were answered so (None: not made)."""
    place, kind, value = op[7:10] if len(op) > 7 else (0, 0, 0)
    if not place:
        return True
    reply = replies[place - 1]
    if reply is None:
        return False
    asks = IFS[kind & 255]
    is_so = {"any": True, "never": False, "equals": reply == value, "success": reply < 2**31, "some": reply != 0}[asks]
    return is_so != bool(kind & NOT)
