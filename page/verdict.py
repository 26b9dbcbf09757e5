"""Whether all is right: three voices, the host, the checker and the manager. The headline is the worst of them."""

from collections import defaultdict

import words as wording
from parts import Html, counted, joined, link, part, when

MOST_LINKS = 6


class Voice:
    """What one of them says: bad, good, or none where it doesn't decide."""

    def __init__(self, css, who, text):
        self.css, self.who, self.text = css, who, text

    def html(self):
        return part("voice", css=self.css, who=self.who, text=self.text)


def of_host(history):
    """What the host says, or None where no host made the run."""
    host = history.host
    if not host:
        return None
    faults = sum(it.times for it in host.faults)
    kinds = ", ".join(dict.fromkeys(it.name for it in host.faults))
    said = [part("faults_said", count=counted(faults, "fault"), kinds=kinds) if faults else "no fault"]
    said += [f"; {it}" for it in host.run.get("complaints", [])]
    said += [f"; note, {it}" for it in host.notes[:3]]
    is_bad = faults or host.run.get("complaints")
    return Voice("bad" if is_bad else "good", "The host", joined([*said, ". Its word isn’t proved."]))


def of_checker(history, is_clean):
    """What the checker says. That a history is legal decides nothing where another voice objects."""
    at, count = history.story.wrong_at, counted(len(history.entries), "entry", "entries")
    if at is not None:
        text = joined([link(f"e{at}", f"entry {at}"),
                       " is the first that no manager can have made. Behind it nothing is judged."])
        return Voice("bad", "The checker", text)
    but = "" if is_clean else "; that doesn’t say that the drivers are right"
    return Voice("good" if is_clean else "none", "The checker", f"legal: a manager can have made all {count}{but}.")


def links_to(numbers):
    more = f" and {len(numbers) - MOST_LINKS} more" if len(numbers) > MOST_LINKS else ""
    return joined([joined([link(f"e{it}", it) for it in numbers[:MOST_LINKS]], ", "), more])


def of_manager(history):
    """What the manager refused, or None."""
    refused = history.refusals()
    expected = [n for n, it in enumerate(history.facts) if it.refused and n not in set(refused)]
    if not refused and not expected:
        return None
    by_name = defaultdict(list)
    for number in refused:
        by_name[history.facts[number].refused].append(number)
    text = joined([joined([f"{name} ", links_to(its)]) for name, its in by_name.items()], "; ")
    said = joined([f"refused {counted(len(refused), 'call')}: ", text]) if refused else "refused only what the test expects"
    more = joined([f"; {counted(len(expected), 'refusal')} that the test expects"]) if refused and expected else ""
    return Voice("bad" if refused else "none", "The manager", joined([said, more, "."]))


def of_steps(history):
    """Which steps on locks and slots failed, where no host tells of them; or None."""
    failed = [it for it in history.steps.values() if wording.is_failed(it)]
    if not failed or history.faults:
        return None
    names = ", ".join(sorted({it["reply"] for it in failed}))
    return Voice("bad", "The steps", f"{counted(len(failed), 'step')} on remove locks or cancel slots failed: {names}.")


def headline(history, voices):
    """Returns the headline."""
    if voices["host"] and voices["host"].css == "bad":
        return "Not clean"
    if history.story.wrong_at is not None:
        return "Illegal"
    failed = len([it for it in history.steps.values() if wording.is_failed(it)]) if voices["steps"] else 0
    more = [f"{counted(len(history.refusals()), 'call')} refused"] if history.refusals() else []
    more += [f"{counted(failed, 'step')} on locks or slots failed"] if failed else []
    return ", ".join(["Legal", *more]) if more or not history.host else "Clean"


def html(history):
    """Returns the block of the three voices."""
    voices = {"host": of_host(history), "manager": of_manager(history), "steps": of_steps(history)}
    objects = any(it and it.css == "bad" for it in voices.values())
    voices["checker"] = of_checker(history, not objects)
    objects = objects or voices["checker"].css == "bad"
    said = [voices[it] for it in ("host", "checker", "manager", "steps") if voices[it]]
    return part("verdict", css="bad" if objects else "good", head=headline(history, voices),
                voices=joined(it.html() for it in said))


# ---- faults

def mark_of(fault):
    """Returns the mark of the row that shows a fault."""
    return f"e{fault.of[1]}" if fault.of and fault.of[0] == "entry" else f"f{fault.number}"


def head_of(fault):
    known = part("known", text=fault.known) if fault.known else ""
    times = part("times", text=f"{fault.times} times at this place") if fault.times > 1 else ""
    return part("fault_head", number=fault.number, name=fault.name, known=known, times=times)


def text_of(fault):
    """Returns what the host says of a fault, and where."""
    call = fault.by.get("call", "")
    where = fault.where.removesuffix(f": {call}") if call else fault.where
    packet = f" of IRP {fault.packet[0]}.{fault.packet[1]}" if fault.packet else ""
    chain = joined([part("caller", text=it) for it in where.split(", called at ")], " ← ")
    return part("fault_text", call=f"{call}{packet}: " if call else "", said=fault.said, chain=chain)


def list_of_faults(history, chosen):
    """Returns the section of the faults, or nothing."""
    items = [part("fault", head=joined([head_of(it), " ", link(mark_of(it), place_of(history, it))]), text=text_of(it))
             for it in chosen]
    details = joined(part("detail", text=it) for it in dict.fromkeys(history.host.details)) if history.host else ""
    return part("faults", items=joined(items), details=when(details, "details", items=details)) if items else Html("")


def place_of(history, fault):
    """Returns where a fault stands among the entries."""
    if fault.of and fault.of[0] == "entry":
        return f"at entry {fault.of[1]}"
    rows = history.host.rows
    behind = next((n for kind, n in rows[rows.index(("fault", fault.number - 1)):] if kind == "entry"), None)
    return "behind the last entry" if behind is None else f"before entry {behind}"
