"""Takes the order apart that `irp orders --right` shows: a moment for each step that was answered, with who has the packet then."""

import collections
import html
import re

import judging

Step = collections.namedtuple("Step", "number seat does answer")
STEP = re.compile(r"(?m)^    step (\d+)  seat (\d+): (.*?) -> (.*)$")
MIDDLE, TOP, WIDE, HIGH = (110, 330, 550), 30, 660, 190


def seats_of(path):
    """Returns the names of a protocol's seats."""
    line = next(it for it in judging.steps_of(path) if it.startswith("seats "))
    return line.split()[1:]


def places_of(steps):
    """Returns where the packet is behind each step: a seat's number, or None for the cancel slot; and whether it has ended, and
    whether somebody has asked for it."""
    place, has_ended, is_asked = 0, False, False
    found = []
    for it in steps:
        is_asked |= it.does.startswith("requests")
        has_ended |= it.does.startswith("IoCompleteRequest") and it.answer == "done"
        if it.answer.startswith("took "):
            place = it.seat
        elif it.answer.startswith("standing"):
            place = None
        found.append((place, has_ended, is_asked))
    return found


def lane(name, at, is_now):
    """Returns a lane of the picture: a name above a line."""
    weight = ' font-weight="700"' if is_now else ""
    return (f'<text x="{at}" y="18" text-anchor="middle"{weight}>{html.escape(name)}</text>'
            f'<line x1="{at}" y1="{TOP}" x2="{at}" y2="{HIGH - 24}" stroke="var(--edge)" stroke-width="2"/>')


def packet(at, has_ended):
    """Returns the packet of the picture, in a lane."""
    fill, edge, text = ("good", "good", "has ended") if has_ended else ("keep", "keep", "has the read")
    return (f'<rect x="{at - 62}" y="120" width="124" height="34" rx="6" fill="var(--{fill}fill)" stroke="var(--{edge})"/>'
            f'<text x="{at}" y="142" text-anchor="middle">{text}</text>')


def picture(seats, step, after):
    """Returns the picture behind a step, or before the first: a lane for each seat, and one for the slot between them."""
    place, has_ended, is_asked = after
    lanes = [(seats[0], MIDDLE[0], step and step.seat == 0), ("cancel slot", MIDDLE[1], False),
             (seats[1], MIDDLE[2], step and step.seat == 1)]
    parts = [lane(*it) for it in lanes]
    if step and "cancel slot" in step.does:
        low, high = sorted((MIDDLE[2 * step.seat], MIDDLE[1]))
        parts.append(f'<line x1="{low}" y1="76" x2="{high}" y2="76" stroke="var(--down)" stroke-width="2"/>'
                     f'<text x="{(low + high) / 2}" y="66" text-anchor="middle">{step.does.split()[0]}</text>'
                     f'<text x="{(low + high) / 2}" y="96" text-anchor="middle">{html.escape(step.answer.partition(":")[0])}</text>')
    if is_asked:
        parts.append(f'<text x="{MIDDLE[1]}" y="{HIGH - 2}" text-anchor="middle" fill="var(--bad)">a cancel was asked for</text>')
    parts.append(packet(MIDDLE[1] if place is None else MIDDLE[2 * place], has_ended))
    return f'<svg viewBox="0 0 {WIDE} {HIGH}" width="100%" font-size="15" fill="var(--ink)">{"".join(parts)}</svg>'


def moments_of(path, said):
    """Returns the moments of the order that is shown of a protocol with two seats and one slot, each as a number, a call and a
    picture; none where none is shown. The first one is that before the steps."""
    steps = [Step(int(number), int(seat), does, answer) for number, seat, does, answer in STEP.findall(said)]
    if not steps:
        return []
    seats = seats_of(path)
    found = [(0, "setup", f'<p class="call">Before the steps: the driver has the read.</p>{picture(seats, None, (0, False, False))}')]
    for at, (it, after) in enumerate(zip(steps, places_of(steps)), 1):
        call = f"{seats[it.seat]}: {it.does} → {it.answer}"
        found.append((at, html.escape(call), f'<p class="call">{html.escape(call)}</p>{picture(seats, it, after)}'))
    wrong = "".join(f"<p>{html.escape(it)}</p>" for it in re.findall(r"(?m)^wrong: .*$", said))
    number, call, last = found[-1]
    found[-1] = (number, call, f"{last}<p>The other steps aren’t made: their conditions don’t hold.</p>{wrong}")
    return found
