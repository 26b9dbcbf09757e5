"""Who stood where: the devices, top first, and which dispatch takes which majors."""

from collections import defaultdict

from parts import Html, counted, joined, link, part
from tables import MAJORS, major

FEW_DEVICES = 6   # above that, those with one table share a row
MANY_MAJORS = 4   # a dispatch that takes more is told once, as that of all others
MOST_STACKS = 24
MANY_ROWS = 8     # a table with more stands behind a line


def table_of(history, device):
    """Returns which dispatch takes which majors of a device."""
    drivers, driver = history.story.header["drivers"], history.driver_of[device]
    by_dispatch = defaultdict(list)
    for code, dispatch in drivers[driver] if driver < len(drivers) else []:
        by_dispatch[dispatch].append(code)
    most = max(by_dispatch, key=lambda it: len(by_dispatch[it]), default=None)
    rest = most if most is not None and len(by_dispatch[most]) > MANY_MAJORS else None
    pieces = [part("majors", majors=", ".join(map(major, its)), dispatch=history.words.dispatch(it))
              for it, its in by_dispatch.items() if it != rest]
    if rest is not None:
        pieces.append(f"{others(by_dispatch, rest)}: {history.words.dispatch(rest)}")
    return joined(pieces, "; ") or "takes no packet"


def others(by_dispatch, rest):
    """Returns what the majors of a dispatch are called that takes many."""
    if len(by_dispatch) == 1:
        return "all"
    if sum(map(len, by_dispatch.values())) == len(MAJORS):
        return "all others"
    its = by_dispatch[rest]
    return f"{len(its)} others ({', '.join(map(major, its[:5]))}, ..)"


def numbers_of(devices):
    """Returns devices as text: several whose numbers follow each other from the first to the last."""
    spans = []
    for it in sorted(devices):
        if spans and spans[-1][1] == it - 1:
            spans[-1][1] = it
        else:
            spans.append([it, it])
    return ", ".join(f"D{first}" if first == last else f"D{first}–D{last}" if last > first + 1 else f"D{first}, D{last}"
                     for first, last in spans)


def row(history, devices):
    """Returns the row of a device, or of several that have one table."""
    first, names = devices[0], history.names
    deleted = joined(part("deleted", number=history.deleted[it]) for it in devices if it in history.deleted) \
        if len(devices) == 1 else ""
    driver = names.drivers.get(history.driver_of[first])
    of = part("of_driver", name=driver) if driver else ""
    name = history.words.device(first) if len(devices) == 1 else \
        f"{numbers_of(devices)} {names.devices.get(first) or ''}"
    return part("device", name=name, table=table_of(history, first), of=of, deleted=deleted)


def chains_of(history, order):
    """Returns the stacks, each from its top down."""
    chains, seen = [], set()
    for device in order:
        if device in seen or device in history.below.values():
            continue
        chain = [device]
        while chain[-1] in history.below:
            chain.append(history.below[chain[-1]])
        seen |= set(chain)
        chains.append(chain)
    return chains


def chain_text(history, chain):
    gone = joined([joined([f"D{it} in ", link(f"e{history.deleted[it]}", history.deleted[it])])
                   for it in chain if it in history.deleted], ", ")
    return joined([" on ".join(f"D{it}" for it in chain), joined([" (deleted: ", gone, ")"]) if gone else ""])


def html(history, used=None):
    """Returns the section: of all devices, or of those that a packet came to."""
    order = [it for it in history.order if used is None or it in used]
    rows = defaultdict(list)
    for device in order:
        key = (history.names.devices.get(device) or "", table_of(history, device)) if len(order) > FEW_DEVICES else device
        rows[key].append(device)
    if not rows:
        return Html("")
    stacks = Html("")
    if len(order) > FEW_DEVICES:
        chains = chains_of(history, order)[::-1]
        more = f"; {len(chains) - MOST_STACKS} more" if len(chains) > MOST_STACKS else ""
        texts = joined([chain_text(history, it) for it in chains[:MOST_STACKS]], "; ")
        stacks = part("stacks", count=counted(len(chains), "stack"), texts=joined([texts, more]))
    table = part("device_table", rows=joined(row(history, its) for its in rows.values()))
    if len(rows) > MANY_ROWS:
        table = part("folded_devices", count=counted(len(order), "device"), table=table)
    return part("devices", title="The packet’s devices" if used is not None else "Devices", stacks=stacks, table=table)
