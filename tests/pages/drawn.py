#!/usr/bin/env python3
"""Draws a page of each example, and looks at it; compares what it says with `irp text`; and checks what some pages have to
say, worked out from docs/RULES.md and from their scripts. IRP_VIEW names irp_view. Prints a line for each failure, and as the
last one `tried: COUNT WRONG pages`."""

import glob
import os
import re
import sys

HERE = os.path.dirname(os.path.abspath(__file__))
TOP = os.path.dirname(os.path.dirname(HERE))
sys.dont_write_bytecode = True
sys.path[:0] = [HERE, TOP + "/page", TOP + "/bin"]
import drawing  # noqa: E402 (the path is set above)
import entries  # noqa: E402
import looked  # noqa: E402
import parts  # noqa: E402
import said  # noqa: E402
import story as stories  # noqa: E402
import whole  # noqa: E402

EXAMPLES = TOP + "/examples"
# What a page has to say, and what it may not: by the example's name.
SAYS = {
    "practice/two_devices": (["<h2>Legal</h2>", "IoCreateDevice(disk, remove lock 0)", "D1 top", "IRP 0.1 a", "seen: go on"],
                             ["driver 1", "in their own order", 'data-bad="1"', "bad"]),
    "why/shown_the_location_below_a_skip": (["<h2>Illegal</h2>", "No manager can have made this entry", "This step is wrong",
                                             'id="m5-2"', "From here on nothing is judged"], ["<h2>Legal"]),
    "practice/completed_twice": (["<h2>Legal, 2 calls refused</h2>", "refused: Ended", "MULTIPLE_IRP_COMPLETE_REQUESTS"],
                                 ["Illegal", "<h2>Legal</h2>"]),
    "why/completed_twice": (["<h2>Illegal</h2>", "What the manager makes of this call: <b>refused: Ended</b>"], []),
    "removal/a_reference_is_handed_over_with_its_packet": (["hands over remove lock 0"], []),
}
# Steps on locks that stand where the script has them: behind which entry, by the example's name.
STEPS = {"practice/two_devices": [(0, 2), (6, 7)]}


def page_of(path, **options):
    """Returns a history and its page."""
    with open(path, "rb", buffering=0) as file:
        history, _ = drawing.history_of(file, path)
    return history, whole.Page(history, "a page", whole.Chosen(**options)).html()


def wrong_example(path):
    """Yields a line for each fault of an example's page."""
    with open(path, "rb", buffering=0) as file:
        plain, _ = drawing.history_of(file, None)
        history, _ = drawing.history_of(file, path)
    rows = entries.Rows(plain, [0], False)
    if [it["n"] for it in plain.entries] == list(range(len(plain.entries))):  # not where the numbers themselves are wrong
        yield from said.differences(drawing.view_program(), path, [rows.line(("entry", n)) for n in range(len(plain.entries))])
    page = whole.Page(history, "a page", whole.Chosen()).html()
    yield from (f"{path}: {it}" for it in looked.faults_of(page))
    if page.count('<li class="e') < len(history.entries) and len(history.entries) < whole.MANY:
        yield f"{path}: an entry has no row"
    if "<style" not in page:
        yield f"{path}: it has no style"
    uses = [it for it in history.packets if it[0] < 2 ** 32 - 1]
    for use in uses[:2]:
        own = whole.Page(history, "a page", whole.Chosen(packet=use)).html()
        yield from (f"{path}: IRP {use}: {it}" for it in looked.faults_of(own))
        if len(re.findall(r'<li class="e[^"]*" id="e\d+"', own)) != len(history.packets[use].entries):
            yield f"{path}: IRP {use}: other entries than those about it"


def wrong_sayings():
    """Yields a line for what a page has to say and doesn't."""
    for name, (wanted, unwanted) in SAYS.items():
        _, page = page_of(f"{EXAMPLES}/{name}.transcript")
        body = re.sub(r"<style>.*?</style>|<script>.*?</script>|<section class=\"key\">.*?</section>", "", page, flags=re.S)
        yield from (f"{name}: it doesn't say {it}" for it in wanted if it not in body)
        yield from (f"{name}: it says {it}" for it in unwanted if it in body)
    for name, places in STEPS.items():
        history, _ = page_of(f"{EXAMPLES}/{name}.transcript")
        for step, entry in places:
            at = history.rows.index(("step", step))
            if history.rows[at - 1] != ("entry", entry):
                yield f"{name}: step {step} stands behind {history.rows[at - 1]}, not behind entry {entry}"


def wrong_colours():
    return list(looked.faults_of_colours(parts.text_of("page.css")))


def main():
    paths = sorted(glob.glob(EXAMPLES + "/*/*.transcript"))
    tried, wrong = 0, [*wrong_colours(), *wrong_sayings()]
    for path in paths:
        try:
            wrong += wrong_example(path)
            tried += 1
        except stories.Untold as why:
            if why.status != 1:  # a transcript that is refused has no page
                wrong.append(f"{path}: {why}")
    for it in wrong:
        print(f"failed: {it}")
    print(f"tried: {tried + len(SAYS) + len(STEPS) + 1} {len(wrong)} pages")
    return 1 if wrong else 0


if __name__ == "__main__":
    sys.exit(main())
