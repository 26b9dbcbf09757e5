#!/usr/bin/env python3
"""Opens ten pages in headless Chromium: no console message, no request, nothing wider than the window, dark and light, on
paper, each key, search, filters and folding, and all text without script. With a folder it opens those that `tests/look` left
there. CHROMIUM names the browser, IRP_VIEW and the others
the programs. Prints a line for each failure, and as the last one `tried: COUNT WRONG pages in a browser`."""

import os
import re
import sys
import tempfile

HERE = os.path.dirname(os.path.abspath(__file__))
sys.dont_write_bytecode = True
sys.path.insert(0, HERE)
import browser  # noqa: E402 (the path is set above)
import many  # noqa: E402
import ten  # noqa: E402

WIDTHS = (375, 1024, 1280)
FIRST_ENTRY = 1700  # pixels: a run's first entry comes within so many, where its whole run is drawn as a strip
# At most so many sheets of A4, where that matters: a page for a class, and a run of two thousand entries.
SHEETS = {"two_devices": 2, "one_packet": 3, "lesson_8": 24}
# Of a page with so many entries at most so many bytes, and so many seconds until it is open.
SIZES = {1000: (1.5e6, 5), 65536: (40e6, 5)}
# An expression of JavaScript for what is asked.
SHOWN = "[...document.querySelectorAll('#list .e')].filter(it => !it.hidden && !it.closest('[hidden]'))"
WIDER = "document.documentElement.scrollWidth > innerWidth"
TEXT = "document.querySelector('main').innerText.length"
MOST_LEFT = .02  # of the text that a closed block hides from `innerText`, and an open one doesn't


class Bench:
    """What was tried, and what failed."""

    def __init__(self, window, pages):
        self.window, self.pages, self.tried, self.wrong = window, pages, 0, 0

    def meets(self, what, is_so, more=""):
        self.tried += 1
        if not is_so:
            self.wrong += 1
            print(f"failed: {what}{f': {more}' if more != '' else ''}", flush=True)

    def asks(self, what, expression, wanted=True):
        value = self.window.value(expression)
        self.meets(what, value == wanted, "" if wanted is True else f"{value}, not {wanted}")

    def pressed(self, what, key, wanted, times=1):
        """Presses a key, and looks at the address that this leads to."""
        self.window.press(key, times)
        self.asks(f"{what}: {key}", "location.hash", wanted)


def sizes(bench, name, path):
    """Nothing is wider than the window, in the light, in the dark, and while a moment is shown."""
    window = bench.window
    for width in WIDTHS:
        for dark in (False, True):
            window.sized(width, 800, dark)
            window.open(path)
            scheme = f"{name}, {width} pixels{', dark' if dark else ''}"
            bench.asks(f"{scheme}: nothing is wider than the window", WIDER, False)
            bench.meets(f"{scheme}: the console says nothing, and nothing is asked for", not window.complaints(),
                        window.complaints())
        window.press("ArrowRight", 2)
        bench.asks(f"{name}, {width} pixels, a moment: nothing is wider", WIDER, False)
    window.sized(1280, 800)


def paper(bench, name, path):
    bench.window.open(path)
    text = bench.window.printed()
    sheets = len(re.findall(rb"/Type\s*/Page\b", text))
    bench.meets(f"{name}: {sheets} sheets of paper", 0 < sheets <= SHEETS.get(name, 60))


def without_script(bench, name, path):
    """All text is there without script: as much as with all open."""
    window = bench.window
    window.open(path)
    window.value("document.querySelectorAll('details').forEach(it => { it.open = true }); "
                 "document.querySelectorAll('.only').forEach(it => it.remove())")
    full = window.value(TEXT)
    window.scripted(False)
    window.open(path)
    window.value("document.querySelectorAll('details').forEach(it => { it.open = true })")
    bench.meets(f"{name}: without script all text is there", abs(window.value(TEXT) - full) <= MOST_LEFT * full)
    bench.asks(f"{name}: without script there is no bar", "document.querySelector('#bar') === null")
    window.scripted(True)


def names_and_focus(bench, name):
    """Whatever can be chosen has a name, and a keyboard comes to it."""
    bench.asks(f"{name}: each control has a name", "[...document.querySelectorAll('button, select, input, a[href], summary')]"
               ".filter(it => !(it.ariaLabel || it.textContent.trim() || it.querySelector('title'))).length", 0)
    bench.asks(f"{name}: nothing is taken from the keyboard", "document.querySelectorAll('[tabindex=\"-1\"]:not(#panel)').length", 0)


def keys(bench):
    """Each key, on the page of a race."""
    window, page = bench.window, bench.pages["a_race"]
    window.open(page)
    bench.pressed("the first step is the first row", "ArrowRight", "#at=e0")
    bench.pressed("j is a step", "j", "#at=e1")
    bench.pressed("back", "ArrowLeft", "#at=e0")
    bench.pressed("on, and k back", "k", "#at=e0")
    bad = "document.querySelectorAll('#list .e[data-bad]')"
    window.press("f")
    bench.asks("f goes to the first that is wrong", f"'#at=' + {bad}[0].id === location.hash")
    window.press("f")
    bench.asks("f goes to the next one", f"'#at=' + {bad}[1].id === location.hash")
    window.open(page, "#at=" + window.value(f"{bad}[0].id"))
    window.press("p")
    bench.asks("p leaves one packet", f"new Set({SHOWN}.map(it => it.dataset.p)).size", 1)
    window.press("p")
    bench.asks("p again leaves all", f"new Set({SHOWN}.map(it => it.dataset.p)).size > 1")
    window.press("t")
    bench.asks("t leaves one thread", f"new Set({SHOWN}.map(it => it.dataset.t)).size", 1)
    window.press("t")
    window.press("Escape")
    bench.asks("Escape closes the panel", "document.querySelector('#panel').hidden")
    window.press("o")
    bench.asks("o opens all", "[...document.querySelectorAll('#list .stack')].every(it => it.open)")
    window.press("o")
    bench.asks("o folds all", "[...document.querySelectorAll('#list .stack')].every(it => !it.open)")
    window.press("/")
    bench.asks("/ goes to the search", "document.activeElement.type", "search")


def moments(bench):
    """The projector's mode, and a moment beside the page."""
    window, page = bench.window, bench.pages["two_devices"]
    window.open(page, "#step=e5-2")
    bench.asks("a moment in large type", "document.body.classList.contains('large')")
    bench.asks("it shows its picture", "document.querySelectorAll('#panel svg').length", 1)
    bench.asks("its step is marked in the picture", "document.querySelector('#panel svg .now').getAttribute('href')", "#e5-2")
    bench.asks("it shows where the packet is", "document.querySelector('#panel .stack tbody tr:has(.on:not(:empty)) th').textContent +"
               "[...document.querySelectorAll('#panel .stack tbody .on')].map(it => it.textContent).join('')", "1●")
    bench.asks("nothing is wider", WIDER, False)
    bench.pressed("the arrow steps on", "ArrowRight", "#step=e5-3")
    bench.pressed("l shows the whole page", "l", "#at=e5-3")
    bench.pressed("l again is large", "l", "#step=e5-3")
    window.press("Escape")
    bench.asks("Escape ends it", "document.body.classList.contains('large')", False)


def choices(bench):
    """Search, filters and folding, on the page of a long run."""
    window, page = bench.window, bench.pages["lesson_8"]
    window.open(page)
    top = window.value("document.querySelector('#list').getBoundingClientRect().top + scrollY")
    bench.meets(f"the first entry comes at {top:.0f} pixels", top <= FIRST_ENTRY)
    rows = window.value("document.querySelectorAll('#list .e').length")
    window.value("(() => { const it = document.querySelector('#bar input'); it.value = 'ioreleaseremovelockandwait'; it.oninput() })()")
    bench.asks("a search leaves rows that have the words",
               f"{SHOWN}.every(it => it.textContent.toLowerCase().includes('ioreleaseremovelockandwait'))")
    shown = window.value(f"{SHOWN}.length")
    bench.meets("a search leaves some", 0 < shown < rows)
    bench.asks("what is found stands open", f"{SHOWN}.every(it => it.offsetHeight > 0)")
    window.value("(() => { const it = document.querySelector('#bar input'); it.value = ''; it.oninput() })()")
    bench.asks("without a search all rows are there", f"{SHOWN}.length", rows)
    window.value("[...document.querySelectorAll('#bar button')].find(it => it.textContent === 'only what is wrong').click()")
    bench.asks("only what is wrong", f"{SHOWN}.every(it => it.dataset.bad || it.querySelector('[data-bad]'))")
    window.value("[...document.querySelectorAll('#bar button')].find(it => it.textContent === 'only what is wrong').click()")
    window.value("(() => { const it = document.querySelector('select[data-by=d]'); it.selectedIndex = 1; it.onchange() })()")
    bench.asks("one device", f"{SHOWN}.every(it => it.querySelector('.e') || it.dataset.d.split(' ').includes("
               "document.querySelector('select[data-by=d]').value))")
    window.open(page, "#" + window.value("document.querySelector('#list .block:not([open]) .e[id]').id"))
    bench.asks("a link into a block opens it", "!!document.querySelector(location.hash).offsetHeight")


def busy():
    """Returns how many times as long something takes, since other programs run."""
    return max(1, os.getloadavg()[0] / os.cpu_count())


def large(bench, folder):
    """Pages of many entries: their bytes, and how long they take to open."""
    for count, (most_bytes, most_seconds) in SIZES.items():
        path = f"{folder}/many{count}"
        many.write(path + ".transcript", count)
        ten.irp("page", "-o", path + ".html", path + ".transcript")
        size = os.path.getsize(path + ".html")
        seconds = min(bench.window.open(path + ".html") for _ in range(3))
        bench.meets(f"{count} entries: {size} bytes", size <= most_bytes)
        bench.meets(f"{count} entries: {seconds:.1f} s to open", seconds <= most_seconds * busy())
        bench.asks(f"{count} entries: nothing is wider", WIDER, False)
        bench.meets(f"{count} entries: nothing is told", not bench.window.complaints())


def main():
    made = {it: f"{sys.argv[1]}/{it}.html" for it in ten.TEN} if sys.argv[1:] else None
    with tempfile.TemporaryDirectory() as folder, browser.Browser() as window:
        bench = Bench(window, made or ten.make(folder))
        for name, path in bench.pages.items():
            sizes(bench, name, path)
            paper(bench, name, path)
            names_and_focus(bench, name)
            without_script(bench, name, path)
        for it in (keys, moments, choices):
            it(bench)
        large(bench, folder)
    print(f"tried: {bench.tried} {bench.wrong} pages in a browser")
    return 1 if bench.wrong else 0


if __name__ == "__main__":
    sys.exit(main())
