"""Writes slides: one page of HTML, a slide as large as the window, or as a sheet of paper."""

import html

import moments
import plans
import texts

MOST_MOMENTS, MOST_LINES, MOST_CALLS = 12, 26, 6
# Of code: a line's height by its letters', the room that a slide has for lines, and the columns that fit where letters are largest.
LINE, MOST_REMS, MOST_COLUMNS = 1.32, 28, 86
STYLE = """
:root { color-scheme: light; --ink: #1b1f24; --soft: #57606a; --edge: #d0d7de; --paper: #fff; --lane: #f3f5f8; --down: #0b5394;
  --up: #0a6b57; --wait: #8a5000; --waitfill: #fff4dc; --bad: #b3161c; --badfill: #fdecec; --keep: #6a2c9c; --keepfill: #f5ecfc;
  --good: #0a6b57; --goodfill: #e7f6f1 }
html { font-size: min(2.05vw, 2.75vh); scroll-snap-type: y mandatory; scroll-padding: 0; }
body { max-width: none; margin: 0; padding: 0; font-size: 1rem; }
.slide { position: relative; width: 100%; height: 100vh; padding: 1.6rem 2rem 2.6rem; overflow: hidden; scroll-snap-align: start; }
.slide h1 { font-size: 1.7rem; margin: 0 0 .8rem; }
.slide footer { position: absolute; left: 2rem; right: 2rem; bottom: .8rem; color: var(--soft); font-size: .7rem;
  display: flex; justify-content: space-between; }
.slide p { margin: 0 0 .9rem; font-size: 1.25rem; }
.slide pre { margin: 0; background: var(--lane); padding: .6rem .8rem; overflow: hidden; }
.slide pre.code { line-height: LINE; white-space: pre-wrap; }
.slide pre.run { font-size: .95rem; white-space: pre-wrap; margin-bottom: .9rem; }
.cover { display: flex; flex-direction: column; justify-content: center; }
.cover h1 { font-size: 2.8rem; }
.question { border-left: .5rem solid var(--down); padding-left: 1rem; }
.calls { margin: 0 0 .8rem; padding: 0; list-style: none; font-size: .82rem; color: var(--soft); }
.calls .now { color: var(--ink); font-weight: 600; font-size: 1rem; }
.moment > .who, .moment > .call, .moment > .gives { font-size: 1.05rem; }
.moment svg { max-width: none; max-height: 62vh; }
.moment .move { grid-template-columns: minmax(0, 3fr) minmax(0, 2fr); }
.moment p, .moment .steps { font-size: .85rem; margin: .2rem 0; }
.moment { transform-origin: top left; }
.moment a { color: inherit; }
.moment .fault { color: var(--bad); font-weight: 600; overflow-wrap: anywhere; }
@page { size: 1024px 768px; margin: 0; }
@media print { html { font-size: 21px; } .slide { height: 768px; break-after: page; break-inside: avoid; } }
"""
KEYS = """
const slides = [...document.querySelectorAll('.slide')], steps = {ArrowRight: 1, ArrowDown: 1, PageDown: 1, ' ': 1, ArrowLeft: -1,
  ArrowUp: -1, PageUp: -1};
addEventListener('keydown', it => {
  if (!(it.key in steps)) return;
  it.preventDefault();
  const now = slides.findIndex(one => one.getBoundingClientRect().bottom > innerHeight / 2);
  slides[Math.min(Math.max(now + steps[it.key], 0), slides.length - 1)].scrollIntoView();
});
// A picture that is too large for its slide loses the calls before it, and is made smaller.
function fit() {
  for (const it of document.querySelectorAll('.moment')) {
    const calls = it.parentElement.querySelector('.calls'), end = it.parentElement.querySelector('footer').getBoundingClientRect().top;
    const room = () => (end - it.getBoundingClientRect().top) / it.getBoundingClientRect().height;
    it.style.transform = calls.style.display = '';
    if (room() < 1) calls.style.display = 'none';
    if (room() < 1) it.style.transform = `scale(${room()})`;
  }
}
addEventListener('load', fit);
addEventListener('resize', fit);
"""


def size_of(code):
    """Returns the size of letters, in rem, by which a slide shows a piece of code whole."""
    lines = sum(max(1, -(-len(it) // MOST_COLUMNS)) for it in code.split("\n"))
    return min(0.82, MOST_REMS / LINE / lines)


def code_slides(code):
    """Returns the slides' bodies that show code, by whole functions where these are short enough."""
    parts, held = [], ""
    for it in code.split("\n\n"):
        joined = f"{held}\n\n{it}" if held else it
        if held and joined.count("\n") >= MOST_LINES:
            parts, joined = [*parts, held], it
        held = joined
    return [f'<pre class="code" style="font-size: {size_of(it):.2f}rem">{html.escape(it)}</pre>' for it in (*parts, held)]


def moment_slides(found):
    """Returns the slides' bodies of moments: the calls before, and the picture of this one."""
    made = []
    for at, it in enumerate(found[:MOST_MOMENTS]):
        before = "".join(f"<li>{one.number}: {one.call}</li>" for one in found[max(0, at - MOST_CALLS):at])
        made.append(f'<ol class="calls">{before}</ol><div class="moment entries">{it.picture}</div>')
    return made


def of_lesson(number):
    """Returns a lesson's slides, each a title and a body, and the style of its pictures."""
    shown = moments.of(number)
    before, command, question, more = texts.parts_of(number)
    title = texts.title_of(number)
    slides = [(title, "".join(f"<p>{it}</p>" for it in before))]
    if number not in plans.FILES:
        slides += [("What is wrong here?", it) for it in code_slides(texts.excerpt(number))]
    slides.append(("Run it", f'<pre class="run">$ {html.escape(command)}</pre><pre class="run">{html.escape(shown.said)}</pre>'))
    found = moment_slides(shown.moments)
    slides += [(f"{shown.name}: moment {at} of {len(found)}", it) for at, it in enumerate(found, 1)]
    slides.append(("Think", f'<p class="question">{question}</p>' + "".join(f"<p>{it}</p>" for it in more)))
    return [(f"Lesson {title}", *it) for it in slides], shown.style


def page_of(lessons):
    """Returns the page with the slides of these lessons."""
    made = [of_lesson(it) for it in lessons]
    slides = [it for its, _ in made for it in its]
    parts = ['<section class="slide cover"><h1>Driver stacks</h1><p>' + "<br>".join(
        html.escape(texts.title_of(it)) for it in lessons) + "</p></section>"]
    parts += [f'<section class="slide" id="s{at}"><h1>{html.escape(head)}</h1>{body}<footer><span>{html.escape(foot)}</span>'
              f"<span>{at} of {len(slides)}</span></footer></section>" for at, (foot, head, body) in enumerate(slides, 1)]
    style = next((it for _, it in made if it), "")
    shapes = ('<svg class="shapes" aria-hidden="true"><defs><path id="down" d="M0 0l-5 -8h10z"/>'
              '<path id="up" d="M0 0l-5 8h10z"/></defs></svg>')
    return ('<!DOCTYPE html>\n<html lang="en"><head><meta charset="utf-8"><title>Driver stacks</title>'
            f"<style>{style}{STYLE.replace('LINE', str(LINE))}</style></head>\n<body>{shapes}\n" + "\n".join(parts) + f"\n<script>{KEYS}</script></body></html>\n")
