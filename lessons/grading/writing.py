"""Writes what became of a class: a row a student in CSV, and a page."""

import csv
import html
import io

# What each result means, as the page says it.
MEANS = {"right": "it is right", "not yet": "a run tells a fault, or shows too little", "untried": "it can't be compiled or run",
         "time": "its time was up", "processes": "it started too many processes", "memory": "it took too much memory"}
STYLE = """body { font: 16px/1.4 sans-serif; margin: 2em; }
table { border-collapse: collapse; margin-bottom: 1.2em; }
th, td { border: 1px solid #999; padding: .2em .6em; text-align: left; }
.right { background: #cfe8cf; }
.not, .untried { background: #f4e3b5; }
.time, .processes, .memory { background: #f0c6c0; }
pre { white-space: pre-wrap; background: #f4f4f4; padding: .6em; }
@media print { details > * { display: block; } }"""


def sheet(students, results, lessons, how):
    """Returns the rows: a student, a result for each lesson, how many are right, and how they were run."""
    out = io.StringIO()
    rows = csv.writer(out, lineterminator="\n")
    rows.writerow(["student", *lessons, "right", "run"])
    for it in students:
        words = [results[it.name, n].word if (it.name, n) in results else "" for n in lessons]
        rows.writerow([it.name, *words, words.count("right"), how])
    return out.getvalue()


def cell(result):
    if result is None:
        return "<td></td>"
    return f'<td class="{result.word}">{result.word}<br><small>{result.seconds:.0f} s</small></td>'


def told(student, results, lessons):
    """Returns what was told of a student's files."""
    parts = [f"<h3>Lesson {n}: {results[student.name, n].word}</h3><pre>{html.escape(results[student.name, n].said.strip())}</pre>"
             for n in lessons if (student.name, n) in results]
    parts += [f"<p>Not graded: {html.escape(path)}: {html.escape(why)}.</p>" for path, why in student.others.items()]
    return f"<details><summary>{html.escape(student.name)}</summary>{''.join(parts)}</details>"


def page(students, results, lessons, how):
    """Returns the page."""
    head = "".join(f"<th>{it}</th>" for it in ("Student", *lessons, "Right"))
    rows = ""
    for it in students:
        its = [results.get((it.name, n)) for n in lessons]
        rows += (f"<tr><td>{html.escape(it.name)}</td>{''.join(map(cell, its))}"
                 f"<td>{sum(one is not None and one.word == 'right' for one in its)}</td></tr>\n")
    means = "".join(f'<tr><td class="{word}">{word}</td><td>{what}</td></tr>' for word, what in MEANS.items())
    return (f'<!DOCTYPE html>\n<html lang="en"><head><meta charset="utf-8"><title>Grades</title><style>{STYLE}</style></head>\n'
            f"<body><h1>Grades</h1>\n<p>{html.escape(how)}. A file's code can forge its own result: read what you grade.</p>\n"
            f"<table><tr>{head}</tr>\n{rows}</table>\n<table><tr><th>Result</th><th>Means</th></tr>{means}</table>\n"
            f"<h2>What was told</h2>\n{''.join(told(it, results, lessons) for it in students)}\n</body></html>\n")
