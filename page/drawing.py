"""What `irp page` takes, and what it reads."""

import argparse
import os
import sys

import history as histories
import irp_reading
import record
import scripts
import story as stories
import usage
import whole

TOP = os.path.dirname(os.path.dirname(os.path.abspath(__file__)))


def view_program():
    """Returns the program that tells stories."""
    return os.environ.get("IRP_VIEW") or f"{TOP}/bin/irp_view"


def script_beside(path):
    """Returns the script in words, or in JSON, that stands beside a transcript under the same name, or None."""
    base = os.path.splitext(path)[0] if path else ""
    return next((base + it for it in (".words", ".script") if base and os.path.isfile(base + it)), None)


def read_script(path, header):
    """Returns a script, where its tables are those of the transcript's header; else None."""
    with open(path, encoding="utf-8", errors="replace") as it:
        text = it.read()
    try:
        script = scripts.Script(text)
    except (ValueError, KeyError, TypeError, IndexError):
        return None
    fits = len(script.drivers) in (0, len(header.get("drivers", []))) and \
        len(script.dispatches) in (0, len(header.get("dispatches", [])))
    return script if fits else None


def history_of(file, path, names=None):
    """Returns the history in an opened transcript, and what is to be told on standard error. `path` is where it stands."""
    story = stories.Story(view_program(), file)
    file.seek(0)
    host, told = record.read(path, file.read())
    named = names or script_beside(path)
    script = read_script(named, story.header) if named and not host else None
    if names and not host and not script:
        told = f"{names}: it isn't the script of this transcript: its names are left out"
    return histories.History(story, host, script, os.path.basename(named or "")), told


def page_of(file, path, options):
    """Returns the page of an opened transcript, and what is to be told on standard error."""
    history, told = history_of(file, path, options.names)
    packet = tuple(map(int, options.packet.split("."))) if options.packet else None
    if packet and packet not in history.packets:
        raise stories.Untold(f"irp page: no entry names IRP {options.packet}", 2)
    first, _, last = (options.entries or "..").partition("..")
    span = (int(first or 0), int(last or len(history.entries))) if options.entries else None
    title = options.title or history.host and history.host.run.get("title") or os.path.basename(path or "standard input")
    return whole.Page(history, title, whole.Chosen(span, packet)).html(), told


def write(text, path):
    if path is None:
        sys.stdout.reconfigure(encoding="utf-8", errors="replace")
        sys.stdout.write(text)
        return
    with open(path, "w", encoding="utf-8") as out:
        out.write(text)


def parser_of():
    parser = usage.Words(prog="irp page", formatter_class=argparse.RawDescriptionHelpFormatter)
    parser.add_argument("file", nargs="?")
    for name in ("--entries", "--packet", "--names", "--title"):
        parser.add_argument(name)
    parser.add_argument("-o", "--out")
    return parser


def main():
    options = parser_of().parse_intermixed_args()
    path = None if options.file in (None, "-") else options.file
    try:
        text, told = page_of(irp_reading.transcript("page", path), path, options)
    except stories.Untold as why:
        print(why, file=sys.stderr)
        return why.status
    if told:
        print(told, file=sys.stderr)
    write(text, options.out)
    return 0


