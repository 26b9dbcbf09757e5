"""Tests FILE.places, which the host leaves beside a transcript: names of drivers and functions, and each call's line."""

import importlib.machinery
import importlib.util
import json
import os
import re

import host_files
import places

HERE = os.path.dirname(os.path.abspath(__file__))
MOST_LINES = 4  # that one call in these sources has
WRAPPED = r"Wdm[A-Z]\w+"  # what wdm_test.h has makes calls for a test
OTHERS = {"IoCallDriver": "PoCallDriver|IoForwardIrpSynchronously"}  # that make a call too
NO_COMPLAINT = None


def reader():
    """Returns page/record.py as a module."""
    loader = importlib.machinery.SourceFileLoader("record", os.path.dirname(HERE) + "/page/record.py")
    module = importlib.util.module_from_spec(importlib.util.spec_from_loader("record", loader))
    loader.exec_module(module)
    return module


def sources_in(folder):
    """Returns the lines of each C file, by its name."""
    found = {}
    for name in os.listdir(folder):
        if name.endswith(".c"):
            with open(f"{folder}/{name}", encoding="utf-8") as it:
                found[name] = it.read().splitlines()
    return found


def function_at(lines, number):
    """Returns the function that the line stands in: the last one above it that begins at the margin."""
    heads = [re.match(r"\w[\w\s\*]*?\b(\w+)\(", it) for it in lines[:number]]
    return next((it[1] for it in reversed(heads) if it), None)


def wrong_place(sources, place):
    """Returns what is wrong with a place, or None. A file that isn't the sources' is the host's own."""
    lines = sources.get(place["file"])
    if lines is None:
        return NO_COMPLAINT if place["file"] in host_files.sources() else f"there is no {place['file']}"
    text = "\n".join(lines[max(place["line"] - MOST_LINES, 0):place["line"]])
    if not re.search(rf"\b({place['call']}|{OTHERS.get(place['call'], WRAPPED)}|{WRAPPED})\(", text):
        return f"{place['file']}:{place['line']} has no {place['call']}: {text}"
    function = function_at(lines, place["line"])
    if place.get("under") == place["function"]:
        return f"{place} is under itself"
    return NO_COMPLAINT if function == place["function"] else f"{place}, in {function}"


def words_in(transcript):
    """Returns the numbers of a transcript's steps on remove locks."""
    with open(transcript, encoding="utf-8") as it:
        return {line["step"] for line in map(json.loads, it.read().splitlines()[1:]) if "step" in line}


def wrong_places(sources, path, transcript):
    """Returns what is wrong with a file of places, or None."""
    with open(path, encoding="utf-8") as it:
        head, *lines = map(json.loads, it)
    entries = [it for it in lines if "n" in it]
    with open(transcript, encoding="utf-8") as it:
        made = [it for it in map(json.loads, it.read().splitlines()[1:]) if "n" in it]
    shapes = [(it["n"], len(it["asked"])) for it in made]
    if [(it["n"], len(it["asked"])) for it in entries] != shapes:
        return "it has other entries than the transcript"
    named = {it for names in (head["dispatches"], head["cancels"], *head["completions"]) for it in names}
    known = " ".join(" ".join(it) for it in sources.values())
    known += " ".join(map(host_files.text, host_files.sources()))
    missing = [it for it in named if not re.search(rf"\b{it}\b", known)]
    if missing:
        return f"no function is {missing[0]}"
    places = [place for it in entries for place in (it["by"], *it["asked"]) if place]
    places += [it["by"] for it in lines if "step" in it]
    if any(it["began"] > it["order"] for it in entries) or \
            [it["order"] for it in entries] != sorted({it["order"] for it in entries}):
        return "its entries aren't in the order in which they were recorded"
    if {it["step"] for it in lines if "step" in it} != words_in(transcript):
        return "it has other steps than the transcript"
    without = [it["n"] for it in entries if not it["by"]]
    if without or len(places) < len(entries):
        return f"entry {without[:1]} has no place"
    return next(filter(None, (wrong_place(sources, it) for it in places)), NO_COMPLAINT)


def tests(bench):
    """Gives a complaint for each run whose names or lines are wrong."""
    record = reader()
    for name, args, seed in (("samples", "", None), ("samples", "60", 3), ("shapes", "all all 2 140", 5)):
        folder = bench.folder(f"places of {name}")
        program = bench.build(folder, [f"{HERE}/{name}"])
        run = bench.run(folder, program, args=args, seed=seed)
        wrong = wrong_places(sources_in(f"{HERE}/{name}"), run.transcript + ".places", run.transcript)
        yield f"places of {name} {args}", wrong
        if args:
            continue
        with open(run.transcript, "rb") as it:
            text = it.read()
        found = record.Record(run.transcript + ".places", text).head["devices"]
        yield "the devices' drivers", NO_COMPLAINT if found == ["bus", "toaster", "filter"] else found
        said = places.with_lines("9 times (+0x1 in nowhere, called at +0x2 in none)", program)
        yield "a place without a line", NO_COMPLAINT if said == "9 times (in nowhere)" else said
        try:
            record.Record(run.transcript + ".places", text + b"\n")
            yield "places of another transcript", "they are taken"
        except record.Unfit as why:
            yield "places of another transcript", NO_COMPLAINT if "of another" in str(why) else str(why)
