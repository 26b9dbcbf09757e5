"""What machines read of runs: files of JUnit's, in JSON and in SARIF, and lines of the Test Anything Protocol."""

import html
import json
import os
import re
import urllib.parse

import folders
import host_files


class Case:
    """One run or one named test: how long it took, and what is wrong with it, as lines."""

    def __init__(self, name, seconds, wrong):
        self.name, self.seconds, self.wrong = name, seconds, wrong


class Found:
    """What some runs gave: their cases, what they came to, and what never ran or came, by kinds."""

    def __init__(self, cases, covered, never):
        self.cases, self.covered, self.never = cases, covered, never

    def join(self, other):
        """Takes what other runs gave."""
        self.cases += other.cases
        self.covered.join(other.covered)
        for kind, names in other.never.items():
            self.never[kind] = names if kind not in self.never else sorted(set(names) & set(self.never[kind]))


def text_of(words):
    """Returns words as XML has them, within quotes too: characters that it can't have are left out."""
    return html.escape("".join(it for it in words if it >= " " or it in "\t\n"))


def situation_lines(suite, found, strict):
    """Returns a test case for each situation: one that wasn't made is skipped, or fails."""
    lines = []
    for name, is_made, why in found.covered.rows():
        begin = f'  <testcase classname="{text_of(suite)}.situations" name="{text_of(name)}" time="0.000"'
        kind = "failure" if strict else "skipped"
        lines.append(begin + ("/>\n" if is_made else f'>\n    <{kind} message="not made: {text_of(why)}"/>\n  </testcase>\n'))
    return lines


def write_junit(path, suite, found, strict):
    """Writes a file as test servers read it: one suite, a test case for each run and for each situation; and what never ran."""
    cases, unmade = found.cases, len(found.covered.unmade())
    bad = sum(bool(it.wrong) for it in cases) + (unmade if strict else 0)
    with open(path, "w", encoding="utf-8") as out:
        out.write('<?xml version="1.0" encoding="UTF-8"?>\n')
        out.write(f'<testsuite name="{text_of(suite)}" tests="{len(cases) + len(found.covered.rows())}" failures="{bad}" '
                  f'skipped="{0 if strict else unmade}" time="{sum(it.seconds for it in cases):.3f}">\n')
        for it in cases:
            out.write(f'  <testcase classname="{text_of(suite)}" name="{text_of(it.name)}" '
                      f'time="{it.seconds:.3f}"')
            if it.wrong:
                out.write(f'>\n    <failure message="{text_of(it.wrong[0])}">'
                          f'{text_of(chr(10).join(it.wrong))}</failure>\n  </testcase>\n')
            else:
                out.write("/>\n")
        out.writelines(situation_lines(suite, found, strict))
        never = [f"{kind} that never ran or came: {', '.join(names)}" for kind, names in found.never.items() if names]
        if never:
            out.write(f"  <system-out>{text_of(chr(10).join(never))}</system-out>\n")
        out.write("</testsuite>\n")


def write_json(path, status, found):
    """Writes the same for a program."""
    situations = [{"name": name, "made": is_made, **({} if is_made else {"because": why})}
                  for name, is_made, why in found.covered.rows()]
    apart = [{"name": name, "because": why} for name, (state, why) in found.covered.situations.items() if state == "apart"]
    runs = [{"name": it.name, "seconds": round(it.seconds, 3), "wrong": it.wrong} for it in found.cases]
    with open(path, "w", encoding="utf-8") as out:
        json.dump({"status": status, "runs": runs, "situations": situations, "not_asked_for": apart, "never": found.never},
                  out, indent=1)
        out.write("\n")


def tap_lines(cases):
    """Returns the lines of TAP, version 13: a plan, then `ok` or `not ok` for each case, with what is wrong below."""
    lines = ["TAP version 13", f"1..{len(cases)}"]
    for number, it in enumerate(cases, 1):
        lines.append(f"{'not ok' if it.wrong else 'ok'} {number} - {it.name.replace('#', ' ')}")
        lines += [f"# {part}" for wrong in it.wrong for part in wrong.splitlines()]
    return lines


FAULT = re.compile(r"(?:host: FAULT )?([A-Z]\w+)(?: \((.*?)\))?: (.*?)(?: \[before entry (\d+)\])?$")
PLACE = re.compile(r"(?P<file>[^\s:;,()]+\.\w+):(?P<line>\d+)(?: \([^()]*\))?(?: in (?P<function>\w+))?")
OTHER = "NotClean"  # the rule of what is wrong and has no line of the host's: a crash, an illegal record


def headers_beside(sources):
    """Returns the headers in the folders of the sources."""
    above = sorted({os.path.dirname(it) or "." for it in sources})
    return [os.path.join(at, it) for at in above for it in sorted(os.listdir(at)) if it.endswith(".h")]


class Sources:
    """The files that a run is made of, by the names that the host tells."""

    def __init__(self, files):
        self.first = files[0]
        self.known = {os.path.basename(it): it for it in reversed(files + headers_beside(files))}

    def physical(self, path, line=None):
        """Returns a place in a file as SARIF has it: by the way from where `run` was called, if it is below."""
        uri = os.path.relpath(path)
        uri = "file://" + urllib.parse.quote(os.path.abspath(path)) if uri.startswith("..") else urllib.parse.quote(uri)
        return {"artifactLocation": {"uri": uri}, **({"region": {"startLine": int(line)}} if line else {})}

    def location(self, it):
        """Returns where a place is that was told: in a driver, in a test or in the host."""
        path = self.known.get(it["file"]) or host_files.path(it["file"])
        made = {"physicalLocation": self.physical(path, max(int(it["line"]), 1))}
        return {**made, "logicalLocations": [{"name": it["function"], "kind": "function"}]} if it["function"] else made

    def locations(self, told):
        """Returns where a fault is, and the other places that its line has, each with what is said of it."""
        places = list(PLACE.finditer(told))
        main = next((it for it in places if it["file"] in self.known), None)
        related, begin = [], 0
        for it in places:
            words, begin = re.split(r"[,;:()]", told[begin:it.start()])[-1].strip(), it.end()
            if it is not main:
                about = {"id": len(related) + 1, "message": {"text": words or "at"}}
                related.append({**about, **self.location(it)})
        return self.location(main) if main else {"physicalLocation": self.physical(self.first)}, related


def results_of(cases, sources):
    """Returns SARIF's results: one for each rule and place, with the runs that have it; and the rules, each once."""
    results, rules = {}, {}
    for case in cases:
        faults = [it for it in map(FAULT.match, case.wrong) if it]
        for line in [it[0] for it in faults] or case.wrong:
            it = FAULT.match(line)
            rule, known, told, entry = it.groups() if it else (OTHER, None, line, None)
            rules.setdefault(rule, f"{rule} ({known})" if known else rule)
            place, related = sources.locations(told)
            made = results.setdefault((rule, json.dumps(place)), {
                "ruleId": rule, "ruleIndex": list(rules).index(rule), "level": "error", "message": {"text": told},
                "locations": [place], **({"relatedLocations": related} if related else {}), "occurrenceCount": 0,
                "properties": {"runs": [], **({"entry": int(entry)} if entry else {})}})
            made["occurrenceCount"] += 1
            if case.name not in made["properties"]["runs"]:
                made["properties"]["runs"].append(case.name)
    return list(results.values()), [{"id": it, "shortDescription": {"text": text}} for it, text in rules.items()]


def write_sarif(path, files, status, found):
    """Writes the faults as tools for review read them: SARIF 2.1.0. `files` are the drivers' and the test's."""
    results, rules = results_of(found.cases, Sources(files))
    version = folders.release().get("version")
    tool = {"name": "irp drive", **({"version": version} if version else {}), "rules": rules}
    run = {"tool": {"driver": tool}, "columnKind": "utf16CodeUnits", "results": results,
           "invocations": [{"executionSuccessful": True, "exitCode": status}]}
    with open(path, "w", encoding="utf-8") as out:
        json.dump({"$schema": "https://json.schemastore.org/sarif-2.1.0.json", "version": "2.1.0", "runs": [run]}, out, indent=1)
        out.write("\n")
