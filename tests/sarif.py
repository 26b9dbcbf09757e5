"""Whether a file of `drivers/run --sarif` is what SARIF 2.1.0 asks for, and tells what it should.

usage: sarif.py FILE RULE DRIVER.c LINE [MESSAGE=LINE ..]

The file has just one result of RULE, at that line of the driver, with each related place. What the standard's own schema
asks for of the parts that are there (its required members, their types, the values of `level`) is checked by hand; where
python3-sarif-python-om is there, whose classes were made from that schema, each member's name is looked up in them."""

import json
import sys
from urllib.parse import urlparse

LEVELS = ("none", "note", "warning", "error")
# Of each part: the class of sarif_om, the members that must be there, and the type of each that may be; a list is [type].
PARTS = {
    "log": ("SarifLog", ["version", "runs"], {"$schema": str, "version": str, "runs": ["run"]}),
    "run": ("Run", ["tool"], {"tool": "tool", "columnKind": str, "results": ["result"], "invocations": ["invocation"]}),
    "tool": ("Tool", ["driver"], {"driver": "component"}),
    "component": ("ToolComponent", ["name"], {"name": str, "version": str, "rules": ["rule"]}),
    "rule": ("ReportingDescriptor", ["id"], {"id": str, "shortDescription": "text"}),
    "text": ("MultiformatMessageString", ["text"], {"text": str}),
    "invocation": ("Invocation", ["executionSuccessful"], {"executionSuccessful": bool, "exitCode": int}),
    "result": ("Result", ["message"], {"ruleId": str, "ruleIndex": int, "level": str, "message": "message", "locations":
               ["location"], "relatedLocations": ["location"], "occurrenceCount": int, "properties": dict}),
    "message": ("Message", ["text"], {"text": str}),
    "location": ("Location", [], {"id": int, "message": "message", "physicalLocation": "physical", "logicalLocations":
                 ["logical"]}),
    "physical": ("PhysicalLocation", ["artifactLocation"], {"artifactLocation": "artifact", "region": "region"}),
    "artifact": ("ArtifactLocation", ["uri"], {"uri": str}),
    "region": ("Region", ["startLine"], {"startLine": int}),
    "logical": ("LogicalLocation", ["name"], {"name": str, "kind": str}),
}


def names_in_om(part):
    """Returns the members that the schema's class has, or None where the classes aren't there."""
    try:
        import attr
        import sarif_om
    except ImportError:
        return None
    return {it.metadata.get("schema_property_name", it.name) for it in attr.fields(getattr(sarif_om, PARTS[part][0]))}


def faults_of(part, it, where):
    """Yields what isn't as the schema wants it."""
    if not isinstance(it, dict):
        yield f"{where}: no object"
        return
    _, required, kinds = PARTS[part]
    known = names_in_om(part)
    yield from (f"{where} lacks {name}" for name in required if name not in it)
    for name, value in it.items():
        kind, values = kinds.get(name), [value]
        if kind is None or (known is not None and name not in known):
            yield f"{where} has {name}, which the schema hasn't"
            continue
        if isinstance(kind, list):
            kind, values = kind[0], value if isinstance(value, list) else [None]
        for each in values:
            if isinstance(kind, str):
                yield from faults_of(kind, each, f"{where}.{name}")
            elif type(each) is not kind:
                yield f"{where}.{name} isn't of type {kind.__name__}"


def faults_between(log):
    """Yields what doesn't fit together."""
    if log["version"] != "2.1.0":
        yield "another version"
    for run in log["runs"]:
        rules = [it["id"] for it in run["tool"]["driver"]["rules"]]
        if len(set(rules)) != len(rules):
            yield "a rule stands twice"
        for it in run["results"]:
            places = it["locations"] + it.get("relatedLocations", [])
            if rules[it["ruleIndex"]] != it["ruleId"] or it["level"] not in LEVELS or not it["message"]["text"]:
                yield f"{it['ruleId']}: its rule, level or message"
            if any(place["physicalLocation"].get("region", {"startLine": 1})["startLine"] < 1 for place in places):
                yield f"{it['ruleId']}: a line below 1"
            uris = [urlparse(place["physicalLocation"]["artifactLocation"]["uri"]) for place in places]
            if any(uri.scheme not in ("", "file") or (not uri.scheme and uri.path.startswith("/")) for uri in uris):
                yield f"{it['ruleId']}: a URI"
            ids = [place["id"] for place in it.get("relatedLocations", [])]
            if len(set(ids)) != len(ids):
                yield f"{it['ruleId']}: related places with the same id"


def line_of(place, driver):
    """Returns the line of a place in the driver, or None."""
    physical = place["physicalLocation"]
    return physical["region"]["startLine"] if physical["artifactLocation"]["uri"] == driver and "region" in physical else None


def faults_told(log, rule, driver, line, related):
    """Yields what should be told, and isn't."""
    found = [it for run in log["runs"] for it in run["results"] if it["ruleId"] == rule]
    if [line_of(it["locations"][0], driver) for it in found] != [line]:
        yield f"{rule} at {driver}:{line}: there are {[it['locations'][0] for it in found]}"
        return
    there = [(it["message"]["text"], line_of(it, driver)) for it in found[0].get("relatedLocations", [])]
    yield from (f"{rule} has no {words} {at}: {there}" for words, at in related if (words, at) not in there)


def main():
    path, rule, driver, line, *related = sys.argv[1:]
    with open(path, encoding="utf-8") as it:
        log = json.load(it)
    faults = list(faults_of("log", log, "log"))
    if not faults:
        wanted = [(words, int(at)) for words, _, at in (it.rpartition("=") for it in related)]
        faults = [*faults_between(log), *faults_told(log, rule, driver, int(line), wanted)]
    print("\n".join(faults))
    return 1 if faults else 0


if __name__ == "__main__":
    sys.exit(main())
