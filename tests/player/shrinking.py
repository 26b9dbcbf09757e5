"""Makes scripts smaller: each function yields scripts that lack a piece of a script, or have something simpler in it."""

import json

from playable import number_routines

KEYS = ("device", "to", "lower", "target", "by")  # of a step, that name a device
PLANS = (["finish", 0, 0], ["skip"], ["hold", None], ["forward", None], ["finish", 0xC0000001, 0], ["finish", 0x104, 0])


def copy(script):
    return json.loads(json.dumps(script))


def without_steps(script):
    """Lacks steps, big pieces first. A script with conditions names steps by their places, so it stays whole."""
    if any("if" in step for step in script["steps"]):
        return
    n = size = len(script["steps"])
    while size:
        for at in range(0, n, size):
            it = copy(script)
            del it["steps"][at:at + size]
            yield it
        size //= 2


def without_devices(script):
    """Lacks a device, and the steps that name it."""
    created = [k for k, it in enumerate(script["steps"]) if it["do"] == "create_device"]
    if any("if" in step for step in script["steps"]):
        return
    for device, place in enumerate(created):
        it = copy(script)
        del it["steps"][place]
        it["steps"] = [step for step in it["steps"] if not any(step.get(key) == device for key in KEYS)]
        for step in it["steps"]:
            for key in KEYS:
                if isinstance(step.get(key), int) and step[key] > device:
                    step[key] -= 1
        yield it


def settings(script):
    for step in script["setup"] + script["steps"]:
        if "set" in step:
            yield step["set"]
    for plan in script["dispatches"]:
        if plan[0].startswith("forward") and plan[1]:
            yield plan[1]


def without_completions(script):
    """Lacks a completion routine that nothing names; the others are numbered anew."""
    names = number_routines(script)
    for k in range(len(script["completions"])):
        it = copy(script)
        places = [(s, names[s[0], s[1]]) for s in settings(it)]
        if any(place == k for _, place in places):
            continue
        del it["completions"][k]
        numbers = {place: name for name, place in number_routines(it).items()}
        for setting, place in places:
            setting[:2] = numbers[place - (place > k)]
        yield it


def without_dispatches(script):
    """Lacks a dispatch that no table names, or an entry of a table."""
    for k in range(len(script["dispatches"])):
        it = copy(script)
        pairs = [pair for table in it["drivers"] for pair in table]
        if any(pair[1] == k for pair in pairs):
            continue
        del it["dispatches"][k]
        for pair in pairs:
            pair[1] -= pair[1] > k
        yield it
    for driver, table in enumerate(script["drivers"]):
        for k in range(len(table)):
            it = copy(script)
            del it["drivers"][driver][k]
            yield it


def without_cancels(script):
    """Lacks the last cancel routine; a script that names it can't be played then."""
    if script["cancels"]:
        it = copy(script)
        del it["cancels"][-1]
        yield it


def with_simpler_routines(script):
    """Has a completion routine that continues where another kept the packet or changed its status."""
    for k, (_, *does) in enumerate(script["completions"]):
        for n, behaviour in enumerate(does, 1):
            if behaviour != "continue":
                it = copy(script)
                it["completions"][k][n] = "continue"
                yield it


def with_less_room(script):
    """Has fewer seats, locks or slots, or a packet with a location less."""
    for key in ("seats", "locks", "slots"):
        for fewer in {0, 1, 2, script.get(key, 0) // 2, script.get(key, 0) - 1}:
            if 0 <= fewer < script.get(key, 0):
                yield dict(copy(script), **{key: fewer})
    for k, step in enumerate(script["steps"]):
        if step.get("size", 0) > 1:
            it = copy(script)
            it["steps"][k]["size"] -= 1
            yield it


def without_drivers(script):
    """Lacks a driver that no device is of."""
    for k in range(len(script["drivers"])):
        it = copy(script)
        steps = [step for step in it["setup"] + it["steps"] if step["do"] == "create_device"]
        if any(step["driver"] == k for step in steps):
            continue
        del it["drivers"][k]
        for step in steps:
            step["driver"] -= step["driver"] > k
        yield it


def simple(value):
    """Returns how simple a number or a text of flags is: less is simpler."""
    if isinstance(value, str):
        return {"sec": 0, "s": 1, "e": 1}.get(value, 2)
    return {0: 0, 1: 1, 7: 2, 0xC0000001: 3}.get(value, 4 + value)


def places(script):
    """Yields where numbers and flags stand."""
    for k, step in enumerate(script["steps"]):
        yield from (("steps", k, key) for key in ("word", "information", "status", "lock", "size", "seat") if key in step)
        yield from (("steps", k, "set", n) for n in (2, 3) if "set" in step)
    for k, plan in enumerate(script["dispatches"]):
        yield from (("dispatches", k, n) for n in (1, 2) if plan[0] == "finish")
        yield from (("dispatches", k, 1, n) for n in (2, 3) if plan[0].startswith("forward") and plan[1])
    yield from (("cancels", k, 1) for k, it in enumerate(script["cancels"]) if it[0] == "finish")
    for k, (_, *does) in enumerate(script["completions"]):
        yield from (("completions", k, m, n) for m, it in enumerate(does, 1) if it[0] == "replace" for n in (1, 2))


def at(script, path):
    for key in path:
        script = script[key]
    return script


def simpler(script):
    """Has a simpler plan, behaviour, number or set of flags."""
    for k, plan in enumerate(script["dispatches"]):
        if plan in PLANS:
            continue
        for other in PLANS:
            it = copy(script)
            it["dispatches"][k] = list(other)
            yield it
    for path in places(script):
        value = at(script, path)
        for other in (0, 1, 7, "sec", "s", "e", 0xC0000001):
            if type(other) is type(value) and simple(other) < simple(value) and (path[-1] != "size" or other < value):
                it = copy(script)
                at(it, path[:-1])[path[-1]] = other
                yield it


WAYS = (without_steps, without_devices, without_completions, with_simpler_routines, without_cancels, without_dispatches, without_drivers,
        simpler, with_less_room)


def text_of(script):
    """Returns the script as people lay it out."""
    def dump(it):
        return json.dumps(it, separators=(",", ":"))

    head = ",".join(f'"{key}":{dump(script[key])}' for key in script if key not in TABLES)
    tables = "".join(f',\n "{key}":{dump(script[key])}' for key in TABLES[:-1])
    return "{" + head + tables + ',\n "steps":[\n' + ",\n".join("  " + dump(it) for it in script["steps"]) + "]}\n"


TABLES = ("completions", "cancels", "dispatches", "drivers", "setup", "steps")
