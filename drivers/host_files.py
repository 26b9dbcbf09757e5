"""The host's files, which stand in folders by concern (host/host.h). Each has a name of its own, since places are told by
names alone."""

import os
import re

HOST = os.path.dirname(os.path.abspath(__file__)) + "/host"


def files(ending, host=HOST):
    """Returns the path of each file of a host with this ending, by its name."""
    return {name: f"{at}/{name}" for at, _, names in os.walk(host) for name in sorted(names) if name.endswith(ending)}


def sources(host=HOST):
    return files(".c", host)


def path(name, host=HOST):
    """Returns where a file of the host stands, or where it would stand, in no folder."""
    return sources(host).get(name, f"{host}/{name}")


def text(name):
    with open(path(name), encoding="utf-8") as it:
        return it.read()


def headers_in(at):
    """Returns the headers of the host's folders that the file there includes."""
    with open(at, encoding="utf-8") as it:
        return [it for it in re.findall(r'^#include "(\w+/\w+\.h)"', it.read(), re.M) if os.path.exists(f"{HOST}/{it}")]


def tests():
    """Gives a complaint where files have one name, and where one includes what is another folder's own."""
    every = [f"{at}/{name}" for at, _, names in os.walk(HOST) for name in names if name.endswith((".c", ".h"))]
    names = [os.path.basename(it) for it in every if not it.endswith("/own.h")]
    twice = sorted({it for it in names if names.count(it) > 1})
    yield "each file of the host has a name of its own", f"there are two of {twice[0]}" if twice else None
    wrong = [f"{at} includes {it}" for at in every for it in headers_in(at)
             if it.split("/")[0] not in (os.path.basename(os.path.dirname(at)), it.split("/")[1][:-2])]
    wrong = [it for it in wrong if not it.startswith(HOST + "/host.h ")]
    yield "a file of the host includes headers of its folder, and of others what is for them", "; ".join(wrong) or None
