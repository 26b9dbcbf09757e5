"""The recorder's scenarios as scenarios.sys plays them, and what each must give."""

import os
import runpy
import sys

import building
import kinds

sys.path.append(os.path.dirname(building.HERE) + "/recorder")
import expected  # noqa: E402 (the path is set above)

JUDGE = runpy.run_path(building.DRIVERS + "/recorder/judge")
PLAYED = [row for row in expected.ROWS if row[0] not in expected.STOPPING]
AS_WINE = "by a mistake of Wine's"


def feed():
    """Returns the feeds of all: of each the count of its words, and its name, with zeros behind it."""
    feeds = b""
    for name, *_ in PLAYED:
        size = len(name) // 8 + 1
        feeds += size.to_bytes(8, "little") + name.encode().ljust(8 * size, b"\0")
    return feeds


def is_as(verdict, wanted):
    return verdict == wanted or verdict.startswith(wanted + ":")


def kind_of(irpx, text, row):
    """Returns the kind of a transcript, and the verdict on it."""
    _, wine, model, _ = row
    verdict = JUDGE["judge"](irpx, text)[1][0]
    return kinds.EQUAL if is_as(verdict, model) else AS_WINE if is_as(verdict, wine) else kinds.NEW, verdict
