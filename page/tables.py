"""Names of statuses, codes and calls, as `irp words tables` prints them; tests/pages.bash compares."""

import json

import parts

TABLES = json.loads(parts.text_of("tables.json"))
STATUSES = dict(TABLES["statuses"])
MAJORS = {code: name.removeprefix("IRP_MJ_") for code, name in TABLES["majors"]}
MINORS = {(code, minor): name.removeprefix("IRP_MN_") for code, minor, name in TABLES["minors"]}
WINDOWS = {it["word"]: it["windows"] for it in TABLES["acts"]}
REFUSALS = {it["name"]: (it["meaning"], it["windows"]) for it in TABLES["refusals"]}
RULES = tuple(TABLES["rules"])
CANCELLED = 0xC0000120
# A packet that counts as lost: no such slot and use was given out.
NO_USE = 2 ** 32 - 1


def status(code, short=False):
    """Returns a status by its name."""
    name = STATUSES.get(code, f"0x{code:08X}")
    return name.removeprefix("STATUS_") if short else name


def is_success(code):
    return code < 0x80000000


def result(code, information, short=False):
    """Returns a status with the information, where there is some."""
    more = f", {'' if short else 'information '}0x{information:x}" if information else ""
    return status(code, short) + more


def major(code, word=None):
    """Returns a major by its name, with its minor, or its word, where one is given."""
    name = MAJORS.get(code, f"major {code}")
    if word is None:
        return name
    minor = MINORS.get((code, word))
    return f"{name} {minor}" if minor else f"{name} 0x{word:x}" if word else name


def kind_of(code, word):
    """Returns a major with its minor, without another word."""
    return major(code, word if (code, word) in MINORS else None)
