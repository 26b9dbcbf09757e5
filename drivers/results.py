"""What each stack of stacks/ ends its requests with, and how many entries its run has, worked out from its source.

A row has a count, and the results of which each of so many uses of packets has one: the major, the status, the information.
They stand where a cancel or a timer meets a completion. A packet of a driver's own, or one that stands for another, counts too.

Entries: a device that is made, attached, detached or deleted is one. A request of WdmSend is allocate, set_next, the send
and a look; PnP and power have a reuse more, what is completed behind its send a complete. A request that its sender keeps
has set_routine and free besides. A cancel is one, and where its routine completes the packet there is no complete. How often
a driver takes a cancel routine out depends on who comes first: set_cancel_routine isn't counted."""

import collections
import json

MAJORS = {0: "CREATE", 2: "CLOSE", 3: "READ", 4: "WRITE", 9: "FLUSH", 14: "CONTROL", 18: "CLEANUP", 22: "POWER", 27: "PNP"}
STATUSES = {0: "SUCCESS", 0xC0000010: "INVALID_DEVICE_REQUEST", 0xC000009D: "DEVICE_NOT_CONNECTED",
            0xC00000BB: "NOT_SUPPORTED", 0xC0000120: "CANCELLED", 0x80000011: "DEVICE_BUSY"}


def either(count, major, length):
    """A row of requests that somebody cancels at some time."""
    return count, f"{major} SUCCESS {length}", f"{major} CANCELLED 0"


# Pieces of 8 bytes of writes of 5, 10, .. 35 and 40: 19 whole ones, and one rest each but for 40. Over two bottoms.
SPLIT = [(2, f"WRITE SUCCESS {it}") for it in range(0, 41, 5)] + [(2 * 19, "WRITE SUCCESS 8")] + \
    [(2, f"WRITE SUCCESS {it}") for it in (5, 2, 7, 4, 1, 6, 3)]

RESULTS = {
    "keyboard": [(3, "PNP SUCCESS 0"), (1, "POWER SUCCESS 0"), (15, "READ SUCCESS 12"), either(5, "READ", 12)],
    "split": SPLIT,
    "serial": [(18, "WRITE SUCCESS 4"), (9, "WRITE SUCCESS 5"), either(9, "WRITE", 5)],
    "children": [(8, "PNP SUCCESS 0"), (2, "PNP NOT_SUPPORTED 0"), (16, "READ SUCCESS 9"), either(4, "READ", 9)],
    "enumerate": [(30, "PNP SUCCESS a block"), (56, "PNP SUCCESS 0"), (52, "PNP NOT_SUPPORTED 0"), (4, "READ SUCCESS 1"),
                  (2, "READ SUCCESS 2"), (2, "READ SUCCESS 3")],
    "power": [(2, "PNP SUCCESS 0"), (10, "POWER SUCCESS 0"), (10, "READ SUCCESS 4"), (5, "READ CANCELLED 0")],
    "policy": [(24, "POWER SUCCESS 0"), (12, "CONTROL SUCCESS 4")],
    "removal": [(3, "PNP SUCCESS 0"), (1, "WRITE SUCCESS 0"), (1, "READ CANCELLED 0"),
                (3, "READ SUCCESS 0", "READ DEVICE_NOT_CONNECTED 0")],
    "watchdog": [either(2, "READ", it) for it in range(20)],
    "retry": [(10, "READ SUCCESS 4")],
    "late": [(1, "READ SUCCESS 1")],
    "handover": [(1, f"READ SUCCESS {it // 2}") for it in range(8, 32)],
    "port": [(4, "READ SUCCESS 2"), (2, "READ SUCCESS 1"), (2, "READ SUCCESS 9"), (4, "READ CANCELLED 0")],
    "direct": [(3, "CREATE SUCCESS 0"), (3, "CLEANUP SUCCESS 0"), (3, "CLOSE SUCCESS 0"), (3, "CONTROL SUCCESS 12288"),
               (1, "CONTROL INVALID_DEVICE_REQUEST 0"), (6, "READ SUCCESS 6144")],
    "settings": [(5, "PNP SUCCESS 0"), (3, "PNP NOT_SUPPORTED 0"), (3, "READ SUCCESS 0")],
    "mirror": [(4 + 2 * 4, "WRITE SUCCESS 8"), (2 * 2, "READ SUCCESS 8"), (2 * 2, "READ SUCCESS 9")],
    "journal": [(3, "WRITE SUCCESS 7")],
    "reserve": [(8, "FLUSH SUCCESS 0"), (2, "PNP SUCCESS 0"),
                *((2 * it.count(n), f"READ SUCCESS {n}") for it in [(2, 1, 1, 7, 4, 3, 40, 20, 20)] for n in sorted(set(it)))],
    "elevator": [(9, "READ SUCCESS 4"), either(3, "READ", 4), (3, "FLUSH SUCCESS 0")],
    "monitor": [*((2, f"WRITE SUCCESS {it}") for it in range(1, 5)), (1, "CONTROL SUCCESS 8"),
                (8, "CONTROL SUCCESS 8", "CONTROL DEVICE_BUSY 0")],
    "listener": [(6, "PNP SUCCESS 0"), (4, "CONTROL SUCCESS 0"), *((2, f"{it} SUCCESS 0") for it in ("CREATE", "CLEANUP", "CLOSE"))],
    "shared": [(16, "WRITE SUCCESS 0"), (8, "READ SUCCESS 4")]}

# The manager's requests in "enumerate", twice: of each of three children four ids, capabilities twice and a start succeed,
# and eight aren't known; the bus has a start, capabilities, relations three times, and two that aren't known; a child goes
# (2); a stop of three (9); a removal (6). In "settings": a start with what stands for it, capabilities, a removal (2); 3.

# Of each stack the least and the most entries; the difference is what meets in either order.
ENTRIES = {
    "keyboard": (168, 173),   # 3; a start with the packet that stands for it, 12; 15 reads of 7 and 5 of 7 or 8; 5; 5; 3
    "split": (401, 401),      # 2 of (3; 4; a write of N pieces 6 + 5 N, later 6 + 6 N; the last one 2 and 1 more)
    "serial": (253, 262),     # 1; 27 writes of 7, 9 of 7 or 8
    "children": (203, 205),   # 98; 103 where reads are completed later, and two are cancelled with what stands for them
    "enumerate": (852, 852),  # as its test declares; of the manager's requests below
    "power": (186, 186),      # 3; 5; 5 rounds of 9, 7 and 7 for the reads, 6 and 5 for power; 8
    "policy": (213, 213),     # 2 of (3; 3 rounds of 2 * 6 and 2 * 7 for power, 4 and 4 for the controls); 3 completed later
    "removal": (53, 53),      # 3; 5; 3 reads of 7, one of 7; 5; 4; 7; 1
    "watchdog": (283, 303),   # 3; 20 reads of 7, each with a packet of 7 or 8
    "retry": (73, 73),        # 3; 10 reads of 4, sent again by 3
    "late": (7, 7),           # 1; 6
    "handover": (171, 171),   # 3; 24 reads of 7
    "port": (86, 86),         # 1; 12 reads of 7; 1
    "direct": (92, 92),       # 2; 9 opens, cleanups and closes of 4; 3 controls of 4 with 2 packets of 6; one of 4; 2
    "settings": (60, 60),     # 3; a start of 12; 6 requests of the manager of 5; 3 reads of 4; 3
    "mirror": (118, 118),     # 6; 4 writes of 5, with parts of 5 and 6; 4 reads of 5, with a packet of 7
    "journal": (14, 14),      # 1; 3 writes of 4; 1
    "reserve": (160, 160),    # 2 of (3; 3 reads of 16, later 18; 2 flushes of 9; a removal of 8 with what it frees)
    "elevator": (98, 101),    # 1; 3 of (3 reads of 7, one of 7 or 8, a flush of 4); 1
    "monitor": (70, 70),      # 1; 8 writes and 9 controls of 4; 1
    "listener": (90, 90),     # 2 of (4; a start of 12; an open, two controls, a cleanup and a close of 4; a removal of 7; 2)
    "shared": (98, 98)}       # 1; 24 requests of 4; 1


def read(path):
    """Returns how many entries a transcript has but for set_cancel_routine, and the results of all uses that ended."""
    entries, majors, ended = 0, {}, collections.Counter()
    with open(path, encoding="utf-8") as it:
        lines = [json.loads(line) for line in it.read().splitlines()[1:]]
    for line in lines:
        call = line.get("call", {"do": "set_cancel_routine"})
        entries += call["do"] != "set_cancel_routine"
        if call["do"] == "set_next":
            majors[tuple(call["irp"])] = call["major"]
        elif call["do"] == "look":
            major, seen = majors.get(tuple(call["irp"])), line["reply"]["seen"]
            what = "a block" if major == 27 and seen[3] else seen[3]  # an answer to the Plug and Play manager
            ended[f"{MAJORS.get(major, major)} {STATUSES.get(seen[2], hex(seen[2]))} {what}"] += 1
    return entries, ended


def differs(rows, ended):
    """Returns how the results differ from the rows, or None. What only one result fits is taken first."""
    left = collections.Counter(ended)
    for count, *results in sorted(rows, key=len):
        for one in results:
            taken = min(count, left[one])
            left[one] -= taken
            count -= taken
        if count:
            return f"{count} fewer than wanted with {' or '.join(results)}"
    more = +left
    return f"besides: {dict(more)}" if more else None


def wrong_results(name, path):
    """Returns how a stack's transcript differs from what its source gives, or None."""
    entries, ended = read(path)
    least, most = ENTRIES[name]
    if not least <= entries <= most:
        return f"{entries} entries, not {least} to {most}"
    return differs(RESULTS[name], ended)
