"""Writes a legal transcript of many entries: reads and writes of two devices, one behind another, by four seats."""

import json

HEADER = {"cancels": [], "completions": [1, 0, 0, 0, 0], "dispatches": [[1, 0, 0, 0, 0, 0]] * 2,
          "drivers": [[[3, 0], [4, 0]], [[3, 1], [4, 1]]], "form": 1, "locks": 1, "seats": 4}
READ, FAILED = 3, 0xC0000001


def calls_of(use):
    """Yields each call of one packet's use, its reply, and who was asked."""
    irp, major, word = [0, use], READ + use % 2, use % 64
    end = [FAILED, 0] if use % 5 == 0 else [0, 5]
    yield {"do": "allocate", "size": 2}, {"irp": irp}, []
    yield {"by": "o", "do": "set_next", "irp": irp, "major": major, "word": word}, "done", []
    shown = [0, use, major, 2, word, 0, 0, False, False, 0]
    down = {"dispatch": 1, "plan": ["forward", ["watch", 0, 9, "sec"]], "shown": [1, *shown, True]}
    low = {"dispatch": 0, "plan": ["finish", *end], "shown": [0, 0, use, major, 1, word, 0, 0, False, False, 0, False]}
    up = {"answer": ["continue", False, None], "completion": ["watch", 0],
          "shown": [1, 0, use, major, 1, word, *end, False, False, 9, False]}
    yield {"by": "o", "do": "call_driver", "irp": irp, "target": 1}, {"status": end[0]}, [down, low, up]
    yield {"do": "look", "irp": irp}, {"seen": ["ended", 3, *end, False, None, False, False]}, []
    yield {"do": "free", "irp": irp}, "done", []


def entries():
    """Yields each call, its reply, who was asked, and the seat."""
    for number in (0, 1):
        yield {"do": "create_device", "driver": number, "lock": 0}, {"device": number}, [], 0
    yield {"device": 1, "do": "attach", "to": 0}, {"device": 0}, [], 0
    use = 0
    while True:
        use += 1
        for it in calls_of(use):
            yield *it, use // 7 % 4


def write(path, count):
    """Writes the first so many entries."""
    def text(value):
        return json.dumps(value, separators=(",", ":"), sort_keys=True) + "\n"

    with open(path, "w", encoding="utf-8") as out:
        out.write(text(HEADER))
        for number, (call, reply, asked, seat) in zip(range(count), entries()):
            out.write(text({"asked": asked, "call": call, "n": number, "reply": reply, "seat": seat}))
