"""Compares what a page says of each entry with what the proved `irp text` says: packets, devices, statuses, calls, routines,
locations and refusals are the same."""

import re
import subprocess

TOKEN = re.compile(r"IRP \d+\.\d+|\bD\d+|STATUS_\w+|\bIo\w+|location \d+|refused: \w+|context 0x[0-9a-f]+|tag \d+|"
                   r"(?:dispatch|cancel routine|remove lock|watch|change|keeper|keep_on_error|free) \d+")
# What irp text alone tells: what a cancel routine is shown, a routine's context, what the caller gets.
MORE = re.compile(r"^ *! .*|, context 0x[0-9a-f]+(?=\):)|; the caller gets .*", re.M)


def blocks_of(text):
    """Returns the lines of each entry by its number."""
    text = text.partition("Steps on remove locks and cancel slots:")[0]
    parts = re.split(r"(?m)^ *(\d+)  (?=\S)", text)
    return {int(number): block for number, block in zip(parts[1::2], parts[2::2])}


def tokens(text):
    return set(TOKEN.findall(text))


def differences(view, path, rows):
    """Yields a line for each entry of which the page says something else. `rows` are the entries' texts."""
    text = subprocess.run([view, "text", path], capture_output=True, text=True, check=True).stdout
    blocks = blocks_of(text)
    if sorted(blocks) != list(range(len(rows))):
        yield f"{path}: irp text has other entries"
        return
    for number, row in enumerate(rows):
        only = tokens(row) - tokens(blocks[number])
        missing = tokens(MORE.sub("", blocks[number])) - tokens(row)
        if only or missing:
            yield f"{path}: entry {number}: the page alone says {sorted(only)}; it doesn't say {sorted(missing)}"
