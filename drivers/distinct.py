"""The file in which an exploration leaves distinct transcripts (host/explore/outcomes.c): of each a line with its schedule, its own
lines, and an empty one. One that has no empty line behind it wasn't written to its end."""


class Distinct:
    """Where a transcript stands in the file, and its schedule."""

    def __init__(self, path, schedule, begin, end):
        self.path, self.schedule, self.begin, self.end = path, schedule, begin, end

    def text(self):
        """Returns its lines."""
        with open(self.path, "rb") as it:
            it.seek(self.begin)
            return it.read(self.end - self.begin)


def found_in(path):
    """Returns the transcripts of the file, as they came."""
    found, schedule, begin, at = [], None, 0, 0
    with open(path, "rb") as lines:
        for line in lines:
            at += len(line)
            if line == b"\n" and schedule:
                found.append(Distinct(path, schedule, begin, at - 1))
                schedule = None
            elif not line.startswith(b"{"):
                schedule, begin = line.decode().strip(), at
    return found
