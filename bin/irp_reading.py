"""What `irp` reads: a file or standard input, whether anything stands in it, and transcripts that have no entry."""

import os
import stat
import sys

sys.path.append(os.path.dirname(os.path.dirname(os.path.realpath(__file__))) + "/drivers")
import usage  # noqa: E402, F401 (the path is set above)

UNREADABLE, REFUSED = 5, 1


def fail(message, status):
    print(message, file=sys.stderr)
    sys.exit(status)


def name_of(file):
    """Returns how a message names a file."""
    return "standard input" if file in (None, "-") else file


def opened(word, file):
    """Returns a file, or standard input, as one whose bytes can be read twice. What comes through a pipe is kept first."""
    try:
        it = open(0 if file in (None, "-") else file, "rb", buffering=0, closefd=file not in (None, "-"))
        if stat.S_ISREG(os.fstat(it.fileno()).st_mode):
            return it
        import tempfile  # It takes long to load, and only pipes want it.

        kept = tempfile.TemporaryFile(buffering=0)
        while block := it.read(1 << 20):
            kept.write(block)
        kept.seek(0)
        return kept
    except OSError as why:
        return fail(f"irp {word}: {name_of(file)}: {why.strerror}", UNREADABLE)


def transcript(word, file):
    """Returns an opened transcript. Where nothing stands in it, that is told, and the status is that of one refused."""
    it = opened(word, file)
    if not os.pread(it.fileno(), 1 << 16, it.tell()).strip():
        fail(f"irp {word}: {name_of(file)} is empty: there is no transcript; did what makes it fail?", REFUSED)
    return it


def tell_no_entry(word, file):
    """Tells that a transcript has a header and no entry: it is legal, but it shows nothing."""
    print(f"irp {word}: {name_of(file)} has a header and no entry", file=sys.stderr)
