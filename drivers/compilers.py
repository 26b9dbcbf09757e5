"""The host is compiled by clang, where that is there, without a warning."""

import glob
import os
import shutil
import subprocess

HERE = os.path.dirname(os.path.abspath(__file__))


def warned(words, source):
    """Returns what the compiler says of a file."""
    made = subprocess.run([*words, "-Werror", "-fsyntax-only", source], capture_output=True, text=True, check=False)
    return made.stderr or ("" if not made.returncode else f"{words[0]} ended with status {made.returncode}")


def by_clang(flags):
    if not shutil.which("clang"):
        print("skipped: there is no clang here", flush=True)
        return
    sources = sorted(glob.glob(HERE + "/host/**/*.c", recursive=True))
    said = "".join(warned(["clang", *flags, f"-I{HERE}/host", f"-I{HERE}"], it) for it in sources)
    yield f"clang compiles the host, {len(sources)} files", said[:900] or None


def tests(flags):
    """Returns the tests: of each a name, and a call that gives names and complaints."""
    return [("clang", lambda: by_clang(flags))]
