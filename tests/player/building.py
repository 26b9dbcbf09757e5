"""Builds the player, for the host and for Wine, where its sources have changed. Two commands run side by side."""

import concurrent.futures
import os
import shutil
import subprocess
import sys

HERE = os.path.dirname(os.path.abspath(__file__))
TOP = os.path.dirname(os.path.dirname(HERE))
DRIVERS = TOP + "/drivers"
sys.path.append(DRIVERS)
import folders  # noqa: E402 (the path is set above)
import host_files  # noqa: E402
PLAYER = ["routines", "within", "locks", "steps", "seats", "feed"]  # these, and create, are recorded
RECORDER = sorted(it[:-2] for it in os.listdir(DRIVERS + "/recorder") if it.endswith(".c"))
# The tests of the host: each has a `main`, or serves one.
HOSTS_OWN = ("exercise", "holding", "restored", "requests", "overlaps", "named_tests")
STRICT = ["-g", "-O1", "-Wall", "-Wextra", "-Werror", "-Wno-multichar", f"-I{DRIVERS}", f"-I{HERE}"]
HOST = ["-fshort-wchar", "-D_GNU_SOURCE", "-pthread", f"-I{DRIVERS}/include"]
HEADERS = "/usr/x86_64-w64-mingw32/include/ddk"
WINDOWS_COMPILER = "x86_64-w64-mingw32-gcc"


BUILT = folders.below(TOP + "/out") + "/player"


class Failed(Exception):
    """A command that didn't succeed, and what it said; or what is missing."""


def call(words):
    made = subprocess.run(words, capture_output=True, text=True, check=False)
    if made.returncode:
        raise Failed(" ".join(words) + "\n" + made.stderr)


def call_all(commands):
    with concurrent.futures.ThreadPoolExecutor(2) as pool:
        list(pool.map(call, commands))


def newest_header():
    """Returns when the newest header changed that an object may be made of."""
    places = (HERE, DRIVERS, DRIVERS + "/include", DRIVERS + "/recorder", TOP + "/windows")
    found = [f"{folder}/{it}" for folder in places if os.path.isdir(folder) for it in os.listdir(folder) if it.endswith(".h")]
    return max(map(os.path.getmtime, [*found, *host_files.files(".h").values()]))


def is_old(made, source):
    return not os.path.exists(made) or os.path.getmtime(made) < max(os.path.getmtime(source), newest_header())


def compiled(compiler, folder, recorded, plain):
    """Compiles files, the first of them with the recorder, where they have changed. Returns the objects."""
    os.makedirs(folder, exist_ok=True)
    commands, objects = [], []
    for more, files in ((["-include", "recorder.h"], recorded), ([], plain)):
        for it in files:
            objects.append(f"{folder}/{os.path.basename(os.path.dirname(it))}_{os.path.basename(it)[:-2]}.o")
            if is_old(objects[-1], it):
                commands.append([*compiler, *more, "-c", it, "-o", objects[-1]])
    call_all(commands)
    return objects


def players(also):
    """Returns the files of the player, with one more, named without its ending: those that are recorded, and those that
    aren't."""
    return ([f"{HERE}/{it}.c" for it in [*PLAYER, "create"]],
            [f"{HERE}/behind.c", f"{also}.c", *(f"{DRIVERS}/recorder/{it}.c" for it in RECORDER)])


def for_host(edited=()):
    """Returns the words that start the player on the host. Edited files, by their paths, take the place of the host's
    own."""
    cc = os.environ.get("CC", "cc")
    objects = compiled([cc, "-std=gnu11", *STRICT, *HOST], BUILT + "/for_host", *players(HERE + "/on_host"))
    sources = [path for name, path in sorted(host_files.sources().items()) if name[:-2] not in HOSTS_OWN]
    compiler = [cc, "-std=c11", "-g", "-O1", f"-I{DRIVERS}/host", *HOST, f"-I{DRIVERS}"]
    host = compiled(compiler, BUILT + "/host", [], sources)
    program = BUILT + "/player"
    if edited:
        folder = os.path.dirname(edited[0])
        gone = {os.path.basename(it) for it in edited}
        host = [made for made, source in zip(host, sources) if os.path.basename(source) not in gone]
        host += compiled(compiler, folder + "/made", [], edited)
        program = folder + "/player"
    call([cc, "-pthread", *objects, *host, "-o", program])
    return [program]


def windows_compiler():
    found = shutil.which(WINDOWS_COMPILER) or shutil.which(WINDOWS_COMPILER + "-win32")
    if not found or not os.path.exists(HEADERS + "/wdm.h"):
        raise Failed("the compiler for Windows is missing (Debian: apt-get install gcc-mingw-w64-x86-64)")
    return found


def for_wine():
    """Returns the player on Wine, which Wine's own program starts."""
    compiler = [windows_compiler(), "-std=gnu11", *STRICT, "-isystem", HEADERS]
    objects = compiled(compiler, BUILT + "/for_wine", *players(HERE + "/on_wine"))
    call([compiler[0], *objects, "-o", BUILT + "/player.exe", "-lntoskrnl"])
    return BUILT + "/player.exe"
