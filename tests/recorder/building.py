"""Builds the host, the recorder and the programs of this folder. Commands run side by side."""

import concurrent.futures
import os
import subprocess
import sys

HERE = os.path.dirname(os.path.abspath(__file__))
DRIVERS = os.path.dirname(os.path.dirname(HERE)) + "/drivers"
sys.path.append(DRIVERS)
import host_files  # noqa: E402 (the path is set above)
INCLUDES = ["-I" + DRIVERS, "-I" + HERE]
HOST_FLAGS = ["-g", "-O1", "-fshort-wchar", "-D_GNU_SOURCE", "-pthread", "-I" + DRIVERS + "/include", *INCLUDES]
HOST_COMPILER = ["cc", "-std=c11", "-I" + DRIVERS + "/host", *HOST_FLAGS]  # drivers/ has a folder rules/ too
STRICT = ["-std=c11", "-Wall", "-Wextra", "-Werror"]
HEADERS = "/usr/x86_64-w64-mingw32/include/ddk"
RECORDER = sorted(f"{DRIVERS}/recorder/{name}" for name in os.listdir(DRIVERS + "/recorder") if name.endswith(".c"))
# The tests of the host: each has a `main`, or serves one.
OWN_TESTS = ("exercise.c", "holding.c", "restored.c", "requests.c", "overlaps.c", "named_tests.c")
RUNNER = [HERE + "/on_its_own.c"]
SCENARIOS = [*RUNNER, HERE + "/scenarios.c", HERE + "/probe.c"]


class Failed(Exception):
    """A command that didn't succeed, and what it said."""


def call(words):
    made = subprocess.run(words, capture_output=True, text=True, check=False)
    if made.returncode:
        raise Failed(" ".join(words) + "\n" + made.stderr)


def call_all(commands):
    with concurrent.futures.ThreadPoolExecutor(os.cpu_count()) as pool:
        list(pool.map(call, commands))


def compile_all(sources, folder, flags):
    """Returns the objects."""
    os.makedirs(folder, exist_ok=True)
    objects = [f"{folder}/{os.path.basename(it)[:-2]}.o" for it in sources]
    call_all([[*flags, "-c", it, "-o", made] for it, made in zip(sources, objects)])
    return objects


def host_objects(folder):
    sources = [path for name, path in sorted(host_files.sources().items()) if name not in OWN_TESTS]
    return compile_all(sources, folder + "/host", HOST_COMPILER)


def with_edits(objects, folder, edits):
    """Returns the host's objects, where those of the edited files are built from the edited text."""
    made = {os.path.basename(it): it for it in objects}
    os.makedirs(folder, exist_ok=True)
    for name in sorted({it[0] for it in edits}):
        text = host_files.text(name)
        for file, old, new in edits:
            if file == name and old not in text:
                raise Failed(f"{name} has no {old!r} to edit")
            if file == name:
                text = text.replace(old, new)
        with open(f"{folder}/{name}", "w", encoding="utf-8") as it:
            it.write(text)
        made[name[:-2] + ".o"] = compile_all([f"{folder}/{name}"], folder, HOST_COMPILER)[0]
    return list(made.values())


def link(objects, program, *flags):
    call(["cc", "-pthread", *objects, *flags, "-o", program])
    return program


def recorder_objects(folder, flags=()):
    return compile_all(RECORDER, folder, ["cc", *STRICT, *HOST_FLAGS, *flags])


def threads_program(folder, host, recorder):
    objects = compile_all([HERE + "/threads.c"], folder, ["cc", *STRICT, *HOST_FLAGS])
    for name in ("bus", "toaster", "filter"):
        objects += compile_all([f"{DRIVERS}/samples/{name}.c"], folder,
                               ["cc", "-std=gnu11", "-Wno-multichar", *HOST_FLAGS, f"-DDriverEntry={name}_DriverEntry",
                                "-include", "recorder.h"])
    return link(objects + host + recorder, folder + "/threads")


def at_once_program(folder, host, recorder):
    """Its own completion stands before the manager's, and is slow where a scenario wants that."""
    objects = compile_all([HERE + "/at_once.c"], folder, ["cc", *STRICT, *HOST_FLAGS])
    return link(objects + host + recorder, folder + "/at_once", "-Wl,--wrap=WdmIoCompleteRequest")


def stack_program(name, folder, shared):
    """A stack of the host's with its own test; the device below it is compiled without the recorder."""
    objects = compile_all([f"{DRIVERS}/stacks/{name}.c"], folder,
                          ["cc", "-std=gnu11", "-Wno-multichar", *HOST_FLAGS, "-DWdmFinish=RecorderFinish", "-include",
                           "recorder.h"])
    return link(objects + shared, f"{folder}/{name}")


def page_commands():
    """Returns the commands that the recorder's page shows first."""
    with open(DRIVERS + "/recorder/README.md", encoding="utf-8") as it:
        block = it.read().split("```\n")[1]
    return block.replace("\\\n", " ").splitlines()


def by_the_page(folder):
    """Builds test.exe by the page's first command as it stands there, of a driver and a test. Returns its path."""
    os.makedirs(folder)
    os.symlink(DRIVERS, folder + "/drivers")
    os.symlink(HERE + "/probe.c", folder + "/mydriver.c")
    for name in ("probe.h", "scenarios.h", "ending.h", "scenarios.c", "on_its_own.c"):
        os.symlink(f"{HERE}/{name}", f"{folder}/{name}")
    with open(folder + "/test.c", "w", encoding="utf-8") as it:
        it.write('#include "scenarios.c"\n#include "on_its_own.c"\n')
    call(["sh", "-c", f"cd {folder} && {page_commands()[0]}"])
    return folder + "/test.exe"


def wine_program(compiler, folder, name, sources):
    words = [compiler, "-std=gnu11", "-O1", "-g", "-Wall", *INCLUDES, "-isystem", HEADERS]
    program = f"{folder}/{name}.exe"
    call([*words, "-Wextra", "-Werror", "-o", program, *sources, *RECORDER, "-lntoskrnl"])
    return program


def wine_samples(compiler, folder):
    """The sample drivers, as they are."""
    words = [compiler, "-std=gnu11", "-O1", "-g", "-Wno-multichar", *INCLUDES, "-isystem", HEADERS, "-include",
             "recorder.h"]
    objects = []
    for name in ("bus", "toaster", "filter"):
        objects.append(f"{folder}/{name}.o")
        call([*words, f"-DDriverEntry={name}_DriverEntry", "-c", f"{DRIVERS}/samples/{name}.c", "-o", objects[-1]])
    return wine_program(compiler, folder, "samples", [os.path.dirname(HERE) + "/wine/samples.c", *objects])
