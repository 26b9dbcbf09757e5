"""Builds a program of drivers, a test and the host.

Each driver is linked alone, and what its source calls by a global name stays its own: drivers with the same globals stand
side by side. A name that another driver or the test wants stays global, where just one driver has it. DriverEntry of a
driver is found by the driver's name: FILE_DriverEntry, in a table for WdmLoadByName."""

import json
import os
import re

import compiling
import host_files
import pageable
from compiling import Stop, call

DRIVER_FLAGS = ["-std=gnu11", "-fcommon", "-Wall", "-Wextra", "-Wno-multichar", "-Wno-unknown-pragmas",
                "-Wno-unused-parameter", "-Werror=implicit-function-declaration"]


# The host's own tests, where none is given: for a run, and for every order.
OWN_TESTS = [["exercise.c", "holding.c", "requests.c"], ["overlaps.c"]]
NAMED_TESTS = "named_tests.c"  # the host's `main` for tests that a file has by WDM_TEST
OWN_FILES = [NAMED_TESTS, *(it for files in OWN_TESTS for it in files)]


def has(source, function):
    with open(source, encoding="utf-8", errors="replace") as it:
        text = re.sub(r"/\*.*?\*/|//[^\n]*", " ", it.read(), flags=re.S)
    return re.search(r"\b" + function + r"\s*\([^;{}]*\)\s*\{", text) is not None


def has_tests(source):
    with open(source, encoding="utf-8", errors="replace") as it:
        return re.search(r"^WDM_TEST\(\w+\)", it.read(), re.M) is not None


def stem(path):
    """Returns the driver's name by its file: one that C takes as part of a name."""
    name = re.sub(r"\W", "_", os.path.splitext(os.path.basename(path.rstrip("/")))[0])
    return "_" + name if name[:1].isdigit() else name


def place_of(path):
    """Returns the name of the folder below out/ for a run of this file: the file's, behind that of its folder as named."""
    above = os.path.basename(os.path.dirname(path.rstrip("/"))).strip(".")
    name = os.path.splitext(os.path.basename(path.rstrip("/")))[0]
    return re.sub(r"\W", "_", f"{above}_{name}" if above else name)


def files_of(named):
    if os.path.isdir(named):
        found = sorted(os.path.join(named, name) for name in os.listdir(named) if name.endswith(".c"))
        if not found:
            raise Stop(f"{named}: no .c file in this folder")
        return found
    if os.path.exists(named):
        return [named]
    raise Stop(f"{named}: no such file")


def find_sources(named):
    """Returns the drivers, each with its name and files, and the other files; and what the test is: "main" where a file
    has that, "tests" where one has tests by name, or ""."""
    drivers, others = [], []
    for it in named:
        files = files_of(it)
        entries = [file for file in files if has(file, "DriverEntry")]
        mains = [file for file in files if has(file, "main")]
        if len(entries) == 1 and not mains:
            drivers.append((stem(entries[0]) if len(files) == 1 else stem(it), files))
        else:
            drivers += [(stem(file), [file]) for file in entries]
            others += [file for file in files if file not in entries]
    with_main = [file for _, files in drivers for file in files if has(file, "main")]
    with_main += [file for file in others if has(file, "main")]
    kind = "main" if with_main else "tests" if any(has_tests(file) for file in others) else ""
    if not drivers and not kind:
        raise Stop("no file defines DriverEntry, and none defines main")
    if len(drivers) == 1 and not kind:
        return [(drivers[0][0], drivers[0][1] + others)], [], kind
    return drivers, others, kind


def symbols_of(path):
    """Returns the global names that an object defines, each with its letter of `nm`, and those that it wants."""
    defined, wanted = {}, set()
    for line in call(["nm", "-g", path], "nm fails").splitlines():
        words = line.split()
        if len(words) == 2:
            wanted.add(words[1])
        elif len(words) == 3:
            defined[words[2]] = words[1]
    return defined, wanted


def shared_names(units, others, libraries):
    """Returns for each unit the names that stay global. A weak one, such as a GUID, stays the first unit's."""
    wanted_by = [wanted for _, _, wanted in units] + [wanted for _, wanted in others]
    kept = []
    for at, (name, defined, _) in enumerate(units):
        names = set(defined) if name in libraries else set()
        for symbol, letter in defined.items():
            if not any(symbol in wanted for i, wanted in enumerate(wanted_by) if i != at):
                continue
            rivals = [i for i, (_, theirs, _) in enumerate(units) if i != at and symbol in theirs]
            if letter in "VWw" and any(i < at for i in rivals):
                continue
            strong = [i for i in rivals if units[i][1][symbol] not in "VWw" and units[i][0] not in libraries]
            if strong and name not in libraries and not any(units[i][0] in libraries for i in rivals):
                raise Stop(f"{symbol}: defined by {name} and by {units[strong[0]][0]}, and another driver wants it; "
                           "name the one that exports it by --library")
            names.add(symbol)
        kept.append(names)
    return kept


def localize(made, name, keep):
    """Makes the driver's globals its own, but for those that are kept; DriverEntry gets the driver's name. Its code gets a
    section of its own, so that the host knows whose an instruction is."""
    listed = made + ".kept"
    with open(listed, "w", encoding="utf-8") as it:
        it.writelines(f"{symbol}\n" for symbol in sorted(keep | {f"{name}_DriverEntry", "main"}))
    call(["objcopy", f"--redefine-sym=DriverEntry={name}_DriverEntry", f"--keep-global-symbols={listed}",
          f"--rename-section=.text=code_of_{name}", made],
         f"the names of {name} can't be made its own")
    os.remove(listed)


def objects_of_drivers(named, folder):
    """Returns the objects that `build` left there, one for each driver."""
    return [f"{folder}/{number}_{name}.o" for number, (name, _) in enumerate(find_sources(named)[0])]


def own_objects(named, libraries, folder):
    """Returns the objects of drivers, of what they import, and of the test, that `build` left there."""
    drivers, others, _ = find_sources(list(libraries) + list(named))
    names = [name for name, _ in drivers] + [stem(source) for source in others]
    return [f"{folder}/{number}_{name}.o" for number, name in enumerate(names)]


def write_table(path, drivers, has_alias, paged):
    """Writes a table of the drivers, and one of their pageable functions, with the types as C has them: it names no header,
    which takes most of its time."""
    with open(path, "w", encoding="utf-8") as it:
        it.writelines(f"int {name}_DriverEntry(void *driver, void *path);\n" for name, _ in drivers)
        it.write("const struct { const char *name; int (*entry)(void *, void *); } wdm_drivers[] = {\n")
        it.writelines(f'    {{ "{name}", {name}_DriverEntry }},\n' for name, _ in drivers)
        it.write("    { 0, 0 }\n")
        it.write(f"}};\nconst int wdm_n_drivers = {len(drivers)};\n")
        it.write("const struct { const char *file, *function; int (*of)(void *, void *); } wdm_pageable[] = {\n")
        it.writelines(f'    {{ {json.dumps(file)}, "{name}", {of} }},\n' for of, file, name in paged)
        it.write("    { 0, 0, 0 }\n};\n")
        if has_alias:
            it.write("int DriverEntry(void *driver, void *path)\n{\n"
                     f"    return {drivers[0][0]}_DriverEntry(driver, path);\n}}\n")


def build(compiler, flags, named, library, folder, link_flags=(), libraries=(), own_test=OWN_TESTS[0],
          counting=()):
    """Returns the program. The objects that it is linked of lie in the folder, the drivers' parts below it. `counting` are
    flags for drivers alone."""
    drivers, others, kind = find_sources(list(libraries) + list(named))
    names = [name for name, _ in drivers]
    if len(set(names)) != len(names):
        raise Stop("two drivers have the same name: " + ", ".join(sorted({it for it in names if names.count(it) > 1})))
    exporting = {stem(it) for it in libraries}
    os.makedirs(folder + "/parts", exist_ok=True)
    paged = [(of, *row) for of, files in [*((f"{name}_DriverEntry", files) for name, files in drivers), ("0", others)]
             for row in pageable.rows(compiler, flags, files)]
    flags = [*flags, *pageable.FLAGS] if paged else flags
    compiled = lambda source, made, *more: compiling.compiled([compiler, *flags, *more], source, made)
    objects, units, apart = [], [], []
    for number, (name, files) in enumerate(drivers):
        parts = [f"{folder}/parts/{number}_{at}_{stem(source)}.o" for at, source in enumerate(files)]
        for source, part in zip(files, parts):
            compiled(source, part, *counting)
        made = f"{folder}/{number}_{name}.o"
        call(["ld", "-r", "-d", "-o", made, *parts], f"the files of {name} don't link")
        objects.append(made)
        units.append((name, *symbols_of(made)))
    for number, source in enumerate(others, len(drivers)):
        made = f"{folder}/{number}_{stem(source)}.o"
        compiled(source, made)
        objects.append(made)
        apart.append(symbols_of(made))
    for made, (name, _, _), keep in zip(objects, units, shared_names(units, apart, exporting)):
        localize(made, name, keep - {"DriverEntry"})
    table = folder + "/drivers.c"
    write_table(table, drivers, len(drivers) == 1 and any("DriverEntry" in wanted for _, wanted in apart), paged)
    added = {"main": [], "tests": [NAMED_TESTS], "": own_test}
    for source in (table, *map(host_files.path, added[kind])):
        made = f"{folder}/{len(objects)}_{stem(source)}.o"
        compiled(source, made, f"-I{host_files.HOST}")
        objects.append(made)
    program = folder + "/program"
    call([compiler, "-pthread", *link_flags, "-o", program, *objects, library], "it doesn't link")
    return program
