#!/usr/bin/env python3
"""The crates of the repository, the kit's commands over them, and rooms: folders in which one crate is worked on."""
import functools
import os
import re
import shutil
import subprocess
import sys

TOP = os.path.dirname(os.path.dirname(os.path.realpath(__file__)))
# What a check reads of a crate.
SOURCES = ("src", "specs", "proofs")
# The memory that one check takes at most, but for the largest crates.
ROOM = 3_500_000_000


@functools.cache
def listed():
    """Each crate of the repository with the libraries of its line: its own first, then the kit's."""
    lines = {}
    with open(f"{TOP}/crates.txt", encoding="utf-8") as file:
        for line in file:
            if ":" in line and not line.startswith("#"):
                name, _, libraries = line.partition(":")
                lines[name.split()[0]] = libraries.split()
    return {name: ([it for it in uses if it in lines], [it for it in uses if it not in lines])
            for name, uses in lines.items()}


@functools.cache
def below(name):
    """The libraries below a crate, each after those that it uses."""
    found = {}
    for library in listed()[name][0]:
        found |= dict.fromkeys([*below(library), library])
    return tuple(found)


@functools.cache
def sources_of(name):
    """The files that a check reads of a crate."""
    return sorted(f"{at}/{it}" for part in SOURCES for at, _, files in os.walk(f"{TOP}/crates/{name}/{part}") for it in files)


@functools.cache
def work_of(name):
    """A crate's work, by the bytes of its sources."""
    return sum(os.path.getsize(it) for it in sources_of(name))


@functools.cache
def kit():
    """The folder of the kit: its guide, of which `rt doc` prints the path, is at its top."""
    said = subprocess.run(["rt", "doc"], capture_output=True, text=True, check=True).stdout
    return os.path.dirname(said.strip())


def lanes():
    """How many checks may run at a time: as many as there are processors, and as memory holds."""
    with open("/proc/meminfo", encoding="ascii") as file:
        free = 1024 * int(re.search(r"MemAvailable:\s+(\d+)", file.read())[1])
    return max(1, min(len(os.sched_getaffinity(0)), free // ROOM))


def rlib_of(name):
    """Where the library of a crate is, once it is built."""
    return f"{TOP}/crates/{name}/out/rlib/{name}.rlib"


def words_of(name, jobs=1, as_source=()):
    """The words by which the kit's prover is called for a crate, in a folder that has its sources. Libraries below it that are in
    `as_source`, with all that stands on them, are read as they are written; the others have to be made."""
    own, of_kit = listed()[name]
    is_program = os.path.isfile(f"{TOP}/crates/{name}/src/main.rt")
    words = ["--crate-name", name, f"src/{'main' if is_program else 'lib'}.rt"]
    more = ["core", *(it for library in as_source for it in listed()[library][1])] if as_source else []
    for library in dict.fromkeys(["std", *of_kit, *more]):
        words += ["--extern", f"{library}={kit()}/rlibs/{library}.rlib"]
    words += ["-L", f"dependency={kit()}/rlibs"]
    for library in below(name) if as_source else own:
        if library not in as_source:
            words += ["--extern", f"{library}={rlib_of(library)}"]
    for library in below(name):
        if library in as_source:
            uses = dict.fromkeys(["core", "std", *listed()[library][1], *listed()[library][0]])
            words += ["--lib", f"{library}:{','.join(uses)}={TOP}/crates/{library}/src/lib.rt"]
        else:
            words += ["-L", f"dependency={os.path.dirname(rlib_of(library))}"]
    words += ["--antt-project", f"{kit()}/rattle/logic/antt-project.json", "--logic-built", f"{kit()}/logic_built"]
    return [*words, "--links", f"{name}=", "--jobs", str(jobs)]


def prover():
    """The kit's prover."""
    return f"{kit()}/bin/rattle"


def copy_sources(name, room):
    """Copies what a check reads of a crate to a folder."""
    for part in SOURCES:
        if os.path.isdir(f"{TOP}/crates/{name}/{part}"):
            shutil.copytree(f"{TOP}/crates/{name}/{part}", f"{room}/{part}")


def main(words):
    """Prints what a crate stands on: `tools/crates.py below NAME` the crates below it and itself, lowest first, `lines NAME` their lines
    of crates.txt."""
    what, name = words if len(words) == 2 else ("", "")
    if what not in ("below", "lines") or name not in listed():
        return "crates: give 'below' or 'lines', and the name of a crate"
    for crate in (*below(name), name):
        own, of_kit = listed()[crate]
        print(crate if what == "below" else " ".join([f"{crate}:", *own, *of_kit]))
    return 0


if __name__ == "__main__":
    sys.exit(main(sys.argv[1:]))
