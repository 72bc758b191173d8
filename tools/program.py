#!/usr/bin/env python3
"""Proves and builds a program, the libraries below it side by side: `tools/program.py PROGRAM LOG`.

The program is checked over the statements of its libraries, compiled from what that check proved, and linked. One line
a crate goes to standard error, and all that the kit says to the file LOG. What has been proved isn't proved again.
"""
import fcntl
import os
import shutil
import subprocess
import sys
import tempfile
import time

from crates import TOP, below, copy_sources, kit, lanes, prover, words_of
from libraries import build_libraries, stale_of, tell

# Rattle's own compiler takes three seconds for the program of the first certificate, for which LLVM takes twenty.
BACKENDS = {"dr_certifier": "rattle"}


def call(words, room, log):
    """Calls a program of the kit in the room; whether it ended well."""
    return subprocess.call(words, cwd=room, stdin=subprocess.DEVNULL, stdout=log, stderr=subprocess.STDOUT) == 0


def without(words, flag):
    """The words without a flag and its value."""
    at = words.index(flag)
    return [*words[:at], *words[at + 2:]]


def build_program(program, room, log):
    """Checks, compiles and links the program over its libraries in the room; whether it ended well."""
    copy_sources(program, room)
    words = words_of(program, lanes())
    if not call([prover(), "check", *words, "-o", f"{room}/checked"], room, log):
        return False
    proved = [*without(without(words, "--logic-built"), "--jobs"), "--crate-checked", f"{room}/checked"]
    toolchain = ["--toolchain", f"{kit()}/toolchain"]
    compiled = [*proved, *toolchain, "--backend", BACKENDS.get(program, "llvm"), "-o", f"{room}/made.o"]
    linked = ["--target", "x86_64-unknown-linux-gnu", *toolchain, "-o", f"{room}/made", f"{room}/made.o"]
    c_library = [f"{kit()}/c/libos_c.a", f"{kit()}/c/liblibc_c.a"]
    return call([prover(), "build", *compiled], room, log) and call([f"{kit()}/bin/rattle-link", *linked, *c_library], room, log)


def main(program, log):
    out = f"{TOP}/crates/{program}/out"
    os.makedirs(out, exist_ok=True)
    with open(f"{TOP}/crates.txt", encoding="utf-8") as lock, open(log, "a", encoding="utf-8") as file:
        # One build at a time; what waits finds all that it wants built.
        fcntl.flock(lock, fcntl.LOCK_EX)
        libraries = list(below(program))
        count = len(stale_of(libraries)) + 1
        if not build_libraries(libraries, file, above=1):
            return 1
        began = time.monotonic()
        file.write(f"== {program}\n")
        file.flush()
        room = tempfile.mkdtemp(prefix="building-", dir=out)
        try:
            if not build_program(program, room, file):
                return 1
            os.rename(f"{room}/made", f"{out}/{program}")
        finally:
            shutil.rmtree(room, ignore_errors=True)
        tell(count, count, program, began)
        return 0


if __name__ == "__main__":
    sys.exit(main(*sys.argv[1:]))
