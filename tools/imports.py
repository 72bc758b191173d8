#!/usr/bin/env python3
"""Looks up what files import of the specs and proofs of the repository's crates: `tools/imports.py`.

A name that its file doesn't define, and a file that isn't there, are told in a second, and not by the gate an hour
later. What the kit makes of sources (declared types, goals) isn't looked up. The exit status is 1 where one is missing.
"""
import functools
import glob
import os
import re
import sys

from crates import TOP

# Where imports of the crates' specs and proofs stand.
FILES = ("crates/*/specs/**/*.antt", "crates/*/proofs/**/*.antt", "crates/*/src/**/*.rt", "tests/played/**/*.rattle")
# An import: the crate, the folder, the path of the file, and names in braces where it has some.
IMPORT = re.compile(r"use Rattle\.(dr_\w+)\.(specs|proofs)\.([\w.+-]+?)(?:\.\{([^}]*)\}| as \w+|;|\n)")
# What the kit makes of the sources.
MADE = re.compile(r"declared\b|contracts\b|.*\.(?:Goals|Given|Met)\b|.*\.(?:TheVariants|TheSendSync)\b")


@functools.cache
def lines_of(crate, folder, path):
    """The lines of a file but for imports and comments; None where there is no such file."""
    try:
        with open(f"{TOP}/crates/{crate}/{folder}/{path.replace('.', '/')}.antt", encoding="utf-8") as file:
            return "\n".join(it for it in file.read().split("\n") if not it.lstrip().startswith(("use ", "--")))
    except FileNotFoundError:
        return None


def is_defined(name, text):
    """Whether the name stands before the first colon of a line, or behind `record` or `data`, or is given on."""
    word = rf"(?<![\w'-]){re.escape(name)}(?![\w'-])"
    return re.search(rf"^[^\n:=]*{word}[^\n:=]*:|\b(?:record|data) {word}|pub use [^\n]*{word}", text, re.MULTILINE)


def missing(crate, folder, path, names):
    """What of an import isn't there, in words."""
    text = lines_of(crate, folder, path)
    if text is None and names is None:
        path, _, names = path.rpartition(".")
        text = lines_of(crate, folder, path)
    if text is None:
        yield f"no file {path} in {folder} of {crate}"
        return
    for name in (names or "").split(","):
        name = name.strip().partition(" as ")[0].strip()
        if name and not is_defined(name, text):
            yield f"{path} in {folder} of {crate} has no {name}"


def faults():
    """What is imported and isn't there, a line each."""
    for pattern in FILES:
        for path in sorted(glob.glob(f"{TOP}/{pattern}", recursive=True)):
            with open(path, encoding="utf-8") as file:
                found = IMPORT.findall(file.read())
            for crate, folder, of, names in found:
                if not MADE.match(of):
                    yield from (f"{os.path.relpath(path, TOP)}: {it}" for it in missing(crate, folder, of, names or None))


def main():
    found = list(faults())
    print("\n".join([*found, f"imports: {len(found)} faults"]))
    return 1 if found else 0


if __name__ == "__main__":
    sys.exit(main())
