#!/usr/bin/env python3
"""Prints the version of the program: `tools/version.py`.

It is told once, by the source of the crate that prints it. All else asks here: `packaging/build`, which puts it into the
manual page, and the tests. Where the newest version of CHANGELOG.md is another one, this is printed, and the exit status
is 1.
"""
import re
import sys

from crates import TOP

SOURCE = "crates/dr_word_line/src/words.rt"
TOLD = re.compile(r'^pub const VERSION: &str = "([^"]*)";$', re.MULTILINE)
# The first version of the changes is the one that is made.
NEWEST = re.compile(r"^## ([0-9.]+)", re.MULTILINE)


def content(path):
    with open(f"{TOP}/{path}", encoding="utf-8") as file:
        return file.read()


def number():
    """The version of the program."""
    (told,) = TOLD.findall(content(SOURCE))
    return told


def faults():
    """Whether the changes tell another version, in a line."""
    newest = NEWEST.search(content("CHANGELOG.md"))
    if newest is None or newest[1] != number():
        yield f"CHANGELOG.md doesn't begin with the version of {SOURCE}"


def main():
    found = list(faults())
    print("\n".join(found) if found else number())
    return 1 if found else 0


if __name__ == "__main__":
    sys.exit(main())
