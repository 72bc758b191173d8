#!/usr/bin/env python3
"""Looks at the form of what is committed, which needs no proof: `tools/formats.py`.

Each source is in the kit's layout; no line of src/ or specs/ is over 100 columns, but for a text that is alone on it;
each wrong body and wrong definition can be applied to the sources as they are; each that wrong/gate names is there; no
type's name is in two crates but for one notion; no function has over seven parameters, and over six functions of a
crate spell out no list of generics with two or more bounds; each file whose first line names what runs it may be run;
the changes tell the version of the sources; each library that a crate's clauses and proofs name is in its line of
crates.txt; no sentence of a page has over 30 words, and no example of docs/PROVING.md is
lost (tools/prose.py). What isn't so is printed, and the exit status is 1.
"""
import os
import re
import subprocess
import sys

import prose
import version
from crates import TOP, listed, prover, sources_of
from wrap import sources, too_long
from wrong import Bad, chosen, read_edit

NAMED = re.compile(r"^(?:pub(?:\([^)]*\))? )?(?:struct|enum|trait|type)\s+(\w+)", re.MULTILINE)
FUNCTION = re.compile(r"\bfn (\w+)(?=[<(])")
MOST_PARAMETERS = 7
# A list of generics, of a function or of an impl.
GENERIC = re.compile(r"\b(?:fn \w+|impl)(?=<)")
MOST_ALIKE = 6
# A library whose definitions or proofs are named.
LIBRARY = re.compile(r"\bRattle\.(\w+)\.")
# Names of one notion that crates have apart: a node of the plan and of the simulator; and tests of a
# name that tell the fault or not.
SAME_NOTION = {"Node", "WellFormed"}
# To be mended when these crates are next proved for something else, since each change of a source proves all above it
# anew: one type has the name of another, and a line is one column too long.
NEXT_TIME = set()


def out_of_layout():
    """The sources that aren't in the kit's layout, as the kit says it."""
    files = [it for crate in listed() for it in sources_of(crate) if it.endswith((".rt", ".antt"))]
    said = []
    for at in range(0, len(files), 400):
        ran = subprocess.run([prover(), "fmt", "--check", *files[at:at + 400]], stdin=subprocess.DEVNULL,
                             stdout=subprocess.PIPE, stderr=subprocess.STDOUT, text=True, errors="replace")
        if ran.returncode != 0:
            said += ran.stdout.strip().split("\n")
    return said


def over_long():
    """The lines that are too long, which tools/wrap.py breaks."""
    return [f"{os.path.relpath(path, TOP)}:{line}: {columns} columns, which tools/wrap.py breaks"
            for path, line, columns in too_long(sources(TOP))]


def unapplied():
    """The edits that can't be applied, and why; and those of the gate that aren't there."""
    said = []
    for crate, paths in {**chosen(["--all"])}.items():
        for path in paths:
            try:
                if crate not in listed():
                    raise Bad("crates.txt has no such crate")
                read_edit(path)
            except (Bad, OSError, UnicodeDecodeError) as error:
                said.append(f"wrong/{crate}/{os.path.basename(path)}: {error}")
    missing = [it for paths in chosen(["--gate"]).values() for it in paths if not os.path.isfile(it)]
    return said + [f"{it.removeprefix(f'{TOP}/')}: wrong/gate names it, and it isn't there" for it in missing]


def shared_names():
    """The types that two crates name alike, though they mean different things by it."""
    found = {}
    for crate in listed():
        for path in (it for it in sources_of(crate) if "/src/" in it and it.endswith(".rt")):
            with open(path, encoding="utf-8") as file:
                for it in NAMED.findall(file.read()):
                    found.setdefault(it, set()).add(crate)
    return [f"the type {it} is in {' and '.join(sorted(crates))}"
            for it, crates in sorted(found.items()) if len(crates) > 1 and it not in SAME_NOTION]


def parameters_of(text, at):
    """How many parameters a function has whose name ends at this place of a text."""
    depth, count, is_begun = 0, 0, False
    start = text.index("(", at) if text[at] != "<" else None
    if start is None:
        # the list of generics, whose bounds may have parentheses of their own
        level = 0
        for place in range(at, len(text)):
            level += (text[place] == "<") - (text[place] == ">" and text[place - 1] not in "-=")
            if level == 0:
                start = text.index("(", place)
                break
    for place in range(start, len(text)):
        char = text[place]
        if char in "([{<":
            depth += 1
        elif char in ")]}" or char == ">" and text[place - 1] not in "-=":
            depth -= 1
            if depth == 0:
                return count + is_begun
        elif depth == 1 and char == ",":
            count, is_begun = count + is_begun, False
        if depth >= 1 and place > start and not char.isspace() and char != ",":
            is_begun = True
    return count


def with_many_parameters():
    """The functions with more than seven parameters."""
    said = []
    for crate in listed():
        for path in (it for it in sources_of(crate) if "/src/" in it and it.endswith(".rt")):
            with open(path, encoding="utf-8") as file:
                text = file.read()
            for it in FUNCTION.finditer(text):
                count, name = parameters_of(text, it.end()), f"{os.path.relpath(path, TOP)}: {it[1]}"
                if count > MOST_PARAMETERS:
                    said.append(f"{name} has {count} parameters")
    return said


def generics_of(text, at):
    """The list of generics that begins at this place of a text, in one line."""
    level = 0
    for place in range(at, len(text)):
        level += (text[place] == "<") - (text[place] == ">" and text[place - 1] not in "-=")
        if level == 0:
            return " ".join(text[at:place + 1].split()).replace("< ", "<").replace(", >", ">")
    return text[at:]


def bounds_in(generics):
    """How many bounds a list of generics has: one for each colon, and one for each plus; those of a bound's own types aren't counted."""
    level, count = 0, 0
    for place, char in enumerate(generics):
        level += (char == "<") - (char == ">" and generics[place - 1] not in "-=")
        count += level == 1 and (char == "+" or char == ":" and ":" not in generics[place - 1:place] + generics[place + 1:place + 2])
    return count


def with_same_generics():
    """The lists of generics that over six functions and impls of a crate spell out: a trait, a struct or an impl is to have them once. A list
    with one bound is no such list, since a function that is generic has to name a trait."""
    said = []
    for crate in listed():
        found = {}
        for path in (it for it in sources_of(crate) if "/src/" in it and it.endswith(".rt")):
            with open(path, encoding="utf-8") as file:
                text = re.sub(r"//[^\n]*", "", file.read())
            for it in GENERIC.finditer(text):
                generics = generics_of(text, it.end())
                found[generics] = found.get(generics, 0) + 1
        said += [f"{crate} has {count} functions and impls with {it}" for it, count in found.items()
                 if count > MOST_ALIKE and bounds_in(it) > 1]
    return said


def not_to_be_run():
    """The files that say what runs them, and that the system would not run: a test of the gate that can't be started fails at its end."""
    said = []
    for folder, names, files in os.walk(TOP):
        names[:] = [it for it in names if it not in (".git", "out", "made", "dist", "__pycache__")]
        for path in (f"{folder}/{it}" for it in files):
            with open(path, "rb") as file:
                begins = file.read(2)
            if begins == b"#!" and not os.access(path, os.X_OK):
                said.append(f"{os.path.relpath(path, TOP)}: it names what runs it, and may not be run")
    return said


def unlisted():
    """The libraries that a crate's clauses, specs and proofs name, and its line in crates.txt doesn't. A check over sources sees each
    library that it was passed, so that only the gate would tell, when all below is proved."""
    said = []
    for crate, (own, kits) in listed().items():
        names = set()
        for path in sources_of(crate):
            with open(path, encoding="utf-8") as file:
                names.update(LIBRARY.findall(file.read()))
        said += [f"{crate} names {it}, which its line of crates.txt lacks" for it in sorted(names - {crate, "std", "core", *own, *kits})]
    return said


def main():
    said = out_of_layout() + over_long() + unapplied() + shared_names() + with_many_parameters() + with_same_generics() + not_to_be_run()
    said += unlisted()
    said += [*version.faults(), *prose.faults(prose.all_pages())]
    # What is on the list and mended has to leave it.
    said = [it for it in said if it not in NEXT_TIME] + [f"mended, but still listed: {it}" for it in NEXT_TIME.difference(said)]
    print("\n".join(said), end="\n" * bool(said))
    print(f"formats: {len(said)} faults")
    return 1 if said else 0


if __name__ == "__main__":
    sys.exit(main())
