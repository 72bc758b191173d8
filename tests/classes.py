#!/usr/bin/env python3
"""Compares the storage classes that plans of format 3 name with a second copy of PS3.6, and looks at the sets that come
with the product.

The second copy is that of pydicom (Debian's python3-pydicom). Where it isn't there the test says so, and looks at the
tables alone. A class is left out that is retired, or of another standard (DICOS, DICONDE), and what stores nothing
(storage commitment, a directory).
"""
import os
import re
import sys

TOP = os.path.dirname(os.path.dirname(os.path.abspath(__file__)))
SOURCES = f"{TOP}/crates/dr_plan_expand/src"
COPY = "/usr/lib/python3/dist-packages/pydicom/_uid_dict.py"


def rows_of(name):
    """The rows of a file of tables, each as a tuple of its texts."""
    with open(f"{SOURCES}/{name}.rt", encoding="utf-8") as file:
        text = file.read()
    tables = re.findall(r"(?:pub )?static \w+: \[\w+; \d+\] = \[\n(.*?)\n\];", text, re.S)
    rows = re.findall(r"\(([^()]*)\)", "\n".join(re.sub(r'"[^"]*"', lambda m: m[0].replace("(", "\0").replace(")", "\1"), t) for t in tables))
    return [tuple(it.replace("\0", "(").replace("\1", ")") for it in re.findall(r'"([^"]*)"', row)) for row in rows]


def copied():
    """The classes of the second copy, as keyword, name and UID; None where it isn't there."""
    if not os.path.isfile(COPY):
        return None
    found = {}
    with open(COPY, encoding="utf-8") as file:
        exec(file.read(), found)  # pylint: disable=exec-used
    rows = []
    for uid, (name, kind, part, retired, keyword) in found["UID_dictionary"].items():
        if kind == "SOP Class" and "Storage" in name and not retired and not part and "Commitment" not in name and "Directory" not in name:
            rows.append((keyword, name, uid))
    return sorted(rows, key=lambda row: [int(it) for it in row[2].split(".")])


def faults_of(classes, syntaxes, sets, copy):
    """What is wrong with the tables, one line each."""
    words = [it for row in (*classes, *syntaxes) for it in row[:2]]
    uids = [row[2] for row in classes]
    if len(words) != len(set(words)):
        yield "a keyword or a name stands twice"
    for uid in (*uids, *(row[2] for row in syntaxes)):
        if not re.fullmatch(r"[0-9.]{1,64}", uid):
            yield f"{uid}: no UID"
    for word in words:
        if re.fullmatch(r"[0-9.]*", word) or word.startswith("@"):
            yield f"{word}: no name"
    for name, uid in sets:
        if uid not in uids:
            yield f"{name}: {uid} is no class of the tables"
    if [uid for name, uid in sets if name == "all-storage"] != uids:
        yield "all-storage isn't every class"
    if copy is not None and copy != classes:
        yield from (f"not in the tables: {row}" for row in copy if row not in classes)
        yield from (f"not in the second copy: {row}" for row in classes if row not in copy)
        yield "the tables are not the second copy"


def main():
    classes, syntaxes, sets = rows_of("classes"), rows_of("syntaxes"), rows_of("usual")
    copy = copied()
    if copy is None:
        print(f"classes: no second copy ({COPY} is missing): only the tables themselves are looked at")
    faults = list(faults_of(classes, syntaxes, sets, copy))
    for fault in faults:
        print(f"classes: {fault}")
    print(f"{len(classes)} classes, {len({name for name, _ in sets})} sets, {len(faults)} faults")
    return 1 if faults else 0


if __name__ == "__main__":
    sys.exit(main())
