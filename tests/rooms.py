#!/usr/bin/env python3
"""Looks at the rooms of crates.txt: `tests/rooms.py`.

Each crate is in the section of its room, behind those of the room that it stands on; no arrow goes up to a later room;
each folder of crates/ has its line, and each library of a line is named by the crate; the picture in docs/ is that of
crates.txt; docs/ARCHITECTURE.md has the table of `tools/rename --table`, whose old names are no crates, and whose new
ones are there; and its lists of crates and docs/PROVED.md have them in the order of crates.txt. No two crates define a
record, a type or a law of one name in their specs, and no definition stands there twice, by whatever name. A relation
of two crates may have one name, where each is the crate's own instance of one idea: `Reads`, `Opens`, `IsAt`. That it
is one idea isn't tested. docs/DEFINITIONS.md tells about how many lines each file has.
"""
import glob
import os
import re
import subprocess
import sys

TOP = os.path.dirname(os.path.dirname(os.path.abspath(__file__)))
sys.dont_write_bytecode = True
sys.path.insert(0, f"{TOP}/tools")
import picture
from crates import listed, sources_of

# Crates whose names don't have their room's stem, with their rooms: the names are those of the program and of the field.
OTHER_NAMES = {
    "dr_ulstate": "wire", "dr_pdu": "wire", "dr_dimse": "wire", "dr_dimse_scan": "wire", "dr_dataset": "wire",
    "dr_route": "plan", "dr_check": "cert", "dr_check_reasons": "cert", "dr_certify": "cert", "dr_site": "cert",
    "dr_nego": "run", "dr_session": "run", "dr_desk": "run", "dr_desk_workers": "run", "dr_node": "world",
    "dr_certifier": "program", "dr_checker": "program", "dr_router": "program",
}

# A definition of a specs file that others can use: its words, and its name.
DEFINED = re.compile(r"((?:abbrev|unfoldable|opaque|pub|record|data) (?:(?:abbrev|unfoldable|opaque|pub|record|data) )*)"
                     r"([^\s:({]+)")
# A word of a definition: a text, a name with the name that it is of, or a sign.
WORD = re.compile(r"\"[^\"]*\"|[\w'«»◌][\w'«»◌.-]*|\S")
# An import: what is imported, the names of it in braces, and the name that all of it has here.
IMPORT = re.compile(r"^use (Rattle\.[^\s{]+?)(?:\.\{([^}]*)\})?(?: as (\w+))?$", re.MULTILINE)
# A crate, or a file of specs with its lines, as docs/DEFINITIONS.md names them.
TOLD = re.compile(r"`(dr_\w+)`|`(?:specs/)?(\w+)\.antt`(?:\s+\((\d+)(?: lines)?\))?")
# Names of equations' patterns that are no variables.
CONSTRUCTORS = {"suc", "zero", "inl", "inr", "tt", "true", "false"}
# Definitions that have one text and say different things, with what each says.
BY_ACCIDENT = (
    {"most", "piece"},  # how much a plan may stand for; the bytes of a piece of a data set
    {"OfSet", "Pair"},  # a set's name with a class of it; two parts of a row's or an arrival's key
    {"Print", "Goal"},  # a data set's length and SHA-256; a line's number and a name
    {"ends_row", "is_taken"},  # a row is done after this outcome; the receiver has the instance
    {"next_number", "one_more"},  # the number of a journal's next line; a count of visits, which stays at its greatest
)


def definitions(crate):
    """Each definition of a crate's specs: its words, its name, its text without comments, and what names mean there."""
    for path in sorted(glob.glob(f"{TOP}/crates/{crate}/specs/*.antt")):
        with open(path, encoding="utf-8") as file:
            lines = [line for line in file.read().split("\n") if not line.startswith("--")]
        meanings = meanings_in(f"Rattle.{crate}.specs.{os.path.basename(path)[:-5]}", "\n".join(lines))
        for number, line in enumerate(lines):
            # In a module with parameters it is indented, as are the fields of a record.
            found = DEFINED.match(line.lstrip() if line.lstrip().startswith("abbrev ") else line)
            if found and "pub " in found[1] and found[2] not in ("mod", "use"):
                end = next((at for at in range(number, len(lines)) if not lines[at].strip()), len(lines))
                text = " ".join(" ".join(lines[number:end]).split())
                yield found[1].split(), found[2], text[len(found[1]):], meanings


def meanings_in(module, text):
    """What each name stands for in the module with that text: a path."""
    meanings = {name: f"{module}.{name}" for _, name in DEFINED.findall(text)}
    for path, names, alias in IMPORT.findall(text):
        if alias:
            meanings[alias] = path
        for name in names.split(","):
            name, _, here = name.strip().partition(" as ")
            meanings[here or name] = f"{path}.{name}"
    return meanings


def variables(words, name, text):
    """The names that a definition gives to what it speaks of: they may be any."""
    found = re.findall(r"[({]\s*((?:[^\s(){}:.,]+ )+):", text) + re.findall(r"λ ([^.]*)\.", text)
    if "record" not in words and "data" not in words:
        found += re.findall(rf"(?:^| ){re.escape(name)} ([^=]*?) = ", text)
    names = {it for part in found for it in re.findall(r"[^\s(){}.,:∷\[\]]+", part)}
    return {it for it in names if it not in CONSTRUCTORS and not it[0].isupper() and not it[0].isdigit()}


def meaning(words, name, text, meanings):
    """A definition's text without its own name and its variables' names, and with the paths of all others."""
    text = text.replace("(List ℕ)", "Text").replace("List ℕ", "Text")
    free, given, said = variables(words, name, text), {}, []
    for word in WORD.findall(text):
        first, _, rest = word.partition(".")
        if word == name:
            said.append("itself")
        elif first in free:
            said.append(f"{given.setdefault(first, len(given))}.{rest}")
        elif word == "Text":
            said.append(word)
        else:
            said.append(f"{meanings.get(first, first)}.{rest}")
    return words, " ".join(said)


def shared_names():
    """The names that two crates define in their specs as types or laws, and the definitions that stand twice, a line each."""
    types, texts = {}, {}
    for crate in listed():
        for words, name, text, meanings in definitions(crate):
            if "record" in words or "data" in words or re.match(rf"{re.escape(name)} : Type 0 (?!→)", text):
                types.setdefault(name, {})[crate] = True
            texts.setdefault(str(meaning(words, name, text, meanings)), []).append((crate, name))
    for name, crates in types.items():
        if len(crates) > 1:
            yield f"{name} is defined in the specs of {', '.join(crates)}"
    for places in texts.values():
        if len(places) > 1 and {name for _, name in places} not in BY_ACCIDENT:
            yield f"one definition stands twice: {', '.join(f'{name} of {crate}' for crate, name in places)}"


def old_names():
    """What isn't right in the table of old names, a line each."""
    ran = subprocess.run([f"{TOP}/tools/rename", "--table"], check=True, capture_output=True, text=True)
    with open(f"{TOP}/docs/ARCHITECTURE.md", encoding="utf-8") as file:
        found = re.search(r"^\| old \| new \|\n(?:\|.*\n)*", file.read(), re.MULTILINE)
    if found is None or found[0] != ran.stdout:
        yield "the table of old names in docs/ARCHITECTURE.md isn't that of tools/rename --table"
    for old, new in re.findall(r"^\| `(\w+)` \| `([\w/]+)` \|$", ran.stdout, re.MULTILINE):
        if old in listed() or new not in listed() and not os.path.isdir(f"{TOP}/{new}"):
            yield f"tools/rename --table has {old}, which is {new} now"


def unnamed(crate):
    """The libraries of a crate's line that it doesn't name."""
    text = ""
    for path in sources_of(crate):
        with open(path, encoding="utf-8") as file:
            text += file.read()
    return [it for part in listed()[crate] for it in part if not re.search(rf"\b{it}\b", text)]


def out_of_order(page, pattern):
    """The crates of a page's lines of that pattern that stand behind one of crates.txt's later ones, room by room, a line each."""
    order, last = list(listed()), -1
    with open(f"{TOP}/{page}", encoding="utf-8") as file:
        for line in file:
            found = re.match(pattern, line)
            if line.startswith("#") and not found:
                last = -1
            elif found and found[1] in order:
                if order.index(found[1]) < last:
                    yield f"{page} has {found[1]} behind a crate that stands above it in crates.txt"
                last = order.index(found[1])


def miscounted():
    """The files of which docs/DEFINITIONS.md tells more or fewer lines than they have, imports and empty ones aside, a line each."""
    with open(f"{TOP}/docs/DEFINITIONS.md", encoding="utf-8") as file:
        page = file.read()
    crate = None
    for found in TOLD.finditer(page):
        crate = found[1] or crate
        if found[3]:
            try:
                with open(f"{TOP}/crates/{crate}/specs/{found[2]}.antt", encoding="utf-8") as file:
                    count = sum(1 for line in file if line.strip() and not line.startswith(("use ", "pub use ", "pub mod ")))
            except FileNotFoundError:
                yield f"docs/DEFINITIONS.md has {found[2]}.antt of {crate}, which isn't there"
                continue
            if abs(count - int(found[3])) > 7:
                yield f"docs/DEFINITIONS.md: {found[2]}.antt of {crate} has {count} lines, and not {found[3]}"


def faults():
    """What isn't as it is to be, a line each."""
    yield from out_of_order("docs/ARCHITECTURE.md", r"- `(dr_\w+)`:")
    yield from out_of_order("docs/PROVED.md", r"### `(dr_\w+)`")
    places, names = picture.room_of(), [name for name, _, _ in picture.rooms()]
    order = list(places)
    for crate in order:
        own = OTHER_NAMES.get(crate)
        if names[places[crate]] != own and not (own is None and f"{crate}_".startswith(f"dr_{names[places[crate]]}_")):
            yield f"{crate} is in the room {names[places[crate]]}"
        yield from (f"{crate} has {library} in its line, and doesn't name it" for library in unnamed(crate))
        for library in listed()[crate][0]:
            if places[library] > places[crate]:
                yield f"{crate} stands on {library}, of a later room"
            if places[library] == places[crate] and order.index(library) > order.index(crate):
                yield f"{crate} has its line before {library}, on which it stands"
    for folder in sorted(os.listdir(f"{TOP}/crates")):
        if folder not in listed():
            yield f"crates/{folder} has no line"
    with open(f"{TOP}/docs/rooms.dot", encoding="utf-8") as file:
        if file.read() != picture.text():
            yield "docs/rooms.dot isn't that of crates.txt: run tools/picture.py, and draw docs/rooms.svg by dot"
    with open(f"{TOP}/docs/rooms.svg", encoding="utf-8") as file:
        drawn = file.read()
    for crate in listed():
        if f">{crate}<" not in drawn:
            yield f"docs/rooms.svg lacks {crate}: draw it by dot -Tsvg docs/rooms.dot"
    yield from shared_names()
    yield from miscounted()
    yield from old_names()


def main():
    found = list(faults())
    print("\n".join([*found, f"rooms: {len(found)} faults"]))
    return 1 if found else 0


sys.exit(main())
