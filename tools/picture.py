#!/usr/bin/env python3
"""The picture of the rooms: `tools/picture.py` writes docs/rooms.dot, which
`dot -Tsvg docs/rooms.dot -o docs/rooms.svg` draws.

The rooms are the sections of crates.txt, lowest first: a line '# ROOM: what it has', and the lines of its crates. Each
is a box with its crates; an arrow goes from a room to one that it stands on, but where other arrows lead there too. An
arrow to a later room is dashed: tests/rooms.py lets none pass.
"""
import os
import sys

from crates import TOP, listed


def rooms():
    """The rooms in the order of crates.txt: name, what it has, and its crates."""
    found = []
    with open(f"{TOP}/crates.txt", encoding="utf-8") as file:
        for line in file:
            name, colon, rest = line.strip().partition(":")
            if line.startswith("# ") and colon:
                found.append((name.removeprefix("# "), rest.strip(), []))
            elif colon and not line.startswith("#"):
                found[-1][2].append(name.split()[0])
    return found


def room_of():
    """The place of each crate's room."""
    return {crate: at for at, (_, _, crates) in enumerate(rooms()) for crate in crates}


def arrows():
    """From each room those that it stands on, by their places, without those to which the others lead too."""
    places = room_of()
    uses = {at: set() for at in places.values()}
    for crate, at in places.items():
        uses[at] |= {places[it] for it in listed()[crate][0] if places[it] < at}

    def reached(at, seen):
        for it in uses[at] - seen:
            seen.add(it)
            reached(it, seen)
        return seen
    return {at: {it for it in found if not any(it in reached(other, set()) for other in found - {it})} for at, found in uses.items()}


def arrows_up():
    """The arrows to later rooms, by the places of both."""
    places = room_of()
    return sorted({(places[crate], places[it]) for crate in places for it in listed()[crate][0] if places[it] > places[crate]})


def text():
    """The picture, as Graphviz reads it."""
    lines = ["// Made from crates.txt by tools/picture.py.", "digraph rooms {", "    rankdir=BT;",
             '    node [shape=plain, fontname="Helvetica", fontsize=11];', "    edge [dir=back, arrowtail=normal];"]
    for name, what, crates in rooms():
        rows = "".join(f'<tr><td align="left">{it}</td></tr>' for it in crates)
        lines.append(f'    {name} [tooltip="{what}", label=<<table border="1" cellborder="0" cellspacing="0" cellpadding="2">'
                     f'<tr><td bgcolor="#dddddd"><b>{name}</b></td></tr>{rows}</table>>];')
    names = [name for name, _, _ in rooms()]
    for at, found in sorted(arrows().items()):
        lines += [f"    {names[it]} -> {names[at]};" for it in sorted(found)]
    lines += [f"    {names[it]} -> {names[at]} [style=dashed, constraint=false];" for at, it in arrows_up()]
    return "\n".join([*lines, "}", ""])


def main():
    with open(f"{TOP}/docs/rooms.dot", "w", encoding="utf-8") as file:
        file.write(text())


if __name__ == "__main__":
    sys.exit(main())
