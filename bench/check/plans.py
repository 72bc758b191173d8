"""The plans that the checker is measured on, as texts: each has close to the most that a plan may have."""

SYNTAXES = ["1.2.840.10008.1.2", "1.2.840.10008.1.2.1"]


def quoted(texts):
    return "[" + ", ".join(f'"{it}"' for it in texts) + "]"


def node(number, name):
    return ["[[node]]", f'name = "{name}"', f'address = "127.0.0.1:{11000 + number}"']


def accept(name):
    return ["[[node.accept]]", 'from = "*"', f'class = "{name}"', f"syntax = {quoted(SYNTAXES)}"]


def rule(modality, station, what):
    return ["[[node.rule]]", f'modality = "{modality}"', f'station = "{station}"', what]


def flow(at, to, classes):
    lists = [f"class = {quoted(classes)}", f"syntax = {quoted(SYNTAXES)}", 'modality = "*"', 'station = "*"']
    return ["[[flow]]", f'at = "{at}"', f'to = "{to}"', *lists]


def many_lines():
    """One flow over one hop: 64 classes x 2 syntaxes x 16 x 16 parts are 32,768 cells, each with 2 lines: 65,536."""
    classes = [f"1.2.840.10008.5.1.4.1.1.{it}" for it in range(1, 65)]
    lines = [*node(1, "CT1"), *node(2, "ARCH")]
    for it in classes:
        lines += accept(it)
    lines += ["[[node.rule]]", "keep = true"]
    for it in range(1, 16):
        lines += rule(f"M{it}", f"S{it}", "keep = true")
    return lines + flow("CT1", "ARCH", classes)


def many_rules():
    """A line of 64 nodes, with 960 rules and 64 flows: each sends to the next one, and by 14 of its 15 rules to the one
    after that as well, where there is one; the last one keeps. Instances enter at each node but the last: 480 cells at
    each."""
    name = "1.2.840.10008.5.1.4.1.1.2"
    names = [f"N{it:02}" for it in range(64)]
    lines = []
    for number, here in enumerate(names):
        lines += node(number, here) + accept(name)
        nearest = "keep = true" if here == names[-1] else f"to = {quoted(names[number + 1:number + 2])}"
        further = nearest if number + 2 >= len(names) else f"to = {quoted(names[number + 2:number + 3])}"
        lines += ["[[node.rule]]", nearest]
        for it in range(1, 15):
            lines += rule(f"M{it}", f"S{it + number % 2}", further)
    for here, after in zip(names, names[1:]):
        lines += flow(here, after, [name])
    return lines + flow(names[0], names[2], [name])


def lists(at, to, classes, modalities, stations):
    """A flow in Explicit VR with these lists."""
    values = {"at": f'"{at}"', "to": f'"{to}"', "class": quoted(classes), "syntax": quoted(SYNTAXES[1:])}
    values |= {"modality": quoted(modalities), "station": quoted(stations)}
    return ["[[flow]]", *(f"{key} = {value}" for key, value in values.items())]


def numbered(front, count):
    return [f"{front}{it}" for it in range(count)]


KEEP = ["[[node.rule]]", "keep = true"]


def same_flows():
    """1,000 flows at one site, each with the same 128 modalities and 255 stations."""
    lines = [*node(1, "CT1"), *node(2, "ARCH"), *accept("1.2"), *KEEP]
    return lines + 1000 * lists("CT1", "ARCH", ["1.2"], numbered("M", 128), numbered("S", 255))


def repeated_targets():
    """One rule that names its target 10,000 times, on the way of 12,800 cells."""
    rule = ["[[node.rule]]", f"to = {quoted(10000 * ['ARCH'])}"]
    lines = [*node(1, "CT1"), *node(2, "GATE"), *accept("1.2"), *rule, *node(3, "ARCH"), *accept("1.2"), *KEEP]
    return lines + lists("CT1", "GATE", ["1.2"], numbered("M", 80), numbered("S", 160))


def many_accepts():
    """10,000 rows of accepts at a node, of which the last counts, with 32,000 lines."""
    rows = [line for it in numbered("9.", 10000) for line in accept(it)]
    lines = [*node(1, "CT1"), *node(2, "ARCH"), *rows, *accept("1.2"), *KEEP]
    return lines + lists("CT1", "ARCH", ["1.2"], numbered("M", 160), numbered("S", 200))


def many_values(count):
    """A flow with so many modalities and one station, one with one modality and so many stations, and one of 200 classes
    that takes in every modality, but no station: nothing enters by it."""
    lines = [*node(1, "CT1"), *node(2, "ARCH"), *accept("1.2"), *KEEP]
    lines += lists("CT1", "ARCH", ["1.2"], numbered("M", count), ["S"]) + lists("CT1", "ARCH", ["1.2"], ["M"], numbered("S", count))
    nothing = lists("CT1", "ARCH", numbered("1.", 200), [], [])
    return lines + ['modality = "*"' if it.startswith("modality") else it for it in nothing]


def nested_prefixes():
    """1,000 rules of one node, each for the stations that begin with another prefix: 16 chains of prefixes that begin each other, 64
    deep but for the last."""
    prefixes = [chain * depth for chain in "ABCDEFGHIJKLMNOP" for depth in range(1, 65)][:1000]
    lines = ["format = 2", *node(1, "CT1"), *node(2, "GATE"), *accept("1.2"), *node(3, "ARCH"), *accept("1.2"), *KEEP]
    at = lines.index('name = "ARCH"') - 1
    rules = [line for it in prefixes for line in ["[[node.rule]]", f'station = "{it}*"', 'to = ["ARCH"]']]
    rules += ["[[node.rule]]", 'to = ["ARCH"]']
    values = {"at": '"CT1"', "to": '"GATE"', "class": quoted(["1.2"]), "syntax": quoted(SYNTAXES), "modality": '"*"', "station": '"*"'}
    return lines[:at] + rules + lines[at:] + ["[[flow]]", *(f"{key} = {value}" for key, value in values.items())]


PLANS = {
    "65,536 lines": many_lines, "64 nodes, 1,024 rules and flows": many_rules, "1,000 flows with the same lists": same_flows,
    "a target named 10,000 times": repeated_targets, "10,000 rows of accepts": many_accepts,
    "4,000 modalities and stations": lambda: many_values(4000), "16,000 modalities and stations": lambda: many_values(16000),
    "1,000 prefixes, nested 64 deep": nested_prefixes,
}


def text_of(lines):
    return "\n".join(lines) + "\n"
