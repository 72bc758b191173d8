#!/usr/bin/env python3
"""Expands plans of format 3 a second time, in Python, by the definitions of dr_plan_expand.

    tests/expansions.py [PROGRAM]

What it expands is its own expansion; plans/hospital-by-names.toml means what plans/hospital.toml says; small plans mean
what is written beside them here; and each word that nobody defines is found. What the program expands is compared byte
by byte, where it is built; and so is what it says of plans whose modalities are prefixes, worked by hand.
"""
import hashlib
import json
import os
import subprocess
import sys
import tempfile
import tomllib

sys.dont_write_bytecode = True
from classes import TOP
from lib.plan_expand import SETS, TooMuch, Unknown, core_of, expanded

PROGRAM = sys.argv[1] if sys.argv[1:] else f"{TOP}/crates/dr_router/out/dr_router"


def as_sets(core):
    """A plan without the order of its tables."""
    return ({(node["name"], node.get("address"), node["max_pdu"], frozenset(map(repr, (sorted(it.items()) for it in node["accept"]))),
              frozenset(map(repr, (sorted(it.items()) for it in node["rule"])))) for node in core["node"]},
            sorted(repr(sorted(it.items())) for it in core["flow"]))


NODE = '[[node]]\nname = "{}"\naddress = "h:1"\n'
FLOW = '[[flow]]\nat = {}\nto = "B"\nclass = {}\nsyntax = ["ExplicitVRLittleEndian"]\nmodality = "*"\nstation = ["S*", "S"]\n'

# What small plans of format 3 mean: the callers, classes and targets of their rules and rows, or the word that nobody defines.
SMALL = [
    ('[set]\nct = ["1.2", "CT Image Storage"]\n' + FLOW.format('"A"', '["@ct", "1.2"]'), [("A", "B", ["1.2", "1.2.840.10008.5.1.4.1.1.2", "1.2"])]),
    (FLOW.format('["A", "C"]', '"MRImageStorage"'), [("A", "B", ["1.2.840.10008.5.1.4.1.1.4"]), ("C", "B", ["1.2.840.10008.5.1.4.1.1.4"])]),
    ('[group]\nall = ["A", "C"]\n' + FLOW.format('"@all"', '"1.2"'), [("A", "B", ["1.2"]), ("C", "B", ["1.2"])]),
    (FLOW.format('"A"', '"@mr"'), [("A", "B", [uid for name, uid in SETS if name == "mr"])]),
    (FLOW.format('"@all"', '"1.2"'), "@all"),
    (FLOW.format('"A"', '"@none"'), "@none"),
    (FLOW.format('"A"', '"CT Image"'), "CT Image"),
    ('[set]\nct = ["@mr"]\n' + FLOW.format('"A"', '"@ct"'), "@mr"),
]

# Where nodes listen, in one spelling: how each of these is written, the first as the expansion has it.
PLACES = [
    ['listens = false\n'],
    ['address = "h:1"\n', 'address = "h:1"\nlistens = true\n', 'listens = true\naddress = "h:1"\n'],
    ['address = "h:1"\nbind = "[::]:1"\n', 'bind = "[::]:1"\nlistens = true\naddress = "h:1"\n'],
    ['address = "[2001:db8::1]:104"\n'],
]

# What a rule excepts, in one spelling: how each of these is written, the first as the expansion has it.
EXCEPTIONS = [
    ['to = ["B"]\n', 'to = ["B"]\nexcept = []\n'],
    ['except = ["CT8", "CT9"]\nto = ["B"]\n', 'to = ["B"]\nexcept = ["CT9", "CT8"]\n', 'except = ["CT9", "CT8", "CT9", "CT8"]\nto = ["B"]\n'],
    ['except = ["", "\\"", "CT 9", "CT9", "a"]\nto = ["B"]\n', 'except = ["a", "CT9", "", "CT 9", "\\""]\nto = ["B"]\n'],
]


def excepting(lines):
    """A rule of format 3 for two callers and two classes, with these lines."""
    return f'format = 3\n{NODE.format("A")}[[node.rule]]\nfrom = ["B", "C"]\nclass = ["1.2", "1.3"]\nstation = "CT*"\n{lines}'


def each_excepting(lines):
    """What it stands for."""
    rules = [f'\n[[node.rule]]\nfrom = "{it}"\nclass = "{uid}"\nmodality = "*"\nstation = "CT*"\n{lines}keep = false\n' for it in "BC" for uid in ("1.2", "1.3")]
    return f'format = 3\n\n{NODE.format("A")}max_pdu = 16384\n{"".join(rules)}'


# What no plan is, of a node A in format 3, with the place that is told.
NO_PLACES = [
    ('', 'address: it is missing'), ('bind = "h:1"\n', 'address: it is missing'), ('listens = true\n', 'address: it is missing'),
    ('listens = false\naddress = "h:1"\n', 'address: it has to be'), ('listens = false\nbind = "h:1"\n', 'bind: it has to be'),
    ('listens = "no"\n', 'listens: it has to be true or false'), ('address = "h:1"\nbind = "h"\n', 'bind: it has to be'),
    (f'listens = false\n[[node.accept]]\nfrom = "*"\nclass = "1.2"\nsyntax = ["ExplicitVRLittleEndian"]\n', 'accept: it has to be'),
]

# And in format 2, which has none of these keys.
EARLIER = [('listens = false\n', 'listens'), ('address = "h:1"\nlistens = true\n', 'listens'), ('address = "h:1"\nbind = "h:2"\n', 'bind')]


# Plans at the most that one may stand for, and above it: 512 callers and classes in a rule, one node and the words of a group.
RULE = '[[node.rule]]\nfrom = {}\nclass = {}\n'


def rule_of(callers, classes):
    return NODE.format("A") + RULE.format(*(json.dumps([f"{it}{n}" for n in range(count)]) for it, count in (("N", callers), ("1.", classes))))


LARGE = [f"format = 3\n{it}" for it in (
    rule_of(256, 1023), rule_of(257, 1020), rule_of(256, 1024), rule_of(1024, 255), rule_of(1, 1025), rule_of(1025, 1), rule_of(1024, 1024),
    f'[group]\ng = {json.dumps(["N"] * 1024)}\n' + rule_of(1, 254).replace('"N0"', '"@g"'), f'[group]\ng = {json.dumps(["N"] * 1024)}\n' + rule_of(1, 256).replace('"N0"', '"@g"'),
    rule_of(1, 1).replace("N0", "N" * 128), rule_of(1, 1).replace("N0", "N" * 129),
)]
"""Whether each of them is within the bound, by hand."""
WITHIN = [True, True, False, True, False, False, False, True, False, True, False]


# ---- modalities that begin alike

EXPLICIT = "1.2.840.10008.1.2.1"
TAKES = f'[[node.accept]]\nfrom = "*"\nclass = "1.2"\nsyntax = ["{EXPLICIT}"]\n'
BY_MODALITY = '[[node.rule]]\nmodality = "{}"\n{}\n'
TO_ARCH, KEPT = 'to = ["ARCH"]', "keep = true"
ENTERS = f'[[flow]]\nat = "CT1"\nto = "GATE"\nclass = ["1.2"]\nsyntax = ["{EXPLICIT}"]\nstation = "*"\nmodality = '


def by_modality(*rules, enters=("C*",)):
    """A plan whose GATE has these rules, each a modality and what is done with it; ARCH keeps all."""
    gate = NODE.format("GATE") + TAKES + "".join(BY_MODALITY.format(*it) for it in rules)
    arch = NODE.format("ARCH") + TAKES + f"[[node.rule]]\n{KEPT}\n"
    return f'format = 3\n{NODE.format("CT1")}{gate}{arch}{ENTERS}{json.dumps(list(enters))}\n'


OLD = by_modality(("C*", TO_ARCH), ("CR", KEPT))
NEW = by_modality(("CT*", TO_ARCH), ("C*", KEPT))
LOST = by_modality(("C*", TO_ARCH), enters=("M*", "C*"))

# What OLD's certificate says behind the digest.
LINES = "hop\tCT1\tGATE\t1\tPAIR\nhop\tGATE\tARCH\t1\tPAIR\n" + "".join(
    f"line\t{caller}\t{node}\tPAIR\t{modality}\t*\t{rank}\n"
    for caller, node, rank in (("-", "CT1", 2), ("CT1", "GATE", 1), ("GATE", "ARCH", 0)) for modality in ("C*", "CR")) + "end\n"
ON_ITS_WAY = "rank\t2\nhop\tCT1\tGATE\t1\nhop\tGATE\tARCH\t1\n"

# What is printed of OLD for an image of a modality: the longest prefix is its part, and rules of it and of the value both hold.
ROUTES = [
    ("CT", "cell\tPAIR\tC*\t*\n" + ON_ITS_WAY + "keep\tARCH\n", 0), ("C", "cell\tPAIR\tC*\t*\n" + ON_ITS_WAY + "keep\tARCH\n", 0),
    ("CR", "cell\tPAIR\tCR\t*\n" + ON_ITS_WAY + "keep\tARCH\nkeep\tGATE\n", 0), ("MC", "no\tG1 NoLine\n", 1), ("", "no\tG1 NoLine\n", 1),
]

# Rows over OLD: of a prefix that the plan doesn't name it is asked as of one that it names.
ROWS = [
    ('modality = "C*"\nkeep = ["ARCH"]\n', "yes\n", 0), ('modality = "CR"\nkeep = ["ARCH", "GATE"]\n', "yes\n", 0),
    ('modality = "CT"\nkeep = ["GATE"]\n', "no\t1\tkeep GATE\tCT1\tPAIR\tCT\t*\n", 1),
    ('modality = "C*"\nkeep = ["GATE"]\n', "no\t1\tkeep GATE\tCT1\tPAIR\tC*\t*\n", 1),
    ('modality = "CR*"\nkeep = ["GATE"]\n', "no\t1\tkeep GATE\tCT1\tPAIR\tCR*\t*\n", 1),
    ('modality = "CR*"\nnever = ["ARCH"]\n', "no\t1\tnever ARCH\tCT1\tPAIR\tCR*\t*\n", 1), ('modality = "M*"\nkeep = ["ARCH"]\n', "no\t1\tnothing\n", 1),
]

# What changes from OLD to NEW, over the parts that neither tells apart.
CHANGES = ["lost\tCT1\tPAIR\tCR\t*\tARCH", "lost\tCT1\tPAIR\tC*\t*\tARCH", "gained\tCT1\tPAIR\tC*\t*\tGATE", "gained\tCT1\tPAIR\tCT*\t*\tGATE"]
REASON = 'of a modality that begins with "M" and a station that the plan doesn\'t name'


def asked(room, word, *rest, **files):
    """What the program prints for files of these texts, and its status."""
    for name, text in files.items():
        with open(f"{room}/{name}", "w", encoding="utf-8") as file:
            file.write(text.replace("PAIR", f"1.2\t{EXPLICIT}"))
    ran = subprocess.run([PROGRAM, word, *(f"{room}/{it}" for it in files), *rest], capture_output=True, text=True, check=False)
    return ran.stdout.replace(f"1.2\t{EXPLICIT}", "PAIR"), ran.stderr, ran.returncode


def certificate_of(text, lines):
    return f"certificate\t3\nplan\t{hashlib.sha256(expanded(text).encode()).hexdigest()}\n{lines}"


def modalities_alike(room):
    """What the program says otherwise of plans whose modalities are prefixes."""
    certificate = certificate_of(OLD, LINES)
    own = {"plan": OLD, "certificate": certificate}
    cases = [("check", (certificate, 0), asked(room, "check", plan=OLD)), ("verify", ("yes\n", 0), asked(room, "verify", **own))]
    cases += [(f"route {it!r}", (wanted, status), asked(room, "route", "CT1", "1.2", EXPLICIT, it, "S1", **own)) for it, wanted, status in ROUTES]
    cases += [(f"expect {it!r}", (wanted, status), asked(room, "expect", **own, rows=f"[[expect]]\n{it}")) for it, wanted, status in ROWS]
    changed = asked(room, "diff", **own, next=NEW, next_certificate=asked(room, "check", plan=NEW)[0])
    cases.append(("diff", (sorted(CHANGES), 0), (sorted(changed[0].splitlines()), *changed[1:])))
    lost = asked(room, "check", plan=LOST)
    cases += [("a dead end", ("no\tDeadEnd\tPAIR\tM*\t*\tCT1\tGATE\n", 1), lost), ("its reason", (True, 1), (REASON in lost[1], *lost[1:]))]
    for what, wanted, (printed, told, status) in cases:
        if (printed, status) != wanted:
            yield f"modalities that begin alike: {what}: {printed!r} {told} {status}, and not {wanted}"


def placed(place, form=3):
    """A plan of one node, with these lines of where it listens."""
    return f'format = {form}\n[[node]]\nname = "A"\n{place}'


def places(room):
    """What the program says otherwise of where nodes listen."""
    cases = [(it, where, 3) for it, where in NO_PLACES] + [(it, f"{key}: it has to be left out before format 3", 2) for it, key in EARLIER]
    for place, key, form in cases:
        printed, told, status = asked(room, "check", plan=placed(place, form))
        if (printed, status) != ("", 1) or not told.startswith("dr_router: L2 Field\n") or f'node 1 "A", {key}' not in told:
            yield f"{place!r}: {printed!r} {told!r} {status}, and not {key}"


def faults():
    """What isn't as it should be."""
    for first, *others in PLACES:
        for place in (first, *others):
            if expanded(placed(place)) != placed(first).replace('\n[[', '\n\n[[') + "max_pdu = 16384\n":
                yield f"{place!r} expands to {expanded(placed(place))!r}"
    for first, *others in EXCEPTIONS:
        for lines in (first, *others):
            if expanded(excepting(lines)) != each_excepting(first):
                yield f"{lines!r} expands to {expanded(excepting(lines))!r}"
    for given, wanted in zip(LARGE, WITHIN):
        try:
            found = expanded(given) != ""
        except TooMuch:
            found = False
        if found != wanted:
            yield f"{given[:200]}: within {found}, and not {wanted}"
    with open(f"{TOP}/plans/hospital-by-names.toml", encoding="utf-8") as file:
        text = file.read()
    with open(f"{TOP}/plans/hospital.toml", encoding="utf-8") as file:
        second = core_of(tomllib.loads(file.read()))
    once = expanded(text)
    if expanded(once) != once:
        yield "an expansion isn't its own"
    if as_sets(core_of(tomllib.loads(once))) != as_sets(second):
        yield "hospital-by-names.toml isn't hospital.toml"
    for small, wanted in SMALL:
        try:
            found = [(it["at"], it["to"], it["class"]) for it in core_of(tomllib.loads("format = 3\n" + small))["flow"]]
        except Unknown as unknown:
            found = str(unknown)
        if found != wanted:
            yield f"{small}: {found}, and not {wanted}"
    yield from compared(text, once)


def compared(text, once):
    """What the program prints otherwise, where it is built."""
    if not os.path.isfile(PROGRAM):
        print(f"expansions: {PROGRAM} isn't built: it isn't compared")
        return
    for given in (text, once, *(f"format = 3\n{small}" for small, _ in SMALL), *LARGE, *(placed(it) for ways in PLACES for it in ways), *(excepting(it) for ways in EXCEPTIONS for it in ways)):
        with tempfile.NamedTemporaryFile("w", suffix=".toml", encoding="utf-8") as file:
            file.write(given)
            file.flush()
            ran = subprocess.run([PROGRAM, "expand", file.name], capture_output=True, text=True, check=False)
        try:
            wanted = expanded(given), 0
        except (TooMuch, Unknown):
            wanted = "", 1
        if (ran.stdout, ran.returncode) != wanted:
            yield f"the program's expansion is another one: {given}: {ran.stdout}{ran.stderr}"
    with tempfile.TemporaryDirectory() as room:
        yield from modalities_alike(room)
        yield from places(room)


def main():
    found = list(faults())
    for fault in found:
        print(f"expansions: {fault}")
    print(f"{len(SMALL) + len(LARGE) + sum(map(len, PLACES + EXCEPTIONS)) + 2} expansions, {len(found)} faults")
    return 1 if found else 0


if __name__ == "__main__":
    sys.exit(main())
