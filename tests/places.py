#!/usr/bin/env python3
"""Compares what the program says of a plan's fault, below the fault's name: where it stands, and what to change. A
table of bad plans with the lines that are to be printed, worked by hand.

    tests/places.py [PROGRAM]
"""
import os
import subprocess
import sys

TOP = os.path.dirname(os.path.dirname(os.path.abspath(__file__)))
PROGRAM = sys.argv[1] if sys.argv[1:] else f'{TOP}/crates/dr_router/out/dr_router'

# Parts of the sample plan, what stands in their place, the fault, and the line below it.
PLACES = [
    ('[[flow]]', '[[flow]', 'L1 NotToml', 'line 27, column 8: unclosed array table, expected `]]`'),
    ('name = "CT1"', 'name = CT1', 'L1 NotToml', 
     'line 3, column 8: invalid value, expected a string, number, boolean, date-time, array or inline table'),
    ('name = "ARCH"', 'name = "ARCH "', 'L3 Name', 'node 3 "ARCH ", name: "ARCH " is no name: a space stands at one of its ends'),
    ('name = "ARCH"', 'name = "\\u0007"', 'L3 Name', 'node 3 "\\x07", name: "\\x07" is no name: byte 1 is a backslash, or not printable ASCII'),
    ('name = "ARCH"', 'name = "GATE"', 'L3 Name', 'node 3 "GATE", name: node 2 has the same'),
    ('from = ["CT1"]', 'from = ["CT1", ""]', 'L3 Name', 'node 2 "GATE", accept row 1, from: "" is no name: it is empty'),
    ('from = "CT1"', 'from = "-"', 'L3 Name', 'node 2 "GATE", rule 1, from: "-" is no name: that stands for any caller, or for the local one'),
    ('to = ["ARCH"]', 'to = ["ARCH", "*"]', 'L3 Name', 'node 2 "GATE", rule 1, to: "*" is no name: that stands for any caller, or for the local one'),
    ('at = "CT1"', 'at = "0123456789ABCDEFG"', 'L3 Name',
     'flow 1 from "0123456789ABCDEFG" to "GATE", at: "0123456789ABCDEFG" is no name: it has 17 bytes, and a name has 16 at most'),
    ('to = "GATE"', "to = 'GA\\TE'", 'L3 Name', 'flow 1 from "CT1" to "GA\\\\TE", to: "GA\\\\TE" is no name: byte 3 is a backslash, or not printable ASCII'),
    ('to = ["ARCH"]', 'to = ["ARHC"]', 'L4 UnknownNode', 'node 2 "GATE", rule 1, to: "ARHC" is the name of no node'),
    ('from = ["CT1"]', 'from = ["CT1", "CT2"]', 'L4 UnknownNode', 'node 2 "GATE", accept row 1, from: "CT2" is the name of no node'),
    ('from = "CT1"', 'from = "CT2"', 'L4 UnknownNode', 'node 2 "GATE", rule 1, from: "CT2" is the name of no node'),
    ('at = "CT1"', 'at = "CT2"', 'L4 UnknownNode', 'flow 1 from "CT2" to "GATE", at: "CT2" is the name of no node'),
    ('to = ["ARCH"]', 'to = ["ARCH", "GATE"]', 'L5 SelfRoute', 'node 2 "GATE", rule 1, to: it names the node itself'),
    ('to = "GATE"', 'to = "CT1"', 'L5 SelfRoute', 'flow 1 from "CT1" to "CT1": it goes to the node where it begins'),
    ('name = "ARCH"', 'name = "ARCH"\nmax_pdu = 512', 'L6 Limit', 'node 3 "ARCH", max_pdu: it is neither 0 nor from 1024 to 1048576'),
    ('name = "ARCH"', 'name = "ARCH"\nmax_pdu = -1', 'L6 Limit', 'node 3 "ARCH", max_pdu: it is neither 0 nor from 1024 to 1048576'),
    ('[[flow]]', ''.join(f'[[node]]\nname = "N{n}"\naddress = "h:1"\n' for n in range(62)) + '[[flow]]', 'L6 Limit', '65 nodes, and a plan has 64 at most'),
    ('to = ["ARCH"]\n', 'to = ["ARCH"]\n' + '[[node.rule]]\n' * 1022, 'L6 Limit', '1025 rules and flows, and a plan has 1024 at most'),
    ('syntax = ["1.2.840.10008.1.2.1"]\n[[node.rule]]\nfrom', 'syntax = ["1.2.840.10008.1.2", "1.2.840.10008.1.2.4.50"]\n[[node.rule]]\nfrom', 'L7 Syntax',
     'node 2 "GATE", accept row 1, syntax: "1.2.840.10008.1.2.4.50" is neither 1.2.840.10008.1.2 nor 1.2.840.10008.1.2.1'),
    ('syntax = ["1.2.840.10008.1.2.1"]\nmodality', 'syntax = ["1.2"]\nmodality', 'L7 Syntax',
     'flow 1 from "CT1" to "GATE", syntax: "1.2" is neither 1.2.840.10008.1.2 nor 1.2.840.10008.1.2.1'),
    ('to = ["ARCH"]', 'to = "ARCH"', 'L2 Field', 'node 2 "GATE", rule 1, to: it has to be a list of names'),
    ('to = ["ARCH"]', 'to = [1]', 'L2 Field', 'node 2 "GATE", rule 1, to: it has to be a list of names'),
    ('to = ["ARCH"]', 'modalty = "CT"', 'L2 Field', 'node 2 "GATE", rule 1: no key "modalty" is known here'),
    ('to = ["ARCH"]', 'modality = " CT"', 'L2 Field', 'node 2 "GATE", rule 1, modality: it has to be "*" or a value of up to 64 characters'),
    ('to = ["ARCH"]', 'station = "S*"', 'L2 Field',
     'node 2 "GATE", rule 1, station: it has to be "*" or a value of up to 64 characters, or in format 2 a prefix with *, as "CT*"'),
    ('to = ["ARCH"]', 'class = "CT"', 'L2 Field', 'node 2 "GATE", rule 1, class: it has to be "*" or a SOP class UID'),
    ('to = ["ARCH"]', 'keep = 1', 'L2 Field', 'node 2 "GATE", rule 1, keep: it has to be true or false'),
    ('from = "CT1"', 'from = ["CT1"]', 'L2 Field', 'node 2 "GATE", rule 1, from: it has to be "*" or a name'),
    ('from = ["CT1"]', 'from = "CT1"', 'L2 Field', 'node 2 "GATE", accept row 1, from: it has to be "*" or a list of names'),
    ('from = ["CT1"]\n', '', 'L2 Field', 'node 2 "GATE", accept row 1, from: it is missing, and has to be "*" or a list of names'),
    ('from = ["CT1"]\nclass = "1.2.840.10008.5.1.4.1.1.2"', 'from = ["CT1"]\nclass = ["1.2"]', 'L2 Field',
     'node 2 "GATE", accept row 1, class: it has to be a SOP class UID in quotes'),
    ('syntax = ["1.2.840.10008.1.2.1"]\n[[node.rule]]\nfrom', 'syntax = ["1.2", "1.2"]\n[[node.rule]]\nfrom', 'L2 Field',
     'node 2 "GATE", accept row 1, syntax: it has to be a list of transfer syntax UIDs, none of them twice'),
    ('name = "GATE"', 'title = "GATE"', 'L2 Field', 'node 2: no key "title" is known here'),
    ('name = "GATE"', 'name = 2', 'L2 Field', 'node 2, name: it has to be a name in quotes'),
    ('name = "GATE"', 'name = "GATE"\nmax_pdu = "0"', 'L2 Field', 'node 2 "GATE", max_pdu: it has to be a whole number'),
    ('at = "CT1"\n', '', 'L2 Field', 'flow 1, at: it is missing, and has to be a name in quotes'),
    ('modality = ["CT"]', 'modality = "CT"', 'L2 Field', 'flow 1, modality: it has to be "*" or a list of values of up to 64 characters'),
    ('modality = ["CT"]', 'modality = ["CT", "C*"]', 'L2 Field', 'flow 1, modality: it has to be "*" or a list of values of up to 64 characters'),
    ('station = ["S1"]', 'station = ["S1", "S*"]', 'L2 Field',
     'flow 1, station: it has to be "*" or a list of values of up to 64 characters, in format 2 also of prefixes with *, as "CT*"'),
    ('class = ["1.2.840.10008.5.1.4.1.1.2"]', 'class = []', 'L2 Field', 'flow 1, class: it has to be a list of SOP class UIDs'),
    ('to = ["ARCH"]', 'modality = "C*"', 'L2 Field', 'node 2 "GATE", rule 1, modality: it has to be "*" or a value of up to 64 characters'),
    ('to = ["ARCH"]', 'except = ["S1"]', 'L2 Field', 'node 2 "GATE", rule 1, except: it has to be left out before format 3'),
    ('to = ["ARCH"]', 'except = []', 'L2 Field', 'node 2 "GATE", rule 1, except: it has to be left out before format 3'),
    ('[[node]]', 'format = 4\n[[node]]', 'L2 Field', 'in front of all tables, format: it has to be the number 1, 2 or 3'),
    ('[[node]]', '"\\u001b[2J" = 2\n[[node]]', 'L2 Field', 'in front of all tables: no key "\\x1b[2J" is known here'),
]


def many(word, count):
    """A list with this word so many times."""
    return '[' + ', '.join([f'"{word}"'] * count) + ']'


OVER = ': with it the plan stands for more than 262144 words, a list for more than 1024, or a word has more than 128 bytes'
GROUP = 'is a group that nobody defines'
STATIONS = 'it has to be a list of values of up to 64 characters, without *'
CLASSES = 'it has to be a class or a set in quotes, or a list of them'
UNSPELLED = ('each field is of its form, but a word has a character that isn\'t printable, a group has a group in it, '
             'or an accept row gives a transfer syntax twice')
THERE = 'in what it stands for, which expand prints:\n  '

# The same for the sample plan in format 3.
SHORT_PLACES = [
    # words that nobody defines
    ('class = "1.2.840.10008.5.1.4.1.1.2"', 'class = "CT"', 'L4 UnknownName', 'node 2 "GATE", accept row 1, class: "CT" is neither a UID nor the name of a class'),
    ('class = "1.2.840.10008.5.1.4.1.1.2"', 'class = ["@ct", "1.2", "@none", "CT"]', 'L4 UnknownName',
     'node 2 "GATE", accept row 1, class: "@none" is a set that nobody defines, or one with a class that nobody defines'),
    ('from = ["CT1"]', 'from = ["CT1", "@cts"]', 'L4 UnknownName', f'node 2 "GATE", accept row 1, from: "@cts" {GROUP}'),
    ('from = "CT1"', 'from = ["CT1", "@cts"]', 'L4 UnknownName', f'node 2 "GATE", rule 1, from: "@cts" {GROUP}'),
    ('from = "CT1"', 'class = ["1.2", "CT"]', 'L4 UnknownName', 'node 2 "GATE", rule 1, class: "CT" is neither a UID nor the name of a class'),
    ('to = ["ARCH"]', 'to = ["ARCH", "@archives"]', 'L4 UnknownName', f'node 2 "GATE", rule 1, to: "@archives" {GROUP}'),
    ('at = "CT1"', 'at = ["CT1", "@cts"]', 'L4 UnknownName', f'flow 1, at: "@cts" {GROUP}'),
    ('to = "GATE"', 'to = "@\\u001b[2J"', 'L4 UnknownName', f'flow 1, to: "@\\x1b[2J" {GROUP}'),
    ('class = ["1.2.840.10008.5.1.4.1.1.2"]', 'class = "MR"', 'L4 UnknownName', 'flow 1, class: "MR" is neither a UID nor the name of a class'),
    # more than a plan may stand for
    ('from = "CT1"', f'from = {many("CT1", 1025)}', 'L6 Limit', f'node 2 "GATE"{OVER}'),
    ('to = ["ARCH"]', f'to = {many("ARCH", 1024)}\nclass = {many("1.2", 256)}', 'L6 Limit', f'node 2 "GATE"{OVER}'),
    ('keep = true', f'keep = true\nto = ["{"N" * 129}"]', 'L6 Limit', f'node 3 "ARCH"{OVER}'),
    ('keep = true', 'keep = true\nexcept = [' + ', '.join(f'"S{n}"' for n in range(1025)) + ']', 'L6 Limit', f'node 3 "ARCH"{OVER}'),
    ('at = "CT1"', f'at = "{"N" * 129}"', 'L6 Limit', f'flow 1{OVER}'),
    ('[[flow]]', f'[group]\nall = ["{"N" * 129}"]\n[[flow]]', 'L6 Limit', f'in front of all tables{OVER}'),
    # fields
    ('name = "ARCH"', 'name = "@ARCH"', 'L2 Field', 'node 3 "@ARCH", name: it has to be a name in quotes, which doesn\'t begin with @'),
    ('name = "ARCH"', 'name = "AR\\u0007CH"', 'L2 Field', UNSPELLED),
    ('to = ["ARCH"]', 'to = ["AR\\nCH"]', 'L2 Field', UNSPELLED),
    ('syntax = ["1.2.840.10008.1.2.1"]\n[[node.rule]]\nfrom', 'syntax = ["1.2.840.10008.1.2.1", "ExplicitVRLittleEndian"]\n[[node.rule]]\nfrom', 'L2 Field', UNSPELLED),
    ('[[flow]]\nat = "CT1"', '[group]\none = ["@two"]\ntwo = ["CT1"]\n[[flow]]\nat = "@one"', 'L2 Field', UNSPELLED),
    ('from = ["CT1"]', 'from = "CT1"', 'L2 Field', 'node 2 "GATE", accept row 1, from: it has to be "*" or a list of names and groups'),
    ('class = "1.2.840.10008.5.1.4.1.1.2"\n', '', 'L2 Field', 'node 2 "GATE", accept row 1, class: it is missing, and has to be a class or a set in quotes, or a list of them'),
    ('syntax = ["1.2.840.10008.1.2.1"]', 'syntax = ["1.2", "1.2"]', 'L2 Field', 'node 2 "GATE", accept row 1, syntax: it has to be a list of transfer syntaxes, none of them twice'),
    ('from = "CT1"', 'from = []', 'L2 Field', 'node 2 "GATE", rule 1, from: it has to be "*", a name or a group, or a list of them'),
    ('from = "CT1"', 'class = [1]', 'L2 Field', 'node 2 "GATE", rule 1, class: it has to be "*", a class or a set, or a list of them'),
    ('from = "CT1"', 'station = "S**"', 'L2 Field',
     'node 2 "GATE", rule 1, station: it has to be "*" or a value of up to 64 characters, or a prefix with *, as "CT*"'),
    ('from = "CT1"', 'modality = "C*T"', 'L2 Field',
     'node 2 "GATE", rule 1, modality: it has to be "*" or a value of up to 64 characters, or a prefix with *, as "CT*"'),
    ('modality = ["CT"]', 'modality = ["C**"]', 'L2 Field', 'flow 1, modality: it has to be "*" or a list of values of up to 64 characters and of prefixes with *, as "CT*"'),
    ('to = ["ARCH"]', 'to = "ARCH"', 'L2 Field', 'node 2 "GATE", rule 1, to: it has to be a list of names and groups'),
    ('to = ["ARCH"]', 'except = "S1"', 'L2 Field', f'node 2 "GATE", rule 1, except: {STATIONS}'),
    ('to = ["ARCH"]', 'except = ["S1", "S*"]', 'L2 Field', f'node 2 "GATE", rule 1, except: {STATIONS}'),
    ('to = ["ARCH"]', 'except = ["S1", " S1"]\nto = 1', 'L2 Field', f'node 2 "GATE", rule 1, except: {STATIONS}'),
    ('to = ["ARCH"]', 'modalty = "CT"', 'L2 Field', 'node 2 "GATE", rule 1: no key "modalty" is known here'),
    ('class = ["1.2.840.10008.5.1.4.1.1.2"]', 'class = []', 'L2 Field', f'flow 1, class: {CLASSES}'),
    ('at = "CT1"', 'at = 1', 'L2 Field', 'flow 1, at: it has to be a name or a group in quotes, or a list of them'),
    ('station = ["S1"]', 'station = "S1"', 'L2 Field', 'flow 1, station: it has to be "*" or a list of values of up to 64 characters and of prefixes with *, as "CT*"'),
    ('[[flow]]', '[set]\nours = []\n[[flow]]', 'L2 Field',
     'in front of all tables, set: it has to be a table [set] of lists of classes in quotes, none of them empty'),
    ('[[flow]]', '[group]\nours = "CT1"\n[[flow]]', 'L2 Field',
     'in front of all tables, group: it has to be a table [group] of lists of names in quotes, none of them empty'),
    ('[[flow]]', '[sets]\n[[flow]]', 'L2 Field', 'in front of all tables: no key "sets" is known here'),
    # what stands in the expansion
    ('name = "ARCH"', 'name = "ARCH "', 'L3 Name', f'{THERE}node 3 "ARCH ", name: "ARCH " is no name: a space stands at one of its ends'),
    ('to = ["ARCH"]', 'to = ["ARHC"]', 'L4 UnknownNode', f'{THERE}node 2 "GATE", rule 1, to: "ARHC" is the name of no node'),
    ('to = ["ARCH"]', 'class = ["1.2", "1.3"]\n[[node.rule]]\nto = ["GATE"]', 'L5 SelfRoute', f'{THERE}node 2 "GATE", rule 3, to: it names the node itself'),
    ('syntax = ["1.2.840.10008.1.2.1"]\nmodality', 'syntax = ["JPEGBaseline8Bit"]\nmodality', 'L7 Syntax',
     f'{THERE}flow 1 from "CT1" to "GATE", syntax: "JPEGBaseline8Bit" is neither 1.2.840.10008.1.2 nor 1.2.840.10008.1.2.1'),
    ('to = ["ARCH"]', 'class = [' + ', '.join(f'"1.{n}"' for n in range(1023)) + ']', 'L6 Limit', f'{THERE}1025 rules and flows, and a plan has 1024 at most'),
]

CT = '  What goes: class 1.2.840.10008.5.1.4.1.1.2 in transfer syntax 1.2.840.10008.1.2.1, of modality "CT" and station "S1".\n'

# A plan of the repository, a part of it and what stands in its place, and the sentences about it.
WALKS = [
    ('no-context', '', '', CT + '''  "CT1" sends it to "GATE" by flow 1.
  "GATE" sends it to "ARCH" by its rule 1.
  "ARCH" takes this class from "GATE" by its accept row 1, but only in 1.2.840.10008.1.2: add 1.2.840.10008.1.2.1 to its syntaxes, or let "GATE" not send it there.
'''),
    ('three-nodes', 'from = ["CT1"]', 'from = ["ARCH"]', CT + '''  "CT1" sends it to "GATE" by flow 1.
  "GATE" takes this class in this transfer syntax by its accept row 1, but not from "CT1": add that name to its from, or let "CT1" not send it there.
'''),
    ('three-nodes', 'class = ["1.2.840.10008.5.1.4.1.1.2"]', 'class = ["1.2"]', CT.replace('1.2.840.10008.5.1.4.1.1.2', '1.2') + '''  "CT1" sends it to "GATE" by flow 1.
  "GATE" has no accept row for this class from "CT1": add one, or let "CT1" not send it there.
'''),
    ('cycle', '', '', CT + '''  "CT1" sends it to "GATE" by flow 1.
  "GATE" sends it to "HUB" by its rule 1.
  "HUB" sends it to "GATE" by its rule 1.
  "GATE" sends it to "HUB" by its rule 1.
  So it comes from "GATE" to "HUB" a second time, and would go round for ever: change one of these rules.
'''),
    ('dead-end', '', '', CT.replace('modality "CT"', 'a modality that the plan doesn\'t name') + '''  "CT1" sends it to "GATE" by flow 1.
  "GATE" neither keeps it nor sends it on: none of its rules holds for it; add one.
'''),
    ('three-nodes', 'keep = true', 'keep = false', CT + '''  "CT1" sends it to "GATE" by flow 1.
  "GATE" sends it to "ARCH" by its rule 1.
  "ARCH" neither keeps it nor sends it on: its rule 1 holds for it, but has neither to nor keep = true.
'''),
    ('overfull-hop', '', '', '''  More than 128 pairs of a class and a transfer syntax go from "CT1" to "ARCH", and an association has 128 presentation contexts: let fewer classes or transfer syntaxes go there.
'''),
]


def plan_of(name):
    with open(f'{TOP}/plans/{name}.toml', encoding='ascii') as it:
        return it.read()


def changed(text, old, new):
    if old not in text:
        sys.exit(f'no {old!r} in the plan')
    return text.replace(old, new, 1) if old else text


def check(text):
    ended = subprocess.run([PROGRAM, 'check'], input=text, capture_output=True)
    return ended.stdout.decode(), ended.stderr.decode(), ended.returncode


def compare(what, want, got):
    if want != got:
        sys.exit(f'places: {what}: expected\n{want}\ngot\n{got}')


def main():
    sample = plan_of('three-nodes')
    for old, new, fault, place in PLACES:
        compare(f'{new[:60]} for {old}', ('', f'dr_router: {fault}\n  {place}\n', 1), check(changed(sample, old, new).encode()))
    for old, new, fault, place in SHORT_PLACES:
        text = 'format = 3\n' + changed(sample, old, new)
        compare(f'{new[:60]} for {old} in format 3', ('', f'dr_router: {fault}\n  {place}\n', 1), check(text.encode()))
    compare('no UTF-8', ('', 'dr_router: L1 NotToml\n  line 2, column 4: invalid UTF-8\n', 1), check(b'\n# \xc3\xa9\xff'))
    for name, old, new, sentences in WALKS:
        _, faults, status = check(changed(plan_of(name), old, new).encode())
        compare(f'{name}, {new} for {old}', (sentences, 1), (faults, status))
    print(f'places: {len(PLACES) + len(SHORT_PLACES) + 1} plans with the place of their fault, {len(WALKS)} walks in sentences')


if __name__ == '__main__':
    main()
