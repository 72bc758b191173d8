#!/usr/bin/env python3
"""Runs the built program with words, files and statuses: what no contract can say, since it is about the process.

    tests/program.py
"""
import json
import os
import resource
import subprocess
import sys
import tempfile

TOP = os.path.dirname(os.path.dirname(os.path.abspath(__file__)))
PROGRAM = f'{TOP}/crates/dr_router/out/dr_router'
SOUND, CYCLE = f'{TOP}/plans/three-nodes.toml', f'{TOP}/plans/cycle.toml'
OVERFULL, FAULTY = f'{TOP}/plans/overfull-hop.toml', f'{TOP}/plans/three-faults.toml'


def run(words, given=b'', output=subprocess.PIPE, memory=None):
    """The status, and what was written to both outputs, without the lines that say where a fault stands, which are indented
    (tests/places.py); memory is the most address space in bytes."""
    def limit():
        resource.setrlimit(resource.RLIMIT_AS, (memory, memory))
    ended = subprocess.run([PROGRAM, *words], input=given, stdout=output, stderr=subprocess.PIPE, preexec_fn=memory and limit)
    faults = b''.join(line for line in ended.stderr.splitlines(True) if not line.startswith(b'  '))
    return ended.returncode, ended.stdout or b'', faults


def content(path):
    with open(path, 'rb') as it:
        return it.read()


def is_answer(what, got, status, output, faults):
    """Outputs are whole texts, or parts of them where they are given as a tuple."""
    whole = got[0] == status and all(
        (all(part in text for part in want) and text) if isinstance(want, tuple) else text == want
        for want, text in zip((output, faults), got[1:])
    )
    if not whole:
        sys.exit(f'{what}: got {got}')


def cycle_line():
    key = b'1.2.840.10008.5.1.4.1.1.2\t1.2.840.10008.1.2.1\tCT\tS1'
    return b'no\tCycle\t' + key + b'\tCT1\tGATE\tHUB\tGATE\tHUB\n'


def checks(certificate):
    status, printed, faults = run(['check', SOUND])
    is_answer('check of a sound plan', (status, printed, faults), 0, (b'certificate\t1\nplan\t', b'\nend\n'), b'')
    with open(certificate, 'wb') as it:
        it.write(printed)
    for words in ([], ['check']):
        is_answer('a plan on standard input', run(words, content(SOUND)), 0, printed, b'')
    for words, given in ((['check', CYCLE], b''), (['check'], content(CYCLE)), ([], content(CYCLE))):
        is_answer('a plan with a cycle', run(words, given), 1, cycle_line(), b'')
    is_answer('an overfull hop', run(['check', OVERFULL]), 1, b'no\tTooManyContexts\tCT1\tARCH\n', b'')
    is_answer('no plan', run(['check'], b'[[node]'), 1, b'', b'dr_router: L1 NotToml\n')
    for words, given in ((['check', '--json', CYCLE], b''), (['check', CYCLE, '--json'], b''), (['check', '--json'], content(CYCLE))):
        got = run(words, given)
        is_answer('a cycle as JSON', got, 1, (b'[["no","Cycle",',), b'')
        if json.loads(got[1]) != [cycle_line().decode().rstrip('\n').split('\t')]:
            sys.exit(f'a cycle as JSON: {got}')
    is_answer('no plan, as JSON', run(['check', '--json'], b'[[node]'), 1, b'[]\n', b'dr_router: L1 NotToml\n')
    as_json = json.loads(run(['check', '--json', SOUND])[1])
    if as_json != [line.split('\t') for line in printed.decode().splitlines()]:
        sys.exit('a certificate as JSON')


def checks_of_all():
    """`check --all`: a plan with three faults, plans with one, one without, no plan, and words that don't go together."""
    faults = [('Cycle', 'CT\tS1\tCT1\tGATE\tHUB\tGATE\tHUB'), ('NoContext', 'MR\tS2\tMR1\tGATE\tARCH'), ('DeadEnd', 'US\tS3\tUS1\tGATE')]
    lines = [f'no\t{fault}\t{CLASS}\t{SYNTAX}\t{rest}\n'.encode() for fault, rest in faults]
    for words, given in ((['--all', FAULTY], b''), ([FAULTY, '--all'], b''), (['--all'], content(FAULTY))):
        is_answer('three faults', run(['check', *words], given), 1, b''.join(lines), b'')
    is_answer('the first of three faults', run(['check', FAULTY]), 1, lines[0], b'')
    is_answer('a cycle is all', run(['check', '--all', CYCLE]), 1, cycle_line(), b'')
    is_answer('an overfull hop is all', run(['check', '--all', OVERFULL]), 1, b'no\tTooManyContexts\tCT1\tARCH\n', b'')
    is_answer('no fault', run(['check', '--all', SOUND]), 0, run(['check', SOUND])[1], b'')
    is_answer('no plan, and all its faults', run(['check', '--all'], b'[[node]'), 1, b'', b'dr_router: L1 NotToml\n')
    is_answer('all faults as JSON', run(['check', '--all', '--json', FAULTY]), 2, b'', (b"cannot be used with",))
    is_answer('no file', run(['check', '--all', 'none']), 3, b'', (b'dr_router: none: ',))


def verdicts(certificate):
    is_answer('verify', run(['verify', SOUND, certificate]), 0, b'yes\n', b'')
    is_answer('a certificate of another plan', run(['verify', CYCLE, certificate]), 1, b'no\tC2 OtherPlan\n', b'')
    is_answer('no certificate', run(['verify', SOUND, SOUND]), 1, b'no\tC1 Text\n', b'')
    is_answer('no plan', run(['verify', certificate, certificate]), 1, b'', b'dr_router: L1 NotToml\n')
    is_answer('files turned round', run(['verify', SOUND, 'none']), 3, b'', (b'dr_router: none: ',))


CLASS, SYNTAX = '1.2.840.10008.5.1.4.1.1.2', '1.2.840.10008.1.2.1'


def element(tag, vr, value):
    """An element in Explicit VR Little Endian with a short length."""
    value += (b'\0' if vr == b'UI' else b' ') * (len(value) % 2)
    return tag + vr + len(value).to_bytes(2, 'little') + value


def part10(meta, body):
    return bytes(128) + b'DICM' + meta + body


def data_set(modality=b'CT', station=b'S1', uid=b'1.2.3.4'):
    return b''.join(element(*it) for it in (
        (b'\x08\0\x16\0', b'UI', CLASS.encode()), (b'\x08\0\x18\0', b'UI', uid),
        (b'\x08\0\x60\0', b'CS', modality), (b'\x08\0\x10\x10', b'SH', station)))


def routes(certificate, room):
    """Where an instance goes, by its values and by its file."""
    meta = element(b'\x02\0\x10\0', b'UI', SYNTAX.encode())
    front = ['route', SOUND, certificate, 'CT1']
    rows = (f'cell\t{CLASS}\t{SYNTAX}\tCT\tS1\nrank\t2\nhop\tCT1\tGATE\t1\nhop\tGATE\tARCH\t1\nkeep\tARCH\n').encode()
    is_answer('a route', run([*front, CLASS, SYNTAX, 'CT', 'S1']), 0, rows, b'')
    for values in ((CLASS, SYNTAX, 'MR', 'S1'), (CLASS, SYNTAX, 'CT', ''), (CLASS, '1.2.840.10008.1.2', 'CT', 'S1'), ('', SYNTAX, 'CT', 'S1')):
        is_answer('no flow fits', run([*front, *values]), 1, b'no\tG1 NoLine\n', b'')
    is_answer('a stranger', run(['route', SOUND, certificate, 'CT9', f'{room}/none']), 1, b'', b'dr_router: NoNode\n')
    is_answer('another syntax', run([*front, CLASS, '1.2.840.10008.1.2.4.70', 'CT', 'S1']), 1, b'', b'dr_router: F3 OtherSyntax\n')
    is_answer('another certificate', run(['route', CYCLE, certificate, 'CT1', CLASS, SYNTAX, 'CT', 'S1']), 1, b'', b'dr_router: C2 OtherPlan\n')
    is_answer('no plan', run(['route', certificate, certificate, 'CT1', 'x']), 1, b'', b'dr_router: L1 NotToml\n')
    is_answer('no file', run([*front, f'{room}/none']), 3, b'', (b'dr_router: ',))
    other = element(b'\x02\0\x10\0', b'UI', b'1.2.840.10008.1.2.2')
    for what, text, status, output, faults in (
            ('an instance', part10(meta, data_set()), 0, rows, b''),
            ('another instance', part10(meta, data_set(station=b'S2')), 1, b'no\tG1 NoLine\n', b''),
            ('no DICOM', data_set(), 1, b'', b'dr_router: F1 NotDicom\n'),
            ('no syntax', part10(element(b'\x02\0\x03\0', b'UI', SYNTAX.encode()), data_set()), 1, b'', b'dr_router: F2 Meta\n'),
            ('big endian', part10(other, data_set()), 1, b'', b'dr_router: F3 OtherSyntax\n'),
            ('a cut data set', part10(meta, data_set()[:-1]), 1, b'', b'dr_router: I1 Data\n'),
            ('no UID', part10(meta, data_set(uid=b'')), 1, b'', b'dr_router: I2 NoUid\n')):
        with open(f'{room}/instance', 'wb') as it:
            it.write(text)
        is_answer(what, run([*front, f'{room}/instance']), status, output, faults)


def pictures(certificate):
    """The graph and the findings of the sample plan."""
    graph = run(['graph', SOUND, certificate])
    is_answer('a graph', graph, 0, (b'digraph network {\n', b'  "CT1" -> "GATE" [label="1"];\n  "GATE" -> "ARCH" [label="1"];\n}\n'), b'')
    is_answer('nothing looks wrong', run(['lint', SOUND, certificate]), 0, b'', b'')
    for given in (['--strict', SOUND, certificate], [SOUND, certificate, '--strict']):
        is_answer('nothing looks wrong, strictly', run(['lint', *given]), 0, b'', b'')
    is_answer('another certificate', run(['graph', CYCLE, certificate]), 1, b'', b'dr_router: C2 OtherPlan\n')
    is_answer('another certificate', run(['lint', CYCLE, certificate]), 1, b'', b'dr_router: C2 OtherPlan\n')


def expansions(room):
    """A plan of format 3 in the words about plans, and what `expand` prints of it."""
    short, core, certificate = f'{TOP}/plans/hospital-by-names.toml', f'{room}/core', f'{room}/short.certificate'
    status, printed, faults = run(['expand', short])
    is_answer('an expansion', (status, printed, faults), 0, (b'format = 3\n\n[[node]]\nname = "CT1"\n',), b'')
    with open(core, 'wb') as it:
        it.write(printed)
    is_answer('its expansion', run(['expand', core]), 0, printed, b'')
    status, checked, faults = run(['check', short])
    is_answer('check of a plan of format 3', (status, checked, faults), 0, (b'certificate\t3\nplan\t', b'\nend\n'), b'')
    is_answer('check of its expansion', run(['check', core]), 0, checked, b'')
    with open(certificate, 'wb') as it:
        it.write(checked)
    for plan in (short, core):
        is_answer('verify', run(['verify', plan, certificate]), 0, b'yes\n', b'')
        is_answer('lint', run(['lint', plan, certificate]), *run(['lint', short, certificate]))
        is_answer('graph', run(['graph', plan, certificate]), 0, (b'digraph network {\n', b'"CT1" -> "GATE"'), b'')
        is_answer('expect', run(['expect', plan, certificate, f'{TOP}/plans/hospital.expect']), 0, b'yes\n', b'')
        is_answer('diff', run(['diff', short, certificate, plan, certificate]), 0, b'', b'')
        is_answer('route', run(['route', plan, certificate, 'CT1', CLASS, SYNTAX, 'CT', 'S1']), 0, (b'hop\tCT1\tGATE\t', b'keep\tARCH1\nkeep\tARCH2\n'), b'')
    is_answer('the expansion of a plan of format 1', run(['expand', SOUND]), 0, content(SOUND), b'')
    for what, text, status, output, faults in (
            ('no TOML', b'[[node]', 1, b'', b'dr_router: L1 NotToml\n'),
            ('a stranger in format 2', b'format = 2\n[[flow]]\nat = "A"\nto = "B"\nclass = ["1"]\nsyntax = ["1.2.840.10008.1.2"]\nmodality = "*"\nstation = "*"\n',
             1, b'', b'dr_router: L4 UnknownNode\n'),
            ('a word that nobody defines', b'format = 3\n[[node]]\nname = "A"\naddress = "h:1"\n[[node.rule]]\nto = ["@b"]\n', 1, b'', b'dr_router: L4 UnknownName\n'),
            ('a field', b'format = 3\ncolour = 1\n', 1, b'', b'dr_router: L2 Field\n'),
            ('nothing', b'format = 3', 0, b'format = 3\n', b''),
            ('a node that nobody knows', b'format=3\n[[node]]\nname="A"\naddress="h:1"\n[[node.rule]]\nto=["B"]', 0,
             b'format = 3\n\n[[node]]\nname = "A"\naddress = "h:1"\nmax_pdu = 16384\n\n[[node.rule]]\nfrom = "*"\nclass = "*"\nmodality = "*"\n'
             b'station = "*"\nto = ["B"]\nkeep = false\n', b'')):
        with open(core, 'wb') as it:
            it.write(text)
        is_answer(what, run(['expand', core]), status, output, faults)
    # a small text that stands for 10^9 rules
    names, groups, sets = (', '.join(it) for it in ((f'"N{n}"' for n in range(1000)), ['"@g"'] * 1000, ['"@ct"'] * 1000))
    text = f'format = 3\n[group]\ng = [{names}]\n[[node]]\nname = "A"\naddress = "h:1"\n[[node.rule]]\nfrom = [{groups}]\nclass = [{sets}]\n'
    for word in ('expand', 'check'):
        with open(core, 'wb') as it:
            it.write(text.encode())
        is_answer('a text that stands for too much', run([word, core], memory=500_000_000), 1, b'', b'dr_router: L6 Limit\n')


def expectations(room, certificate):
    """What is expected of the sample plan."""
    key = f'CT1\t{CLASS}\t{SYNTAX}\tCT\tS1\n'.encode()
    for what, text, status, output, faults in (
            ('what is so', b'[[expect]]\nkeep = ["ARCH"]\n', 0, b'yes\n', b''),
            ('a node that keeps nothing', b'[[expect]]\nkeep = ["ARCH"]\n[[expect]]\nkeep = ["GATE"]\n', 1, b'no\t2\tkeep GATE\t' + key, b''),
            ('a node on the way', b'[[expect]]\nstation = "S*"\nnever = ["GATE"]\n', 1, b'no\t1\tnever GATE\t' + key, b''),
            ('no such image', b'[[expect]]\nmodality = "MR"\n', 1, b'no\t1\tnothing\n', b''),
            ('an unknown key', b'\n[[expect]]\nkeeps = ["ARCH"]\n', 1, b'', b'dr_router: X1 Expect 2\n')):
        with open(f'{room}/expected', 'wb') as it:
            it.write(text)
        is_answer(what, run(['expect', SOUND, certificate, f'{room}/expected']), status, output, faults)
    is_answer('another certificate', run(['expect', CYCLE, certificate, f'{room}/expected']), 1, b'', b'dr_router: C2 OtherPlan\n')
    is_answer('no file', run(['expect', SOUND, certificate, f'{room}/none']), 3, b'', (b'dr_router: ',))


def differences(room, certificate):
    """What changes from the sample plan to its next one, and back."""
    following, key = f'{TOP}/plans/three-nodes-next.toml', f'CT1\t{CLASS}\t{SYNTAX}\tCT\tS1\tHUB\n'.encode()
    with open(f'{room}/next', 'wb') as it:
        it.write(run(['check', following])[1])
    there, back = [SOUND, certificate, following, f'{room}/next'], [following, f'{room}/next', SOUND, certificate]
    is_answer('a node more', run(['diff', *there]), 0, b'gained\t' + key, b'')
    is_answer('a node more is no loss', run(['diff', *there, '--fail-on-lost']), 0, b'gained\t' + key, b'')
    is_answer('a node less', run(['diff', *back]), 0, b'lost\t' + key, b'')
    for given in (['--fail-on-lost', *back], [*back, '--fail-on-lost']):
        is_answer('a node less is a loss', run(['diff', *given]), 1, b'lost\t' + key, b'')
    is_answer('no change', run(['diff', SOUND, certificate, SOUND, certificate]), 0, b'', b'')
    is_answer('another next certificate', run(['diff', SOUND, certificate, following, certificate]), 1, b'', b'dr_router: C2 OtherPlan\n')
    is_answer('no next plan', run(['diff', SOUND, certificate, certificate, certificate]), 1, b'', b'dr_router: L1 NotToml\n')
    is_answer('no file', run(['diff', SOUND, certificate, f'{room}/none', certificate]), 3, b'', (b'dr_router: ',))


HYPHENS = f'''
[[node]]
name = "-a"
address = "h:1"
[[node]]
name = "--strict"
address = "h:1"
[[node.accept]]
from = "*"
class = "{CLASS}"
syntax = ["{SYNTAX}", "1.2.840.10008.1.2"]
[[node.rule]]
keep = true
[[flow]]
at = "-a"
to = "--strict"
class = ["{CLASS}"]
syntax = ["{SYNTAX}"]
modality = ["CT"]
station = ["-s"]
'''.encode()


def hyphens(room):
    """Names and values that begin with a hyphen; and a plan in which something looks wrong."""
    plan, certificate = f'{room}/hyphens', f'{room}/hyphens.certificate'
    with open(plan, 'wb') as it:
        it.write(HYPHENS)
    with open(certificate, 'wb') as it:
        it.write(run(['check', plan])[1])
    rows = f'cell\t{CLASS}\t{SYNTAX}\tCT\t-s\nrank\t1\nhop\t-a\t--strict\t1\nkeep\t--strict\n'.encode()
    key = [CLASS, SYNTAX, 'CT', '-s']
    for front in (['route'], ['route', '--']):
        is_answer('a node -a', run([*front, plan, certificate, '-a', *key]), 0, rows, b'')
    is_answer('a node --strict', run(['route', plan, certificate, '--strict', *key]), 1, b'no\tG1 NoLine\n', b'')
    is_answer('no node --help', run(['route', plan, certificate, '--help', *key]), 1, b'', b'dr_router: NoNode\n')
    is_answer('no node -b, with options', run(['serve', plan, certificate, '-b', f'{room}/none.db', '--links', '1']), 1, b'', b'dr_router: NoNode\n')
    is_answer('a path that is an option', run(['lint', plan, '-x']), 2, b'', (b'Usage: dr_router',))
    finding = f'syntax\t--strict\t1\t{CLASS}\t1.2.840.10008.1.2\n'.encode()
    is_answer('something looks wrong', run(['lint', plan, certificate]), 0, finding, b'')
    for given in (['--strict', plan, certificate], [plan, certificate, '--strict']):
        is_answer('something looks wrong, strictly', run(['lint', *given]), 1, finding, b'')


def words():
    usage = (b'Usage: dr_router',)
    for given in (['carry'], ['check', 'a', 'b'], ['check', '--fast'], ['verify'], ['verify', SOUND], ['verify', SOUND, 'a', 'b'], ['simulate', SOUND, 'a'], ['simulate', SOUND, 'a', 'b', 'c'], ['echo', SOUND, 'CT1'], ['route', SOUND, 'a', 'CT1'], ['route', SOUND, 'a', 'CT1', 'C', 'E'], ['route', SOUND, 'a', 'CT1', 'C', 'E', 'CT'], ['route', SOUND, 'a', 'CT1', 'C', 'E', 'CT', 'S1', 'x'], ['graph', SOUND], ['graph', SOUND, 'a', 'b'], ['lint', SOUND], ['expect', SOUND, 'a'], ['expect', SOUND, 'a', 'b', 'c'], ['diff', SOUND, 'a', 'b'], ['-x']):
        is_answer(f'words {given}', run(given), 2, b'', usage)
    for given in ([b'\xff'], [b'check', b'\xff'], [b'check', SOUND.encode(), b'\x80']):
        is_answer(f'words {given}', run(given), 2, b'', b"dr_router: a word isn't UTF-8\n")
    is_answer('help', run(['--help']), 0, (b'Usage: dr_router <COMMAND>', b'check', b'verify', b'route', b'graph', b'lint', b'expect', b'diff', b'simulate', b'echo'), b'')
    is_answer('help of check', run(['check', '--help']), 0, (b'Usage: dr_router check [OPTIONS] [PLAN]\n',), b'')
    is_answer('help of verify', run(['verify', '--help']), 0, (b'Usage: dr_router verify <PLAN> <CERT>\n',), b'')
    is_answer('help of route', run(['route', '--help']), 0, (b'Usage: dr_router route [OPTIONS] <PLAN> <CERT> <AT> <FILE|CLASS> [SYNTAX] [MODALITY] [STATION]\n',), b'')
    is_answer('help of graph', run(['graph', '--help']), 0, (b'Usage: dr_router graph <PLAN> <CERT>\n',), b'')
    is_answer('help of lint', run(['lint', '--help']), 0, (b'Usage: dr_router lint [OPTIONS] <PLAN> <CERT>\n',), b'')
    is_answer('help of expect', run(['expect', '--help']), 0, (b'Usage: dr_router expect [OPTIONS] <PLAN> <CERT> <FILE>\n',), b'')
    is_answer('help of diff', run(['diff', '--help']), 0, (b'Usage: dr_router diff [OPTIONS] <PLAN> <CERT> <NEXTPLAN> <NEXTCERT>\n',), b'')
    is_answer('help of simulate', run(['simulate', '--help']), 0, (b'Usage: dr_router simulate <PLAN> <CERT> <SCRIPT>\n',), b'')
    is_answer('help of echo', run(['echo', '--help']), 0, (b'Usage: dr_router echo <PLAN> <FROM> <TO>\n',), b'')
    version = subprocess.run([f'{TOP}/tools/version.py'], stdout=subprocess.PIPE, check=True).stdout
    is_answer('version', run(['--version']), 0, b'dr_router ' + version, b'')


def failures(room, large):
    for path in ('none.toml', f'{room}/' + 120 * 'x', '/'):
        is_answer(f'file {path}', run(['check', path]), 3, b'', (f'dr_router: {path}: '.encode(),))
    with open('/dev/full', 'wb') as full:
        is_answer('an output that is full', run(['check', SOUND], output=full), 3, b'', (b'dr_router: ',))
    path = f'{room}/' + 120 * 'y'
    with open(path, 'wb') as it:
        it.write(content(CYCLE))
    is_answer('a long path', run(['check', path]), 1, cycle_line(), b'')
    for given in (['check'], ['check', large]):
        got = run(given, content(large) if len(given) == 1 else b'', memory=os.path.getsize(PROGRAM) + 20_000_000)
        is_answer(f'want of memory, {given[0]}', got, 4, b'', b'dr_router: Memory\n')


def main():
    if subprocess.run([f'{TOP}/dr_router', 'simulate', '--help'], stdout=subprocess.DEVNULL).returncode != 0:
        sys.exit('the program is not built')
    sys.path.insert(0, f'{TOP}/tests')
    sys.dont_write_bytecode = True
    from lib.plan_texts import LARGEST
    with tempfile.TemporaryDirectory(prefix='program-') as room:
        large = f'{room}/large.toml'
        with open(large, 'wb') as it:
            it.write(LARGEST['65,536 lines'])
        checks(f'{room}/certificate')
        checks_of_all()
        verdicts(f'{room}/certificate')
        routes(f'{room}/certificate', room)
        pictures(f'{room}/certificate')
        expansions(room)
        expectations(room, f'{room}/certificate')
        differences(room, f'{room}/certificate')
        hyphens(room)
        words()
        failures(room, large)
    print('program.py: the program ends as it should')


main()
