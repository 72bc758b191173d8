#!/usr/bin/env python3
"""Plays worked scripts on the built program (`simulate`) and compares what it prints with reports that were written by
hand. Each script is played three times: as it stands, and with each Move cut into Moves of 7 bytes and of 1 byte.

    tests/script_rows.py
"""
import os
import subprocess
import sys
import tempfile

sys.dont_write_bytecode = True
from lib import requestor as wire

TOP = os.path.dirname(os.path.dirname(os.path.abspath(__file__)))
PROGRAM = f'{TOP}/crates/dr_router/out/dr_router'
CT, EXPLICIT = '1.2.840.10008.5.1.4.1.1.2', '1.2.840.10008.1.2.1'
ALL = 1_000_000
# the longest PDU here is the request of 234 bytes; a store is two PDUs of 114 and at most 90 bytes
LONGEST = 240


def element(group, number, vr, value):
    return bytes([*group.to_bytes(2, 'little'), *number.to_bytes(2, 'little'), *vr, *len(value).to_bytes(2, 'little')]) + value


def instance(modality=b'CT', more=b'', uid=b'1.2.3.4'):
    """A data set in Explicit VR Little Endian: 70 bytes, and more behind them."""
    return (element(8, 0x16, b'UI', CT.encode() + b'\0') + element(8, 0x18, b'UI', uid + b'\0')
            + element(8, 0x60, b'CS', modality) + element(8, 0x1010, b'SH', b'S1') + more)


SHORT, LONGER, OTHER = instance(), instance(more=element(0x1008, 0x1060, b'PN', b'')), instance(uid=b'1.2.3.5')
assert (len(SHORT), len(LONGER)) == (70, 78)


# ---- plans

def three_nodes():
    with open(f'{TOP}/plans/three-nodes.toml', 'rb') as it:
        return it.read()


def node(name, *parts):
    return f'[[node]]\nname = "{name}"\naddress = "h:1"\n' + ''.join(parts)


def on(source, *dests):
    return f'[[node.rule]]\nfrom = "{source}"\nto = [' + ', '.join(f'"{it}"' for it in dests) + ']\n'


def flow(at, to):
    return f'[[flow]]\nat = "{at}"\nto = "{to}"\nclass = ["{CT}"]\nsyntax = ["{EXPLICIT}"]\nmodality = ["CT"]\nstation = ["S1"]\n'


TAKES = f'[[node.accept]]\nfrom = "*"\nclass = "{CT}"\nsyntax = ["{EXPLICIT}"]\n'
KEEPS = '[[node.rule]]\nkeep = true\n'


def two_ways():
    """CT1 to GATE, to A and B, and both to ARCH, which keeps."""
    nodes = (node('CT1'), node('GATE', TAKES, on('CT1', 'A', 'B')), node('A', TAKES, on('GATE', 'ARCH')), node('B', TAKES, on('GATE', 'ARCH')),
             node('ARCH', TAKES, KEEPS))
    return ''.join((*nodes, flow('CT1', 'GATE'))).encode()


def straight():
    """The three nodes, and CT2 with a flow straight to ARCH."""
    nodes = node('CT1'), node('CT2'), node('GATE', TAKES, on('CT1', 'ARCH')), node('ARCH', TAKES, KEEPS)
    return ''.join((*nodes, flow('CT1', 'GATE'), flow('CT2', 'ARCH'))).encode()


def before_hub(*rules):
    """The three nodes, where GATE has these rules, and HUB, which keeps, too."""
    nodes = node('CT1'), node('GATE', TAKES, *rules), node('ARCH', TAKES, KEEPS), node('HUB', TAKES, KEEPS)
    return ''.join((*nodes, flow('CT1', 'GATE'))).encode()


def to_hub_alone():
    return before_hub(on('CT1', 'HUB'))


def to_both():
    return before_hub(on('CT1', 'ARCH', 'HUB'))


def without_arch():
    """CT1 and GATE, which keeps."""
    return ''.join((node('CT1'), node('GATE', TAKES, KEEPS), flow('CT1', 'GATE'))).encode()


# ---- scripts

def submit(node, body):
    return [('submit', node, 'E', body.hex())]


def moved(link, *sides):
    return [('move', link, side, ALL) for side in sides]


def opened(source, dest, link):
    return [('open', source, dest), *moved(link, 'acceptor', 'requestor')]


def carried(source, dest, link):
    """An instance goes from one node to the next over a new link."""
    return [*opened(source, dest, link), ('push', link), *moved(link, 'acceptor', 'acceptor', 'requestor')]


BOTH = [*submit('CT1', SHORT), *carried('CT1', 'GATE', 1), *carried('GATE', 'ARCH', 2)]
ARCH_KEEPS = 'node ARCH|arrival GATE 1.2.3.4|kept 1.2.3.4 70|lines 1|'
CT1_SENT = 'node CT1|arrival - 1.2.3.4|row 1.2.3.4 GATE done|lines 2|'
GATE_SENT = 'node GATE|arrival CT1 1.2.3.4|row 1.2.3.4 ARCH done|lines 2|'
GATE_WAITS = 'node GATE|arrival CT1 1.2.3.4|row 1.2.3.4 ARCH waiting 0 0|lines 1|'
NOTHING = 'node ARCH|lines 0|node CT1|lines 0|node GATE|lines 0|'
TRIED = 'node GATE|arrival CT1 1.2.3.4|row 1.2.3.4 ARCH waiting 1 1000|lines 2|'
FIRST = [*submit('CT1', SHORT), *carried('CT1', 'GATE', 1)]
UID = '1.2.3.4'
BOTH_FORGOT = [*BOTH, ('forget', 'CT1', UID), ('forget', 'GATE', UID)]
# one row is due over two links, and answered over the first
TWICE = [*submit('CT1', SHORT), *opened('CT1', 'GATE', 1), *opened('CT1', 'GATE', 2), ('push', 1), ('push', 2), *moved(1, 'acceptor', 'acceptor', 'requestor')]
HEARD_TWICE = 'node GATE|arrival CT1 1.2.3.4|row 1.2.3.4 ARCH waiting 0 0|lines 2|'
HELD = [*submit('CT2', SHORT), *carried('CT2', 'ARCH', 1), *submit('CT1', LONGER), *carried('CT1', 'GATE', 2), *carried('GATE', 'ARCH', 3)]
HELD_AT_GATE = ('node ARCH|arrival CT2 1.2.3.4|kept 1.2.3.4 70|lines 1|node CT1|arrival - 1.2.3.4|row 1.2.3.4 GATE done|lines {}|'
                'node CT2|arrival - 1.2.3.4|row 1.2.3.4 ARCH done|lines 2|node GATE|')
HELD_ROW = HELD_AT_GATE.format(2) + 'arrival CT1 1.2.3.4|row 1.2.3.4 ARCH {}|lines {}|'
# the row that is held is under way over another link, too
HELD_TWICE = [*submit('CT2', SHORT), *carried('CT2', 'ARCH', 1), *submit('CT1', LONGER), *carried('CT1', 'GATE', 2), *opened('GATE', 'ARCH', 3),
              *opened('GATE', 'ARCH', 4), ('push', 3), ('push', 4), *moved(3, 'acceptor', 'acceptor', 'requestor')]
GIVEN_UP = [*HELD, ('drop', 'GATE', UID, 'ARCH')]
GIVEN_UP_ROW = HELD_AT_GATE.format(2) + 'row 1.2.3.4 ARCH dropped|lines 3|'
# what other makers' products write: CT1 asks in a context of its own, ARCH answers the one that GATE proposes
ASKED = wire.associate(1, 'GATE', 'CT1', wire.context(9, wire.CT, wire.EXPLICIT))
COMMAND = wire.command((2, wire.CT), (0x100, wire.STORE), (0x110, 77), (0x700, 0), (0x800, 1), (0x1000, UID.encode()))
STORED = wire.values(9, 1, COMMAND) + wire.values(9, 0, SHORT)
REJECTED = wire.pdu(wire.REJECTED, bytes([0, 1, 1, 1]))


def accepted(result):
    return wire.associate(2, 'ARCH', 'GATE', wire.item(0x21, bytes([1, 0, result, 0]) + wire.item(0x40, wire.EXPLICIT)))


def written(link, side, *pdus):
    """Each of these is written at that end and moved to the other one."""
    reader = 'acceptor' if side == 'requestor' else 'requestor'
    return [step for pdu in pdus for step in (('bytes', link, side, pdu.hex()), *moved(link, *[reader] * 2))]


def answered(status, to=1):
    return wire.stored(UID.encode(), 1, to, status)


SCANNER = [('open', 'CT1', 'GATE'), *written(1, 'requestor', ASKED, STORED)]
SCANNED = 'node ARCH|lines 0|node CT1|lines 0|' + GATE_WAITS
ARCHIVE = [*FIRST, ('open', 'GATE', 'ARCH'), *written(2, 'acceptor', accepted(0)), ('push', 2)]
ARCHIVED = 'node ARCH|lines 0|' + CT1_SENT
# both at once, and a link between two of ours, GATE and HUB, over which the same instance goes
BESIDE = [*SCANNER, ('open', 'GATE', 'ARCH'), *written(2, 'acceptor', accepted(0)), *opened('GATE', 'HUB', 3), ('push', 2), ('push', 3)]
BESIDE_REPORT = 'node ARCH|lines 0|node CT1|lines 0|node GATE|arrival CT1 1.2.3.4|row 1.2.3.4 ARCH {}|row 1.2.3.4 HUB {}|lines {}|node HUB|'
HUB_KEEPS = 'arrival GATE 1.2.3.4|kept 1.2.3.4 70|lines 1|'
# the same by words: CT1 asks as the plan says, and GATE has sent what it has
OTHERS_OPEN = [('foreign', 'CT1'), ('open', 'CT1', 'GATE'), *moved(1, 'acceptor')]


def stores(link, body):
    return [('store', link, 'E', body.hex()), *moved(link, 'acceptor', 'acceptor')]


STORES = [*OTHERS_OPEN, *stores(1, SHORT)]
STORED_REPORT = 'node ARCH|lines 0|node CT1|foreign|' + GATE_WAITS
ASKS = [*FIRST, *opened('GATE', 'ARCH', 2), ('push', 2), ('foreign', 'ARCH')]
OTHERS_ARCHIVE = 'node ARCH|foreign|' + CT1_SENT
IMPLICITLY = b''.join(tag + len(value).to_bytes(4, 'little') + value for tag, value in (
    (b'\x08\0\x16\0', CT.encode() + b'\0'), (b'\x08\0\x18\0', b'1.2.3.4\0'), (b'\x08\0\x60\0', b'CT'), (b'\x08\0\x10\x10', b'S1')))
# no link is open, and GATE has still to send
CLOSED = [*FIRST, ('close', 1)]
CLOSED_REPORT = 'node ARCH|lines 0|' + CT1_SENT + GATE_WAITS
ADOPTED = [*CLOSED, ('adopt', to_both)]
HUB_IS_NEW = 'node HUB|lines 0|'
ADOPTED_REPORT = 'node ARCH|lines 1|node CT1|lines 3|node GATE|row 1.2.3.4 ARCH waiting 0 0|lines 2|' + HUB_IS_NEW
SENT_ON = ('node ARCH|arrival GATE 1.2.3.4|kept 1.2.3.4 70|lines 2|node CT1|lines 3|node GATE|row 1.2.3.4 ARCH done|lines 3|' + HUB_IS_NEW)


def ninth_and_tenth():
    """A store at ARCH that is refused nine times, and then a tenth time, when its row is due."""
    steps, wait = list(FIRST), 0
    for tries in range(1, 11):
        steps += [('tick', wait), *opened('GATE', 'ARCH', tries + 1), ('refuse', 'ARCH'), ('push', tries + 1),
                  *moved(tries + 1, 'acceptor', 'acceptor', 'requestor')]
        wait = 1000 * min(300, 2 ** (tries - 1))
        yield list(steps), tries


def due_after(tries):
    """The moment from which on the row is due after so many refused stores, each tried when it was due."""
    return sum(1000 * min(300, 2 ** k) for k in range(tries))


ROWS = [
    ('an empty script', three_nodes, [], NOTHING),
    ('an instance goes on and is kept', three_nodes, BOTH, ARCH_KEEPS + CT1_SENT + GATE_SENT),
    ('a modality that no flow brings', three_nodes, submit('CT1', instance(b'MR')), NOTHING),
    ('the node that keeps stops before it answers', three_nodes,
     [*FIRST, *opened('GATE', 'ARCH', 2), ('push', 2), *moved(2, 'acceptor', 'acceptor'), ('restart', 'ARCH')], ARCH_KEEPS + CT1_SENT + TRIED),
    ('.. a push before the row is due', three_nodes,
     [*FIRST, *opened('GATE', 'ARCH', 2), ('push', 2), *moved(2, 'acceptor', 'acceptor'), ('restart', 'ARCH'), ('tick', 999), *carried('GATE', 'ARCH', 3)],
     ARCH_KEEPS + CT1_SENT + TRIED),
    ('.. and it is sent again', three_nodes,
     [*FIRST, *opened('GATE', 'ARCH', 2), ('push', 2), *moved(2, 'acceptor', 'acceptor'), ('restart', 'ARCH'), ('tick', 1000), *carried('GATE', 'ARCH', 3)],
     'node ARCH|arrival GATE 1.2.3.4|kept 1.2.3.4 70|lines 2|' + CT1_SENT + 'node GATE|arrival CT1 1.2.3.4|row 1.2.3.4 ARCH done|lines 3|'),
    ('a caller that comes to no link', three_nodes, [*FIRST, ('away', 'GATE', 'ARCH')], 'node ARCH|lines 0|' + CT1_SENT + TRIED),
    ('.. and again before the row is due', three_nodes, [*FIRST, *2 * [('away', 'GATE', 'ARCH')]], 'node ARCH|lines 0|' + CT1_SENT + TRIED),
    ('.. and when it is due', three_nodes, [*FIRST, ('away', 'GATE', 'ARCH'), ('tick', 1000), ('away', 'GATE', 'ARCH')],
     'node ARCH|lines 0|' + CT1_SENT + 'node GATE|arrival CT1 1.2.3.4|row 1.2.3.4 ARCH waiting 2 3000|lines 3|'),
    ('.. but comes to one then', three_nodes, [*FIRST, ('away', 'GATE', 'ARCH'), ('tick', 1000), *carried('GATE', 'ARCH', 2)],
     ARCH_KEEPS + CT1_SENT + 'node GATE|arrival CT1 1.2.3.4|row 1.2.3.4 ARCH done|lines 3|'),
    ('.. whose store refuses', three_nodes, [*FIRST, ('refuse', 'GATE'), ('away', 'GATE', 'ARCH')], 'node ARCH|lines 0|' + CT1_SENT + GATE_WAITS),
    ('.. to a node to which nothing is due', three_nodes, [*FIRST, ('away', 'GATE', 'CT1'), ('away', 'CT1', 'GATE'), ('away', 'ARCH', 'GATE')],
     'node ARCH|lines 0|' + CT1_SENT + GATE_WAITS),
    ('.. of two rows, each once', three_nodes, [*FIRST, *submit('CT1', OTHER), *carried('CT1', 'GATE', 2), *2 * [('away', 'GATE', 'ARCH')]],
     'node ARCH|lines 0|node CT1|arrival - 1.2.3.4|arrival - 1.2.3.5|row 1.2.3.4 GATE done|row 1.2.3.5 GATE done|lines 4|'
     'node GATE|arrival CT1 1.2.3.4|arrival CT1 1.2.3.5|row 1.2.3.4 ARCH waiting 1 1000|row 1.2.3.5 ARCH waiting 1 1000|lines 4|'),
    ('.. of two rows, the first', three_nodes, [*FIRST, *submit('CT1', OTHER), *carried('CT1', 'GATE', 2), ('away', 'GATE', 'ARCH')],
     'node ARCH|lines 0|node CT1|arrival - 1.2.3.4|arrival - 1.2.3.5|row 1.2.3.4 GATE done|row 1.2.3.5 GATE done|lines 4|'
     'node GATE|arrival CT1 1.2.3.4|arrival CT1 1.2.3.5|row 1.2.3.4 ARCH waiting 1 1000|row 1.2.3.5 ARCH waiting 0 0|lines 3|'),
    ('two ways to one node', two_ways,
     [*submit('CT1', SHORT), *carried('CT1', 'GATE', 1), *carried('GATE', 'A', 2), *carried('GATE', 'B', 3), *carried('A', 'ARCH', 4), *carried('B', 'ARCH', 5)],
     'node A|arrival GATE 1.2.3.4|row 1.2.3.4 ARCH done|lines 2|node ARCH|arrival A 1.2.3.4|arrival B 1.2.3.4|kept 1.2.3.4 70|lines 2|'
     'node B|arrival GATE 1.2.3.4|row 1.2.3.4 ARCH done|lines 2|' + CT1_SENT
     + 'node GATE|arrival CT1 1.2.3.4|row 1.2.3.4 A done|row 1.2.3.4 B done|lines 3|'),
    ('another body under the same UID', straight, HELD, HELD_ROW.format('held C0F1', 2)),
    ('.. is queued again', straight, [*HELD, ('requeue', 'GATE', '1.2.3.4', 'ARCH')], HELD_ROW.format('waiting 0 0', 3)),
    ('.. and a waiting row is not', straight, [*HELD, *2 * [('requeue', 'GATE', '1.2.3.4', 'ARCH')]], HELD_ROW.format('waiting 0 0', 3)),
    ('.. is given up', straight, GIVEN_UP, GIVEN_UP_ROW),
    ('.. once', straight, [*GIVEN_UP, ('drop', 'GATE', UID, 'ARCH')], GIVEN_UP_ROW),
    ('.. and is not sent any more', straight, [*GIVEN_UP, ('tick', 1_000_000), *carried('GATE', 'ARCH', 4)], GIVEN_UP_ROW),
    ('.. and waits anew when it is brought again', straight,
     [*GIVEN_UP, ('forget', 'CT1', UID), *submit('CT1', LONGER), *carried('CT1', 'GATE', 4)],
     HELD_AT_GATE.format(5) + 'arrival CT1 1.2.3.4|row 1.2.3.4 ARCH waiting 0 0|lines 4|'),
    ('.. and may be forgotten', straight, [*GIVEN_UP, ('forget', 'GATE', UID)], HELD_AT_GATE.format(2) + 'lines 4|'),
    ('.. also while an answer is under way, which changes nothing', straight,
     [*HELD_TWICE, ('drop', 'GATE', UID, 'ARCH'), *moved(4, 'acceptor', 'acceptor', 'requestor')], GIVEN_UP_ROW),
    ('.. but that the very instance was brought again', straight,
     [*HELD_TWICE, ('drop', 'GATE', UID, 'ARCH'), ('forget', 'CT1', UID), *submit('CT1', LONGER), *carried('CT1', 'GATE', 5), *moved(4, 'acceptor', 'acceptor', 'requestor')],
     HELD_AT_GATE.format(5) + 'arrival CT1 1.2.3.4|row 1.2.3.4 ARCH held C0F1|lines 5|'),
    ('what waits is not given up', three_nodes, [*FIRST, ('drop', 'GATE', UID, 'ARCH')], 'node ARCH|lines 0|' + CT1_SENT + GATE_WAITS),
    ('nor what is done', three_nodes, [*BOTH, ('drop', 'GATE', UID, 'ARCH')], ARCH_KEEPS + CT1_SENT + GATE_SENT),
    ('a dropping that is refused', straight, [*HELD, ('refuse', 'GATE'), ('drop', 'GATE', UID, 'ARCH')], HELD_ROW.format('held C0F1', 2)),
    ('.. and told again', straight, [*HELD, ('refuse', 'GATE'), *2 * [('drop', 'GATE', UID, 'ARCH')]], GIVEN_UP_ROW),
    ('what was sent on is forgotten', three_nodes, BOTH_FORGOT, ARCH_KEEPS + 'node CT1|lines 3|node GATE|lines 3|'),
    ('.. once', three_nodes, [*BOTH_FORGOT, ('forget', 'GATE', UID)], ARCH_KEEPS + 'node CT1|lines 3|node GATE|lines 3|'),
    ('.. and is new when it comes again', three_nodes, [*BOTH_FORGOT, *submit('CT1', SHORT), *carried('CT1', 'GATE', 3), *carried('GATE', 'ARCH', 4)],
     'node ARCH|arrival GATE 1.2.3.4|kept 1.2.3.4 70|lines 2|node CT1|arrival - 1.2.3.4|row 1.2.3.4 GATE done|lines 5|'
     'node GATE|arrival CT1 1.2.3.4|row 1.2.3.4 ARCH done|lines 5|'),
    ('.. also with another body', three_nodes, [*BOTH_FORGOT, *submit('CT1', LONGER), *carried('CT1', 'GATE', 3), *carried('GATE', 'ARCH', 4)],
     ARCH_KEEPS + 'node CT1|arrival - 1.2.3.4|row 1.2.3.4 GATE done|lines 5|node GATE|arrival CT1 1.2.3.4|row 1.2.3.4 ARCH held C0F1|lines 5|'),
    ('what is kept is not forgotten', three_nodes, [*BOTH, ('forget', 'ARCH', UID)], ARCH_KEEPS + CT1_SENT + GATE_SENT),
    ('nor what waits', three_nodes, [*FIRST, ('forget', 'GATE', UID)], 'node ARCH|lines 0|' + CT1_SENT + GATE_WAITS),
    ('nor what is held', straight, [*HELD, ('forget', 'GATE', UID)], HELD_ROW.format('held C0F1', 2)),
    ('nor what is under way over another link', three_nodes, [*TWICE, ('forget', 'CT1', UID), *moved(2, 'acceptor', 'acceptor')],
     'node ARCH|lines 0|' + CT1_SENT + HEARD_TWICE),
    ('.. until it is answered', three_nodes, [*TWICE, *moved(2, 'acceptor', 'acceptor', 'requestor'), ('forget', 'CT1', UID)],
     'node ARCH|lines 0|node CT1|lines 3|' + HEARD_TWICE),
    ('.. or its link is lost', three_nodes, [*TWICE, ('close', 2), ('forget', 'CT1', UID)], 'node ARCH|lines 0|node CT1|lines 3|' + GATE_WAITS),
    ('a forgetting that is refused', three_nodes, [*BOTH, ('refuse', 'GATE'), ('forget', 'GATE', UID)], ARCH_KEEPS + CT1_SENT + GATE_SENT),
    ('.. and told again', three_nodes, [*BOTH, ('refuse', 'GATE'), *2 * [('forget', 'GATE', UID)]], ARCH_KEEPS + CT1_SENT + 'node GATE|lines 3|'),
    ('a refused store', three_nodes,
     [*FIRST, *opened('GATE', 'ARCH', 2), ('refuse', 'ARCH'), ('push', 2), *moved(2, 'acceptor', 'acceptor', 'requestor')],
     'node ARCH|lines 0|' + CT1_SENT + TRIED),
    ('a requestor that aborts', three_nodes, [*submit('CT1', SHORT), *opened('CT1', 'GATE', 1), ('push', 1), ('abort', 1, 'requestor')],
     'node ARCH|lines 0|node CT1|arrival - 1.2.3.4|row 1.2.3.4 GATE waiting 1 1000|lines 2|node GATE|lines 0|'),
    ('an acceptor that is not late', three_nodes,
     [*submit('CT1', SHORT), ('open', 'CT1', 'GATE'), ('late', 1, 'acceptor'), *moved(1, 'acceptor', 'requestor'), ('push', 1), *moved(1, 'acceptor', 'acceptor', 'requestor')],
     'node ARCH|lines 0|' + CT1_SENT + GATE_WAITS),
    ('an acceptor that is', three_nodes,
     [*submit('CT1', SHORT), ('open', 'CT1', 'GATE'), ('tick', 30_000), ('late', 1, 'acceptor'), *moved(1, 'acceptor', 'requestor'), ('push', 1)],
     'node ARCH|lines 0|node CT1|arrival - 1.2.3.4|row 1.2.3.4 GATE waiting 0 0|lines 1|node GATE|lines 0|'),
    ('a plan that does not go on with a row', three_nodes, [*CLOSED, ('adopt', to_hub_alone)], 'Unfit GATE 1.2.3.4 ARCH|' + CLOSED_REPORT),
    ('one that does, with a node more', three_nodes, ADOPTED, ADOPTED_REPORT),
    ('.. and the row goes on by it', three_nodes, [*ADOPTED, *carried('GATE', 'ARCH', 2)], SENT_ON),
    ('.. and what enters then goes both ways', three_nodes,
     [*ADOPTED, *carried('GATE', 'ARCH', 2), *submit('CT1', SHORT), *carried('CT1', 'GATE', 3), *carried('GATE', 'HUB', 4)],
     'node ARCH|arrival GATE 1.2.3.4|kept 1.2.3.4 70|lines 2|node CT1|arrival - 1.2.3.4|row 1.2.3.4 GATE done|lines 5|'
     'node GATE|arrival CT1 1.2.3.4|row 1.2.3.4 ARCH done|row 1.2.3.4 HUB done|lines 5|node HUB|arrival GATE 1.2.3.4|kept 1.2.3.4 70|lines 1|'),
    ('.. and then the plan before it, which lacks a node', three_nodes, [*ADOPTED, ('adopt', three_nodes)], 'Skipped|' + ADOPTED_REPORT),
    ('.. and then one that does not go on with the row', three_nodes, [*ADOPTED, ('adopt', to_hub_alone)], 'Unfit GATE 1.2.3.4 ARCH|' + ADOPTED_REPORT),
    ('.. but does when it is done', three_nodes, [*ADOPTED, *carried('GATE', 'ARCH', 2), ('close', 2), ('adopt', to_hub_alone)],
     'node ARCH|kept 1.2.3.4 70|lines 3|node CT1|lines 4|node GATE|lines 4|node HUB|lines 1|'),
    ('a change of plan while a link is open', three_nodes, [*FIRST, ('adopt', to_both)], 'Skipped|' + CLOSED_REPORT),
    ('.. is made when it is closed', three_nodes, [*FIRST, ('adopt', to_both), ('close', 1), ('adopt', to_both)], 'Skipped|' + ADOPTED_REPORT),
    ('a plan that lacks a node', three_nodes, [*CLOSED, ('adopt', without_arch)], 'Skipped|' + CLOSED_REPORT),
    ('the same plan again', three_nodes, [*BOTH, ('close', 1), ('close', 2), ('adopt', three_nodes)],
     'node ARCH|kept 1.2.3.4 70|lines 2|node CT1|lines 3|node GATE|lines 3|'),
    ('.. and what was sent comes again', three_nodes,
     [*BOTH, ('close', 1), ('close', 2), ('adopt', three_nodes), *submit('CT1', SHORT), *carried('CT1', 'GATE', 3)],
     'node ARCH|kept 1.2.3.4 70|lines 2|node CT1|arrival - 1.2.3.4|row 1.2.3.4 GATE done|lines 5|'
     'node GATE|arrival CT1 1.2.3.4|row 1.2.3.4 ARCH waiting 0 0|lines 4|'),
    ('a held row that goes on', straight, [*HELD, *(('close', it) for it in (1, 2, 3)), ('adopt', straight)],
     'node ARCH|kept 1.2.3.4 70|lines 2|node CT1|lines 3|node CT2|lines 3|node GATE|row 1.2.3.4 ARCH held C0F1|lines 3|'),
    ('a scanner of another make', three_nodes, SCANNER, SCANNED),
    ('.. and what it brought goes on', three_nodes, [*SCANNER, *carried('GATE', 'ARCH', 2)], ARCH_KEEPS + 'node CT1|lines 0|' + GATE_SENT),
    ('.. that brings it again', three_nodes, [*SCANNER, *written(1, 'requestor', STORED)], SCANNED.replace('lines 1', 'lines 2')),
    ('.. and half of it', three_nodes, [('open', 'CT1', 'GATE'), *written(1, 'requestor', ASKED, STORED[:-1])], NOTHING),
    ('.. and the rest', three_nodes, [('open', 'CT1', 'GATE'), *written(1, 'requestor', ASKED, STORED[:-1], STORED[-1:])], SCANNED),
    ('.. that asks nothing and stores', three_nodes, [('open', 'CT1', 'GATE'), *written(1, 'requestor', STORED)], NOTHING),
    ('.. that asks as a node that may not', three_nodes,
     [('open', 'CT1', 'GATE'), *written(1, 'requestor', ASKED.replace(wire.title('CT1'), wire.title('ARCH')), STORED)], NOTHING),
    ('.. that writes nothing', three_nodes, [('open', 'CT1', 'GATE'), *written(1, 'requestor', b''), *moved(1, 'acceptor', 'requestor'), ('push', 1)], NOTHING),
    ('an archive of another make', three_nodes, [*ARCHIVE, *written(2, 'acceptor', answered(0))], ARCHIVED + GATE_SENT),
    ('.. that is out of room', three_nodes, [*ARCHIVE, *written(2, 'acceptor', answered(0xA700))], ARCHIVED + TRIED),
    ('.. that refuses it', three_nodes, [*ARCHIVE, *written(2, 'acceptor', answered(0xC123))], ARCHIVED + GATE_WAITS.replace('waiting 0 0|lines 1', 'held C123|lines 2')),
    ('.. that answers another message', three_nodes, [*ARCHIVE, *written(2, 'acceptor', answered(0, to=2))], ARCHIVED + TRIED),
    ('.. that writes what is no PDU', three_nodes, [*ARCHIVE, *written(2, 'acceptor', b'HTTP/1.1 400 Bad Request\r\n')], ARCHIVED + TRIED),
    ('.. that writes nothing', three_nodes, ARCHIVE, ARCHIVED + GATE_WAITS),
    ('.. that rejects', three_nodes, [*FIRST, ('open', 'GATE', 'ARCH'), *written(2, 'acceptor', REJECTED)], ARCHIVED + TRIED),
    ('.. that takes no context', three_nodes, [*FIRST, ('open', 'GATE', 'ARCH'), *written(2, 'acceptor', accepted(3)), ('push', 2)],
     ARCHIVED + GATE_WAITS.replace('waiting 0 0|lines 1', 'held no-context|lines 2')),
    ('a scanner and an archive of another make beside a link between two of ours', to_both,
     [*BESIDE, *moved(3, 'acceptor', 'acceptor', 'requestor'), *written(2, 'acceptor', answered(0))], BESIDE_REPORT.format('done', 'done', 3) + HUB_KEEPS),
    ('.. that is lost before the answer', to_both, [*BESIDE, *moved(3, 'acceptor', 'acceptor'), ('close', 3), *written(2, 'acceptor', answered(0))],
     BESIDE_REPORT.format('done', 'waiting 1 1000', 3) + HUB_KEEPS),
    ('.. of which the node that was called stops', to_both, [*BESIDE, *moved(3, 'acceptor', 'acceptor'), ('restart', 'HUB'), *written(2, 'acceptor', answered(0))],
     BESIDE_REPORT.format('done', 'waiting 1 1000', 3) + HUB_KEEPS),
    ('.. of which the node that called stops', to_both, [*BESIDE, ('restart', 'GATE'), *written(2, 'acceptor', answered(0))],
     BESIDE_REPORT.format('waiting 0 0', 'waiting 0 0', 1) + 'lines 0|'),
    ('.. and a change of plan behind it', to_both,
     [*BESIDE, *moved(3, 'acceptor', 'acceptor', 'requestor'), ('close', 1), ('close', 2), ('close', 3), ('adopt', to_both)],
     'node ARCH|lines 1|node CT1|lines 1|node GATE|row 1.2.3.4 ARCH waiting 1 1000|lines 4|node HUB|kept 1.2.3.4 70|lines 2|'),
    ('what is written on no link', three_nodes, [('bytes', 1, 'acceptor', '00')], NOTHING),
    ('a node of another make', three_nodes, [*FIRST, ('foreign', 'ARCH')], 'node ARCH|foreign|' + CT1_SENT + GATE_WAITS),
    ('.. twice, and one that is no node', three_nodes, [*2 * [('foreign', 'ARCH')], ('foreign', 'NOBODY')],
     'Refused foreign NOBODY no-node|' + NOTHING.replace('ARCH|lines 0', 'ARCH|foreign')),
    ('a scanner of another make stores', three_nodes, STORES, STORED_REPORT),
    ('.. and what it brought goes on', three_nodes, [*STORES, *carried('GATE', 'ARCH', 2)], ARCH_KEEPS + 'node CT1|foreign|' + GATE_SENT),
    ('.. that brings it again', three_nodes, [*STORES, *stores(1, SHORT)], STORED_REPORT.replace('lines 1', 'lines 2')),
    ('.. that brings two before either is heard', three_nodes, [*OTHERS_OPEN, ('store', 1, 'E', SHORT.hex()), *stores(1, SHORT), *moved(1, 'acceptor', 'acceptor')],
     STORED_REPORT.replace('lines 1', 'lines 2')),
    ('.. to a node of another make', three_nodes, [*OTHERS_OPEN, ('foreign', 'GATE'), *stores(1, SHORT)],
     'Refused store 1 both-foreign|node ARCH|lines 0|node CT1|foreign|node GATE|foreign|'),
    ('.. that brings another under its UID', three_nodes, [*STORES, *stores(1, LONGER)], STORED_REPORT),
    ('.. of a modality that no flow brings', three_nodes, [*OTHERS_OPEN, *stores(1, instance(b'MR'))], STORED_REPORT.replace(GATE_WAITS, 'node GATE|lines 0|')),
    ('.. over a link that was open before', three_nodes, [*opened('CT1', 'GATE', 1), ('foreign', 'CT1'), *stores(1, SHORT)], STORED_REPORT),
    ('.. in a context that was not accepted', three_nodes, [*OTHERS_OPEN, ('store', 1, 'I', IMPLICITLY.hex())],
     'Refused store 1 no-context|' + STORED_REPORT.replace(GATE_WAITS, 'node GATE|lines 0|')),
    ('.. before it has asked', three_nodes, [('foreign', 'CT1'), ('open', 'CT1', 'GATE'), *stores(1, SHORT)],
     'Refused store 1 no-context|' + STORED_REPORT.replace(GATE_WAITS, 'node GATE|lines 0|')),
    ('.. over no link', three_nodes, [('foreign', 'CT1'), *stores(1, SHORT)], 'Refused store 1 no-link|' + STORED_REPORT.replace(GATE_WAITS, 'node GATE|lines 0|')),
    ('one of ours that is told to store', three_nodes, [*opened('CT1', 'GATE', 1), *stores(1, SHORT)], 'Refused store 1 not-foreign|' + NOTHING),
    ('.. and one that becomes another maker\'s', three_nodes, [*opened('CT1', 'GATE', 1), *stores(1, SHORT), ('foreign', 'CT1'), *stores(1, SHORT)],
     'Refused store 1 not-foreign|' + STORED_REPORT),
    ('no step is taken for another maker\'s node', three_nodes,
     [*submit('CT1', SHORT), *opened('CT1', 'GATE', 1), ('foreign', 'CT1'), *submit('CT1', OTHER), ('push', 1), ('abort', 1, 'requestor'), ('release', 1), *moved(1, 'acceptor', 'acceptor')],
     STORED_REPORT.replace(GATE_WAITS, 'node GATE|lines 0|')),
    ('an archive of another make answers', three_nodes, [*ASKS, ('answer', 2, '0000'), *moved(2, 'requestor')], OTHERS_ARCHIVE + GATE_SENT),
    ('.. that it is out of room', three_nodes, [*ASKS, ('answer', 2, 'a700'), *moved(2, 'requestor')], OTHERS_ARCHIVE + TRIED),
    ('.. that it refuses it', three_nodes, [*ASKS, ('answer', 2, 'C123'), *moved(2, 'requestor')],
     OTHERS_ARCHIVE + GATE_WAITS.replace('waiting 0 0|lines 1', 'held C123|lines 2')),
    ('.. once', three_nodes, [*ASKS, ('answer', 2, '0000'), *moved(2, 'requestor'), ('answer', 2, 'C123'), *moved(2, 'requestor')],
     'Refused answer 2 not-asked|' + OTHERS_ARCHIVE + GATE_SENT),
    ('.. a node of another make', three_nodes, [*ASKS, ('foreign', 'GATE'), ('answer', 2, '0000')],
     'Refused answer 2 both-foreign|node ARCH|foreign|' + CT1_SENT + 'node GATE|foreign|'),
    ('.. that was asked nothing', three_nodes, [*FIRST, *opened('GATE', 'ARCH', 2), ('foreign', 'ARCH'), ('answer', 2, '0000')],
     'Refused answer 2 not-asked|' + OTHERS_ARCHIVE + GATE_WAITS),
    ('.. over no link', three_nodes, [*FIRST, ('foreign', 'ARCH'), ('answer', 2, '0000')], 'Refused answer 2 no-link|' + OTHERS_ARCHIVE + GATE_WAITS),
    ('one of ours that is told to answer', three_nodes, [*FIRST, *opened('GATE', 'ARCH', 2), ('push', 2), ('answer', 2, '0000'), *moved(2, 'requestor')],
     'Refused answer 2 not-foreign|' + ARCHIVED + GATE_WAITS),
    ('a link to another maker\'s node is lost', three_nodes, [*ASKS, ('close', 2)], OTHERS_ARCHIVE + TRIED),
    ('a change of plan beside another maker\'s node', three_nodes, [*CLOSED, ('foreign', 'ARCH'), ('adopt', to_hub_alone), ('answer', 1, '0000')],
     'Unfit GATE 1.2.3.4 ARCH|Refused answer 1 not-foreign|' + OTHERS_ARCHIVE + GATE_WAITS),
    *((f'{tries} refused stores', three_nodes, steps, 'node ARCH|lines 0|' + CT1_SENT
       + f'node GATE|arrival CT1 1.2.3.4|row 1.2.3.4 ARCH waiting {tries} {due_after(tries)}|lines {tries + 1}|')
      for steps, tries in ninth_and_tenth() if tries in (9, 10)),
]
# played as they stand: they count bytes
EXACT = [
    ('233 bytes of a request', three_nodes,
     [*submit('CT1', SHORT), ('open', 'CT1', 'GATE'), *233 * [('move', 1, 'acceptor', 1)], *moved(1, 'requestor'), ('push', 1)],
     'node ARCH|lines 0|node CT1|arrival - 1.2.3.4|row 1.2.3.4 GATE waiting 0 0|lines 1|node GATE|lines 0|'),
    ('234 bytes of a request', three_nodes,
     [*submit('CT1', SHORT), ('open', 'CT1', 'GATE'), *234 * [('move', 1, 'acceptor', 1)], *moved(1, 'requestor'), ('push', 1), ('abort', 1, 'requestor')],
     'node ARCH|lines 0|node CT1|arrival - 1.2.3.4|row 1.2.3.4 GATE waiting 1 1000|lines 2|node GATE|lines 0|'),
    ('81 bytes of a data set', three_nodes,
     [*FIRST, *opened('GATE', 'ARCH', 2), ('push', 2), *moved(2, 'acceptor'), ('move', 2, 'acceptor', 81)],
     'node ARCH|lines 0|' + CT1_SENT + GATE_WAITS),
    ('82 bytes of a data set', three_nodes,
     [*FIRST, *opened('GATE', 'ARCH', 2), ('push', 2), *moved(2, 'acceptor'), ('move', 2, 'acceptor', 81), ('move', 2, 'acceptor', 1)],
     ARCH_KEEPS + CT1_SENT + GATE_WAITS),
    ('a node that stops after 81', three_nodes,
     [*FIRST, *opened('GATE', 'ARCH', 2), ('push', 2), *moved(2, 'acceptor'), ('move', 2, 'acceptor', 81), ('restart', 'ARCH')],
     'node ARCH|lines 0|' + CT1_SENT + TRIED),
]
# what is no script: the line that is named
WRONG = [(1, 'away\tGATE\n'), (1, 'away\tGATE\tARCH\t\n'), (1, 'adopt\tplan\n'), (1, 'adopt\tplan\tcertificate\tmore\n'), (1, 'forget\tCT1\n'), (1, 'forget\tCT1\t1.2.3.4\tGATE\n'), (1, 'drop\tCT1\t1.2.3.4\n'), (1, 'drop\tCT1\t1.2.3.4\tGATE\t1\n'), (2, '# a comment\nmove\t1\tnobody\t1\n'), (1, 'bytes\t1\tacceptor\n'), (1, 'bytes\t1\tnobody\t00\n'), (1, 'bytes\t01\tacceptor\t00\n'), (1, 'bytes\t1\tacceptor\t0\n'), (1, 'foreign\n'), (1, 'foreign\tCT1\tGATE\n'), (1, 'store\t1\tE\n'), (1, 'store\t1\tE\t0800\n'), (1, 'store\t1\tX\t0800\n'), (1, 'answer\t1\n'), (1, 'answer\t1\t000\n'), (1, 'answer\t1\t00\n'), (1, 'answer\t1\t000000\n'), (1, 'answer\t01\t0000\n'), (1, 'push\n'), (1, 'push\t01\n'), (3, '\n\nfly\n'), (1, 'tick\t18446744073709551616\n'),
         (1, 'submit\tCT1\tE\t0800\n'), (2, 'tick\t1\nsubmit\tCT1\tE\tXY\n'), (1, ' \n')]


def cut(steps, size):
    """The steps with each Move of all cut into as many Moves of that size as its longest PDU needs; what is too many is skipped."""
    for step in steps:
        yield from [(*step[:3], size)] * -(-LONGEST // size) if step[0] == 'move' and step[3] == ALL else [step]


class Room:
    """A folder with the plans, each with its certificate, and the program in it."""

    def __init__(self, folder):
        self.folder, self.plans = folder, {}

    def put(self, name, content):
        path = f'{self.folder}/{name}'
        with open(path, 'wb') as it:
            it.write(content)
        return path

    def run(self, *words):
        ended = subprocess.run([PROGRAM, *words], stdout=subprocess.PIPE, stderr=subprocess.PIPE, timeout=60)
        # below a fault stand indented lines that say where it is (tests/places.py)
        faults = ''.join(line for line in ended.stderr.decode().splitlines(True) if not line.startswith('  '))
        return ended.stdout.decode(), faults, ended.returncode

    def plan(self, make):
        if make not in self.plans:
            path = self.put(f'{make.__name__}.toml', make())
            certificate, faults, status = self.run('check', path)
            assert status == 0, (make.__name__, certificate, faults)
            self.plans[make] = path, self.put(f'{make.__name__}.certificate', certificate.encode())
        return self.plans[make]

    def play(self, make, script):
        return self.run('simulate', *self.plan(make), self.put('script', script.encode()))

    def text_of(self, steps):
        """The script of these steps; a plan is named by its two files."""
        told = [('adopt', *self.plan(step[1])) if step[0] == 'adopt' else step for step in steps]
        return ''.join('\t'.join(map(str, step)) + '\n' for step in told)


def compare(what, got, wanted):
    if got != wanted:
        sys.exit(f'{what}:\n{got}\nnot\n{wanted}')


def main():
    if subprocess.run([f'{TOP}/dr_router', 'simulate', '--help'], stdout=subprocess.DEVNULL).returncode != 0:
        sys.exit('the program is not built')
    with tempfile.TemporaryDirectory(prefix='scripts-') as folder:
        room = Room(folder)
        for what, make, steps, report in ROWS + EXACT:
            printed = report.replace(' ', '\t').replace('|', '\n')
            for size in (ALL, 7, 1) if (what, make, steps, report) in ROWS else (ALL,):
                played = steps if size == ALL else list(cut(steps, size))
                compare(f'{what}, moves of {size}', room.play(make, room.text_of(played)), (printed, '', 0))
        for line, script in WRONG:
            compare(repr(script), room.play(three_nodes, script), ('', f'dr_router: K1 Script {line}\n', 1))
        plan, certificate = room.plan(three_nodes)
        with open(certificate) as it:
            wrong = room.put('wrong', it.read().replace('S1\t2\n', 'S1\t3\n').encode())
        both = room.plan(to_both)
        compare('a refused store', room.play(three_nodes, room.text_of([*CLOSED, ('refuse', 'GATE'), ('adopt', to_both)])), ('', 'dr_router: U2 Store\n', 3))
        for what, names in (('a certificate of another plan', (both[0], certificate)), ('files in the wrong order', both[::-1]), ('a wrong rank', (plan, wrong))):
            compare(what, room.play(three_nodes, f'tick\t1\n# a plan\nadopt\t{names[0]}\t{names[1]}\n'), ('', 'dr_router: K1 Script 3\n', 1))
        for names in (('none', certificate), (plan, 'none')):
            out, faults, status = room.play(three_nodes, 'adopt\t' + '\t'.join(names) + '\n')
            compare('no file', (out, faults.startswith('dr_router: none: '), status), ('', True, 3))
        script = room.put('script', room.text_of(BOTH).encode())
        compare('a wrong rank', room.run('simulate', plan, wrong, script), ('', 'dr_router: C4 WrongRank\n', 1))
        compare('another plan', room.run('simulate', room.plan(straight)[0], certificate, script), ('', 'dr_router: C2 OtherPlan\n', 1))
        compare('no plan', room.run('simulate', script, certificate, script), ('', 'dr_router: L1 NotToml\n', 1))
        compare('no file', room.run('simulate', plan, certificate, 'none')[2], 3)
    print(f'script_rows.py: {3 * len(ROWS) + len(EXACT) + len(WRONG) + 10} runs, each as it should be')


main()
