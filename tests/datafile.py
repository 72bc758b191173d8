#!/usr/bin/env python3
"""Ledgers with their data sets in a file of their own (`new --data-file`), by the built program: nodes of both kinds
side by side hand on the same bytes, a kill loses nothing that was acknowledged, every word opens either kind, and the
place of what went is taken again. Where the file is missing, was cut short, is another ledger's or is locked, each word
is refused by name and changes nothing. No opening reads a data set: where a byte of one was changed, each word but
`audit` opens the ledger, and the row is held by name when it is to be sent. No node hands out bytes that weren't taken.

    tests/datafile.py
"""
import fcntl
import hashlib
import os
import random
import shutil
import signal
import sqlite3
import struct
import subprocess
import sys
import threading
import time

sys.dont_write_bytecode = True
from audit import CHANGES
from backup import BACKUP, Sender
from control import DONE, Asked
from lib.nodes import LIMIT, PLAN, TOP, Room, data_set, element, ended, lines, part10, run_cases, same, stop, told
from lib.requestor import RELEASED, Requestor

NODES = 'CT1', 'GATE', 'ARCH'
NEXT = ('next', 'next.certificate')
WRONG = 'G6 OtherSite: DB.data'
# what stands before the first data set, in bytes
HEAD = 4096
# of the cell of the tables with the plan: its digest, and the key and the mark behind it
DIGEST, KEY, MARK = 32, 8, 16
# the files of a ledger, by what stands behind its name
ENDS = '.db', '.db-wal', '.db.data', '.db.data-wal'
# A cell that is cut, has a byte behind its digests, names another place, a place in the head, or one that is behind the file's end.
CELLS_CHANGED = tuple(f'UPDATE item SET body = CAST({body} AS BLOB) WHERE length(body) > 0' for body in (
    'substr(body, 1, 16)', "body || x'00'", "x'0020' || substr(body, 3)", "x'0000' || substr(body, 3)", "substr(body, 1, 4) || x'01000000' || substr(body, 9)"))
# nothing but the four values; less than a piece of 256 kB, some more, and several
SIZES = 0, 20_000, 300_000, 1_500_000
# of images at full speed, one of them so large that a kill may come while it is written
OF_SIZES = 100, 5_000, 70_000, 100, 5_000, 70_000, 100, 1_000_000


def pixels(size, seed=0):
    """An element of so many bytes, which differ."""
    return element(0x7FE0, 0x10, b'OW', random.Random(seed).randbytes(size)) if size else b''


def make(room, *nodes):
    """Ledgers with data files."""
    for node in nodes:
        told(room.at('new', node, '--data-file'), 0, 'made\n', '')


def tables(room, node, statement, *values):
    """What a statement answers at the tables of a stopped node, and how many rows it changed."""
    with sqlite3.connect(f'{room.folder}/{node}.db') as ledger:
        ran = ledger.execute(statement, values)
        found = ran.fetchall(), ran.rowcount
    ledger.close()
    return found


def owner(room, node):
    """What the tables have for the plan: its digest, and behind it a key and a mark, where data sets are in a file."""
    ((cell,),), _ = tables(room, node, 'SELECT plan FROM site')
    return bytes(cell)


def cells(room, node):
    """What stands in the rows of a stopped node for the data sets that are there, by their uids."""
    found, _ = tables(room, node, 'SELECT item.uid, item.body FROM item, print WHERE item.uid = print.uid AND print.whole != 0')
    return {uid.decode() if isinstance(uid, bytes) else uid: bytes(body) for uid, body in found}


def places(room, node):
    """Where the file of a stopped node has data sets, in order: where each begins, and how many bytes it has."""
    return sorted(struct.unpack_from('<QQ', cell) for cell in cells(room, node).values())


def stored(room, node):
    """The data sets that a stopped node has, by their uids: out of its tables, or out of the file beside them."""
    found = cells(room, node)
    if len(owner(room, node)) == DIGEST:
        return found
    with open(f'{room.folder}/{node}.db.data', 'rb') as file:
        whole = file.read()
    at = {uid: struct.unpack_from('<QQ', cell) for uid, cell in found.items()}
    return {uid: whole[begin:begin + size] for uid, (begin, size) in at.items()}


def length(room, node):
    return os.path.getsize(f'{room.folder}/{node}.db.data')


def book(room, node, plan=PLAN, ledger=None):
    """What the node has, as `list` prints it."""
    listed = room.at('list', node, plan=plan, ledger=ledger)
    same((listed.returncode, listed.stderr), (0, b''))
    return lines(listed.stdout)


def digest(path):
    with open(path, 'rb') as file:
        return hashlib.sha256(file.read()).hexdigest()


def files(room, *ends):
    """What the files are called whose names end so, and the digests of their bytes."""
    return [(name, digest(f'{room.folder}/{name}')) for name in sorted(os.listdir(room.folder)) if name.endswith(ends)]


def lock(file):
    """Takes SQLite's pending, reserved and shared locks, for as long as this file is open, whoever opens it besides."""
    fcntl.fcntl(file, fcntl.F_OFD_SETLK, struct.pack('hhqqi4x', fcntl.F_WRLCK, os.SEEK_SET, 1 << 30, 512, 0))


def all_done(count):
    """Whether so many rows are done, and no other is there."""
    return lambda rows: [row['state'] for row in rows] == ['done'] * count


# ---- what it does

def made():
    """`new --data-file` makes a ledger and the file beside it, once; no other word makes one; a stray file of data sets is never taken."""
    with Room() as room:
        make(room, 'GATE')
        names = {name for name in os.listdir(room.folder) if name.startswith('GATE')}
        same(names - {'GATE.db-wal'}, {'GATE.db', 'GATE.db.data', 'GATE.db.data-wal'})
        same(os.path.getsize(f'{room.folder}/GATE.db.data-wal'), 0)
        same(book(room, 'GATE'), ['node\tGATE', 'lines\t0'])
        cell = owner(room, 'GATE')
        with open(f'{room.folder}/{PLAN[0]}', 'rb') as text, open(f'{room.folder}/GATE.db.data', 'rb') as file:
            same((cell[:DIGEST], len(cell)), (hashlib.sha256(text.read()).digest(), DIGEST + KEY + MARK))
            same(file.read(), b'Bitrusset data 1' + cell[DIGEST + KEY:] + bytes(HEAD - 16 - MARK))
        for more in (), ('--data-file',):
            told(room.at('new', 'GATE', *more), 1, '', 'dr_router: G9 IsThere\n')
        told(room.at('new', 'ARCH'), 0, 'made\n', '')
        same(owner(room, 'ARCH'), cell[:DIGEST])
        room.put('image.dcm', part10(b'1.2.3.4'))
        same(room.at('send', 'CT1', 'image.dcm').returncode, 0)
        same(owner(room, 'CT1'), cell[:DIGEST])
        same([name for name in os.listdir(room.folder) if '.data' in name and not name.startswith('GATE')], [])
        # each has a key and a mark of its own
        told(room.at('new', 'GATE', '--data-file', ledger='second.db'), 0, 'made\n', '')
        other = owner(room, 'second')
        same((other[:DIGEST], other[DIGEST:DIGEST + KEY] != cell[DIGEST:DIGEST + KEY], other[DIGEST + KEY:] != cell[DIGEST + KEY:]), (cell[:DIGEST], True, True))
        # what may hold data sets is left, and what was begun and has none is begun anew
        room.put('late.db.data', bytes(HEAD + 1))
        told(room.at('new', 'ARCH', '--data-file', ledger='late.db'), 1, '', 'dr_router: G9 IsThere: DB.data\n')
        same([name for name in os.listdir(room.folder) if name.startswith('late')], ['late.db.data'])
        for size in 0, 1, HEAD:
            room.put(f'begun{size}.db.data', size * b'x')
            told(room.at('new', 'ARCH', '--data-file', ledger=f'begun{size}.db'), 0, 'made\n', '')
            same(book(room, 'ARCH', ledger=f'begun{size}.db'), ['node\tARCH', 'lines\t0'])
        # what is no plain file is left too, and no database is made beside it
        os.mkdir(f'{room.folder}/folder.db.data')
        told(room.at('new', 'ARCH', '--data-file', ledger='folder.db'), 3, '', 'dr_router: G3 Store\n')
        same([name for name in os.listdir(room.folder) if name.startswith('folder')], ['folder.db.data'])


def both_kinds():
    """GATE and ARCH of each kind: what ARCH keeps is what was sent, and both print the same."""
    sets = {f'1.2.3.{number}': data_set(f'1.2.3.{number}'.encode(), pixels(size, number)) for number, size in enumerate(SIZES)}
    printed = []
    for kinds in (), ('GATE',), ('ARCH',), ('GATE', 'ARCH'):
        with Room() as room:
            make(room, *kinds)
            arch, gate = room.serve('ARCH', 0), Asked(room, 'GATE', 0)
            with Requestor(room.ports['GATE'], 'CT1', 'GATE') as link:
                for uid, body in sets.items():
                    same(link.store(uid.encode(), body), 0)
                same(link.release(), RELEASED)
            gate.wait('/rows?dest=ARCH', all_done(len(sets)))
            stop(gate.process)
            with Requestor(room.ports['ARCH'], 'GATE', 'ARCH') as link:
                for uid, body in sets.items():
                    # the same again is taken, and other bytes under its UID aren't
                    same(link.store(uid.encode(), body), 0)
                    same(link.store(uid.encode(), body + element(0x7FE1, 0x10, b'LO', b'x')), 0xC0F1)
                same(link.release(), RELEASED)
            stop(arch)
            same(stored(room, 'ARCH'), sets)
            same(stored(room, 'GATE'), {})
            printed.append([book(room, node) for node in ('GATE', 'ARCH')])
            same({name for name in os.listdir(room.folder) if name.endswith('.data')}, {f'{kind}.db.data' for kind in kinds})
    for other in printed[1:]:
        same(other, printed[0])


def let_go():
    """The place of a data set that went is taken again: a file doesn't grow as images pass. Rows are dropped and instances forgotten, and what came of it
    is printed."""
    with Room() as room:
        make(room, *NODES)
        for number in range(6):
            uid = f'1.2.4.{number}'
            room.put('image.dcm', part10(uid.encode(), pixels(400_000, number)))
            arch, gate = room.serve('ARCH', 1), room.serve('GATE', 1)
            same(room.at('send', 'CT1', 'image.dcm').returncode, 0)
            ended(gate)
            ended(arch)
        for node, most in ('CT1', 2), ('GATE', 2), ('ARCH', 7):
            assert length(room, node) <= HEAD + most * 410_000, (node, length(room, node))
        same((len(stored(room, 'ARCH')), stored(room, 'GATE'), stored(room, 'CT1')), (6, {}, {}))
        # where data sets stand is behind the head, at whole pages, one behind the other, and within the file
        ends = [(HEAD, 0), *places(room, 'ARCH'), (length(room, 'ARCH'), 0)]
        same([at % 4096 for at, _ in ends[1:-1]], 6 * [0])
        assert all(at + size <= following for (at, size), (following, _) in zip(ends, ends[1:])), ends
        told(room.at('forget', 'GATE', '1.2.4.0'), 0, 'forgotten\n', '')
        told(room.at('forget', 'ARCH', '1.2.4.0'), 1, '', 'dr_router: G7 NotOver\n')
        told(room.at('drop', 'GATE', '1.2.4.1', 'ARCH'), 1, '', 'dr_router: G5 NotHeld\n')
        told(room.at('requeue', 'GATE', '1.2.4.1', 'ARCH'), 1, '', 'dr_router: G5 NotHeld\n')
        held(room)


def taken_again():
    """Of many that wait some go: what comes then is put where they were, and what waits stays where it is."""
    with Room() as room:
        make(room, 'GATE')
        gate = room.serve('GATE', 1)
        with Requestor(room.ports['GATE'], 'CT1', 'GATE') as link:
            for number in range(8):
                same(link.store(f'1.2.6.{number}'.encode(), data_set(f'1.2.6.{number}'.encode(), pixels(100_000, number))), 0)
            same(link.release(), RELEASED)
        ended(gate)
        before, whole, size = stored(room, 'GATE'), places(room, 'GATE'), length(room, 'GATE')
        same(len(before), 8)
        # ARCH takes the third and no other
        arch = room.serve('ARCH', 0)
        with Requestor(room.ports['ARCH'], 'GATE', 'ARCH') as link:
            for number in range(8):
                if number != 2:
                    same(link.store(f'1.2.6.{number}'.encode(), data_set(f'1.2.6.{number}'.encode(), pixels(99_000, number))), 0)
            same(link.release(), RELEASED)
        gate = Asked(room, 'GATE', 0)
        gate.wait('/rows?dest=ARCH', lambda rows: [row['state'] for row in rows] == ['held', 'held', 'done'] + 5 * ['held'])
        with Requestor(room.ports['GATE'], 'CT1', 'GATE') as link:
            same(link.store(b'1.2.6.2', data_set(b'1.2.6.2', pixels(100_000, 2))), 0)
            same(link.store(b'1.2.6.8', data_set(b'1.2.6.8', pixels(90_000, 8))), 0)
            same(link.release(), RELEASED)
        gate.wait('/rows?dest=ARCH', lambda rows: [row['state'] for row in rows] == ['held', 'held', 'done'] + 5 * ['held'] + ['done'])
        stop(gate.process)
        stop(arch)
        same(stored(room, 'GATE'), {uid: body for uid, body in before.items() if uid != '1.2.6.2'})
        same(length(room, 'GATE') <= size, True)
        same([place for place in whole if place not in places(room, 'GATE')], [whole[2]])
        # held rows are dropped, and then their instances are forgotten: nothing is left
        for number in (0, 1, 3, 4, 5, 6, 7):
            told(room.at('drop', 'GATE', f'1.2.6.{number}', 'ARCH'), 0, 'dropped\n', '')
        for number in range(9):
            told(room.at('forget', 'GATE', f'1.2.6.{number}'), 0, 'forgotten\n', '')
        same((stored(room, 'GATE'), length(room, 'GATE') <= size), ({}, True))


def held(room):
    """A held row's data set stays, and goes with the row."""
    room.put('image.dcm', part10(b'1.2.5.1', pixels(50_000)))
    room.put('other.dcm', part10(b'1.2.5.1', pixels(50_001)))
    gate = room.serve('GATE', 2)
    same(room.at('send', 'CT1', 'image.dcm', ledger='first.db').returncode, 0)
    assert 'row\t1.2.5.1\tGATE\theld\tC0F1' in lines(room.at('send', 'CT1', 'other.dcm').stdout)
    ended(gate)
    same(stored(room, 'CT1'), {'1.2.5.1': data_set(b'1.2.5.1', pixels(50_001))})
    told(room.at('requeue', 'CT1', '1.2.5.1', 'GATE'), 0, 'requeued\n', '')
    gate = room.serve('GATE', 1)
    room.put('next.dcm', part10(b'1.2.5.2'))
    same(room.at('send', 'CT1', 'next.dcm').returncode, 0)
    ended(gate)
    told(room.at('drop', 'CT1', '1.2.5.1', 'GATE'), 0, 'dropped\n', '')
    same(stored(room, 'CT1'), {})
    told(room.at('forget', 'CT1', '1.2.5.1'), 0, 'forgotten\n', '')


def killed(times=6):
    """GATE and ARCH are killed at full speed again and again; what was acknowledged comes to ARCH, whole, and the audit holds."""
    with Room() as room:
        make(room, 'GATE', 'ARCH')
        acknowledged = {}
        for turn in range(times):
            arch, gate = room.serve('ARCH', 0), room.serve('GATE', 0)
            callers = [threading.Thread(target=store_until_killed, args=(room, turn * 4 + share, acknowledged)) for share in range(4)]
            for caller in callers:
                caller.start()
            time.sleep(0.3 + 0.15 * turn)
            for process in (gate, arch) if turn % 2 else (arch, gate):
                process.send_signal(signal.SIGKILL)
                process.wait()
            for caller in callers:
                caller.join(LIMIT)
        assert len(acknowledged) > 4 * times, len(acknowledged)
        arch, gate = room.serve('ARCH', 0), room.serve('GATE', 0)
        end = time.monotonic() + LIMIT
        while 'waiting' in told_by(room, gate):
            assert time.monotonic() < end, len(acknowledged)
            gate = room.serve('GATE', 0)
            time.sleep(1)
        stop(arch)
        had = stored(room, 'ARCH')
        same({uid for uid in acknowledged if had.get(uid) != acknowledged[uid]}, set())
        assert book(room, 'GATE')[-1] != 'lines\t0'
        audited = room.run('audit', *PLAN, '.', '--other', 'CT1')
        same((audited.returncode, lines(audited.stdout)[:1], audited.stderr), (0, ['holds\t2'], b''))
        print(f'datafile: {len(acknowledged)} acknowledged over {times} kills', flush=True)


def told_by(room, gate):
    """What GATE has, which is killed for that."""
    stop(gate)
    return '\n'.join(book(room, 'GATE'))


def store_until_killed(room, share, acknowledged):
    """Stores images of some sizes, one after the other, until the other side is gone."""
    try:
        with Requestor(room.ports['GATE'], 'CT1', 'GATE') as caller:
            for count in range(100_000):
                uid = f'1.2.{share + 10}.{count}'
                body = data_set(uid.encode(), pixels(OF_SIZES[count % len(OF_SIZES)], count))
                if caller.store(uid.encode(), body) == 0:
                    acknowledged[uid] = body
    except (OSError, EOFError, AssertionError):
        pass


def brought_over():
    """Ledgers with data files go over to another plan, and are audited; what waits goes on."""
    with Room() as room, open(f'{TOP}/plans/three-nodes-next.toml', encoding='ascii') as text:
        room.put_plan(text.read(), NEXT)
        make(room, 'GATE', 'CT1')
        told(room.at('new', 'ARCH'), 0, 'made\n', '')
        room.put('image.dcm', part10(b'1.2.3.4', pixels(300_000)))
        gate = room.serve('GATE', 1)
        same(room.at('send', 'CT1', 'image.dcm').returncode, 0)
        ended(gate)
        before, owners = [book(room, node) for node in NODES], [owner(room, node) for node in NODES]
        same(room.run('adopt', '--dry-run', *PLAN, *NEXT, '.').returncode, 0)
        same(([book(room, node) for node in NODES], [owner(room, node) for node in NODES]), (before, owners))
        told(room.run('adopt', *PLAN, *NEXT, '.'), 0, 'adopted\n', '')
        # the plan is the next one, and each key and each mark stays
        with open(f'{room.folder}/{NEXT[0]}', 'rb') as text:
            digest_of_next = hashlib.sha256(text.read()).digest()
        same([owner(room, node) for node in NODES], [digest_of_next + cell[DIGEST:] for cell in owners])
        told(room.at('list', 'GATE'), 1, '', 'dr_router: G6 OtherSite\n')
        same(stored(room, 'GATE'), {'1.2.3.4': data_set(b'1.2.3.4', pixels(300_000))})
        arch, gate = room.serve('ARCH', 0, plan=NEXT), Asked(room, 'GATE', 0, plan=NEXT)
        gate.wait('/rows?dest=ARCH', all_done(1))
        stop(gate.process)
        stop(arch)
        same(stored(room, 'ARCH'), {'1.2.3.4': data_set(b'1.2.3.4', pixels(300_000))})
        audited = room.run('audit', *NEXT, '.', '--other', 'HUB')
        same((audited.returncode, lines(audited.stdout)[:1], audited.stderr), (0, ['holds\t3'], b''))


def another_form():
    """A node that has nothing left gets a ledger of the other form where the plan changes, as docs/RUNNING.md says; the audit holds by the next plan."""
    with Room() as room, open(f'{TOP}/plans/three-nodes-next.toml', encoding='ascii') as text:
        room.put_plan(text.read(), NEXT)
        make(room, 'ARCH')
        room.put('first.dcm', part10(b'1.2.3.4', pixels(300_000)))
        arch, gate = room.serve('ARCH', 1), room.serve('GATE', 1)
        same(room.at('send', 'CT1', 'first.dcm').returncode, 0)
        ended(gate)
        ended(arch)
        assert 'queue\tARCH\twaiting\t0\theld\t0\tdone\t1\toldest\t-' in lines(room.at('list', 'GATE', '--summary').stdout)
        os.mkdir(f'{room.folder}/before')
        for end in ENDS:
            if os.path.exists(f'{room.folder}/GATE{end}'):
                shutil.move(f'{room.folder}/GATE{end}', f'{room.folder}/before/GATE{end}')
        told(room.run('adopt', *PLAN, *NEXT, '.', '--without', 'GATE'), 0, 'adopted\n', '')
        told(room.at('new', 'GATE', '--data-file', plan=NEXT), 0, 'made\n', '')
        audit = 'audit', *NEXT, '.', '--other', 'HUB'
        same(lines(room.run(*audit).stdout)[:1], ['holds\t3'])
        arch, gate = room.serve('ARCH', 0, plan=NEXT), Asked(room, 'GATE', 0, plan=NEXT)
        room.put('second.dcm', part10(b'1.2.3.5', pixels(200_000)))
        same(room.at('send', 'CT1', 'second.dcm', plan=NEXT).returncode, 0)
        gate.wait('/rows?dest=ARCH', all_done(1))
        stop(gate.process)
        stop(arch)
        same(stored(room, 'ARCH'), {'1.2.3.4': data_set(b'1.2.3.4', pixels(300_000)), '1.2.3.5': data_set(b'1.2.3.5', pixels(200_000))})
        same(lines(room.run(*audit).stdout)[:1], ['holds\t3'])


def together():
    """A ledger's files go to another name together, and are reached by links; of two ledgers of one node neither opens with the file of the other."""
    with Room() as room:
        make(room, 'GATE')
        wait_at_gate(room, '1.2.3.4', 300_000)
        before, whole = book(room, 'GATE'), stored(room, 'GATE')
        os.mkdir(f'{room.folder}/elsewhere')
        for end in ENDS[:3]:
            if os.path.exists(f'{room.folder}/GATE{end}'):
                shutil.move(f'{room.folder}/GATE{end}', f'{room.folder}/elsewhere/moved{end}')
        same(book(room, 'GATE', ledger='elsewhere/moved.db'), before)
        same(stored(room, 'elsewhere/moved'), whole)
        # a database that is reached by a link has the data sets of the one to which that leads
        os.symlink('elsewhere/moved.db', f'{room.folder}/named.db')
        same(book(room, 'GATE', ledger='named.db'), before)
        same([name for name in os.listdir(room.folder) if name.startswith('named')], ['named.db'])
        # the file of the data sets may be reached by a link, as one on another disk
        os.mkdir(f'{room.folder}/disk')
        shutil.move(f'{room.folder}/elsewhere/moved.db.data', f'{room.folder}/disk/data')
        told(room.at('list', 'GATE', ledger='named.db'), 1, '', f'dr_router: {WRONG}\n')
        os.symlink('../disk/data', f'{room.folder}/elsewhere/moved.db.data')
        same(book(room, 'GATE', ledger='named.db'), before)
        told(room.at('requeue', 'GATE', '1.2.3.4', 'ARCH', ledger='named.db'), 1, '', 'dr_router: G5 NotHeld\n')
        # two ledgers of the node, each with the file of the other
        told(room.at('new', 'GATE', '--data-file', ledger='second.db'), 0, 'made\n', '')
        told(room.at('new', 'GATE', '--data-file', ledger='third.db'), 0, 'made\n', '')
        swap(room, 'second.db.data', 'third.db.data')
        for name in 'second.db', 'third.db':
            told(room.at('list', 'GATE', ledger=name), 1, '', f'dr_router: {WRONG}\n')
        swap(room, 'second.db.data', 'third.db.data')
        for name in 'second.db', 'third.db':
            same(book(room, 'GATE', ledger=name), ['node\tGATE', 'lines\t0'])


def swap(room, first, second):
    os.rename(f'{room.folder}/{first}', f'{room.folder}/swapped')
    os.rename(f'{room.folder}/{second}', f'{room.folder}/{first}')
    os.rename(f'{room.folder}/swapped', f'{room.folder}/{second}')


def wait_at_gate(room, uid, size, seed=0, ledger=None):
    """An instance comes to GATE, where it waits for ARCH, which isn't there."""
    gate = room.serve('GATE', 1, ledger=ledger)
    with Requestor(room.ports['GATE'], 'CT1', 'GATE') as link:
        same(link.store(uid.encode(), data_set(uid.encode(), pixels(size, seed))), 0)
        same(link.release(), RELEASED)
    ended(gate)


def cut():
    """As the first data set comes after a start, the file is cut behind the last one that is there. What only lists leaves its length, also by the tables of
    another day."""
    with Room() as room:
        make(room, 'GATE')
        keep_tables(room, 'first')
        wait_at_gate(room, '1.2.7.0', 10_000)
        keep_tables(room, 'second')
        for number in range(1, 4):
            wait_at_gate(room, f'1.2.7.{number}', 200_000, number)
        (_, small), *others = places(room, 'GATE')
        whole, size, left = stored(room, 'GATE'), length(room, 'GATE'), HEAD + 4096 * -(-small // 4096)
        same((len(others), size), (3, sum(others[-1])))
        # the tables of two other days list what they have, and so the file is as long as before
        for day, had in ('first', 0), ('second', 2):
            os.symlink('GATE.db.data', f'{room.folder}/{day}.db.data')
            assert f'lines\t{had}' in book(room, 'GATE', ledger=f'{day}.db'), day
            same(length(room, 'GATE'), size)
        same(stored(room, 'GATE'), whole)
        # nothing is left but the first: the file is cut as the next one comes
        arch = room.serve('ARCH', 1)
        with Requestor(room.ports['ARCH'], 'GATE', 'ARCH') as link:
            same(link.store(b'1.2.7.0', data_set(b'1.2.7.0', pixels(9_000))), 0)
            same(link.release(), RELEASED)
        ended(arch)
        arch, gate = room.serve('ARCH', 0), Asked(room, 'GATE', 0)
        gate.wait('/rows?dest=ARCH', lambda rows: [row['state'] for row in rows] == ['held'] + 3 * ['done'])
        stop(gate.process)
        stop(arch)
        same((list(stored(room, 'GATE')), length(room, 'GATE')), (['1.2.7.0'], size))
        wait_at_gate(room, '1.2.7.4', 20_000, 4)
        same(places(room, 'GATE')[1][0], left)
        same(length(room, 'GATE'), sum(places(room, 'GATE')[1]))


def keep_tables(room, name):
    """A copy of the tables of GATE as they are, under another name."""
    for end in ENDS[:2]:
        if os.path.exists(f'{room.folder}/GATE{end}'):
            shutil.copyfile(f'{room.folder}/GATE{end}', f'{room.folder}/{name}{end}')


# ---- what is refused

def refused():
    """Each word is refused where the file of data sets is missing, was cut short, is another ledger's or is locked, and nothing is changed."""
    with Room() as room, open(f'{TOP}/plans/three-nodes-next.toml', encoding='ascii') as text:
        room.put_plan(text.read(), NEXT)
        make(room, *NODES)
        room.put('image.dcm', part10(b'1.2.3.4', pixels(300_000)))
        gate = room.serve('GATE', 1)
        same(room.at('send', 'CT1', 'image.dcm').returncode, 0)
        ended(gate)
        before, own = book(room, 'GATE'), f'{room.folder}/GATE.db.data'
        shutil.copyfile(own, f'{room.folder}/own')
        size = os.path.getsize(own)
        told(room.at('new', 'GATE', '--data-file', ledger='second.db'), 0, 'made\n', '')
        for bring in missing, *(lambda path, size=short: os.truncate(path, size) for short in (0, 1, HEAD - 1, HEAD, size - 1)), another, another_with_data:
            bring(own)
            beside = files(room, '.data')
            told(room.at('list', 'GATE'), 1, '', f'dr_router: {WRONG}\n')
            stood = files(room, '.db')
            refused_by_all(room, 1, WRONG)
            same((files(room, '.data'), files(room, '.db')), (beside, stood))
            shutil.copyfile(f'{room.folder}/own', own)
            same(book(room, 'GATE'), before)
        with open(own, 'rb+') as file:
            lock(file)
            stood = files(room, '.db', '.data')
            refused_by_all(room, 3, 'G3 Store: in use')
            same(files(room, '.db', '.data'), stood)
        same(book(room, 'GATE'), before)
        same(stored(room, 'GATE'), {'1.2.3.4': data_set(b'1.2.3.4', pixels(300_000))})
        gate = room.serve('GATE', 0)
        told(room.at('list', 'GATE'), 3, '', 'dr_router: G3 Store: in use\n')
        stop(gate)


def missing(path):
    os.remove(path)


def another(path):
    """The file of another ledger of the same node, which has nothing."""
    shutil.copyfile(path.replace('GATE.db', 'second.db'), path)


def another_with_data(path):
    """The same with the bytes of this one's data sets behind its head."""
    with open(path.replace('GATE.db', 'second.db'), 'rb') as head, open(path, 'rb+') as file:
        file.write(head.read(HEAD))


def refused_by_all(room, status, fault):
    """Each word that opens GATE's ledger."""
    for words in (
        ('list',), ('list', '--summary'), ('list', '--long'), ('requeue', '1.2.3.4', 'ARCH'), ('requeue', '--all-held', 'ARCH'), ('drop', '1.2.3.4', 'ARCH'), ('forget', '1.2.3.4'),
        ('send', 'image.dcm'), ('serve', '--links', '1'),
    ):
        told(room.at(words[0], 'GATE', *words[1:]), status, '', f'dr_router: {fault}\n')
    for words in ('adopt', *PLAN, *NEXT, '.'), ('audit', *PLAN, '.'):
        told(room.run(*words), status, '', f'dr_router: {fault}\n  node GATE\n')
    same(room.run('adopt', '--dry-run', *PLAN, *NEXT, '.').returncode, status)


def flip(path, at):
    """Another byte at that place; the same again brings back the first."""
    with open(path, 'rb+') as file:
        file.seek(at)
        byte, = file.read(1)
        file.seek(at)
        file.write(bytes([byte ^ 0x40]))


def changed():
    """Where a byte of the head is another one, the file isn't the ledger's, and nothing is changed. Where one of a data set is, an opening sees nothing of
    it, and nothing is changed either; `audit` alone reads it, and is refused. When the byte is as it was, all is as before. A byte between data sets says
    nothing."""
    with Room() as room:
        make(room, 'GATE')
        for number, size in enumerate((1_001, 600_001)):
            wait_at_gate(room, f'1.2.3.{number}', size, number)
        before, path, found = book(room, 'GATE'), f'{room.folder}/GATE.db.data', places(room, 'GATE')
        for at in 0, 15, 16, 31, 32, HEAD - 1:
            flip(path, at)
            told(room.at('list', 'GATE'), 1, '', f'dr_router: {WRONG}\n')
            stood = files(room, '.db', '.data')
            told(room.at('serve', 'GATE', '--links', '1'), 1, '', f'dr_router: {WRONG}\n')
            same(files(room, '.db', '.data'), stood)
            flip(path, at)
        for at in (at + off for at, size in found for off in (0, 1, size // 2, size - 1)):
            flip(path, at)
            stood = digest(path)
            same(book(room, 'GATE'), before)
            audited = room.run('audit', *PLAN, '.', '--other', 'CT1', '--other', 'ARCH')
            told(audited, 1, '', f'dr_router: {WRONG}\n  node GATE\n')
            same(digest(path), stood)
            flip(path, at)
            audited = room.run('audit', *PLAN, '.', '--other', 'CT1', '--other', 'ARCH')
            same((audited.returncode, lines(audited.stdout)[:1], audited.stderr), (0, ['holds\t1'], b''))
        at = found[0][0] + found[0][1]
        assert at % 4096, at
        flip(path, at)
        same(book(room, 'GATE'), before)
        same(stored(room, 'GATE'), {f'1.2.3.{number}': data_set(f'1.2.3.{number}'.encode(), pixels(size, number)) for number, size in enumerate((1_001, 600_001))})


def changed_at_rest():
    """A start reads no data set. Where a byte of one was changed while the node was stopped, the node starts: what waits there is held by name, and what
    waits beside it goes over. When the byte is as it was and a person asks for the row again, it goes over."""
    sets = {f'1.2.3.{number}': data_set(f'1.2.3.{number}'.encode(), pixels(size, number)) for number, size in ((4, 300_000), (5, 20_000))}
    with Room() as room:
        make(room, 'GATE', 'ARCH')
        for number, size in (4, 300_000), (5, 20_000):
            wait_at_gate(room, f'1.2.3.{number}', size, number)
        path, (at, size) = f'{room.folder}/GATE.db.data', struct.unpack_from('<QQ', cells(room, 'GATE')['1.2.3.4'])
        flip(path, at + size // 2)
        arch, gate = room.serve('ARCH', 0), Asked(room, 'GATE', 0)
        gate.wait('/rows?dest=ARCH', lambda rows: [(row['state'], row.get('cause')) for row in rows] == [('held', 'unreadable'), ('done', None)])
        stop(gate.process)
        same(set(stored(room, 'GATE')), {'1.2.3.4'})
        # a stopped node queues it again; as long as the byte is another one, it is held again
        for event in 'spoilt', 'mended':
            told(room.at('requeue', 'GATE', '1.2.3.4', 'ARCH'), 0, 'requeued\n', '')
            if event == 'mended':
                flip(path, at + size // 2)
            gate = Asked(room, 'GATE', 0)
            gate.wait('/rows?dest=ARCH', (lambda rows: [row['state'] for row in rows] == ['held', 'done']) if event == 'spoilt' else all_done(2))
            stop(gate.process)
        stop(arch)
        same(stored(room, 'ARCH'), sets)


def changed_while_it_runs():
    """A node sends no bytes but those that it took: where one was changed below it, the row is held by name, the next node gets nothing of it, and the hop
    goes on with what comes. When the byte is as it was and a person asks for the row again, it goes over."""
    with Room() as room:
        make(room, 'GATE', 'ARCH')
        wait_at_gate(room, '1.2.3.4', 300_000)
        path, ((at, size),) = f'{room.folder}/GATE.db.data', places(room, 'GATE')
        gate = Asked(room, 'GATE', 0)
        flip(path, at + size // 2)
        arch = room.serve('ARCH', 0)
        same(gate.act('/visit', dest='ARCH'), DONE)
        room.wait_for_event('GATE', 'unreadable dest="ARCH" uid=1.2.3.4')
        with Requestor(room.ports['GATE'], 'CT1', 'GATE') as link:
            same(link.store(b'1.2.3.5', data_set(b'1.2.3.5', pixels(20_000))), 0)
            same(link.release(), RELEASED)
        gate.wait('/rows?dest=ARCH', lambda rows: [(row['state'], row.get('cause')) for row in rows] == [('held', 'unreadable'), ('done', None)])
        # asked for while the byte is another one, it is held again
        same(gate.act('/requeue', uid='1.2.3.4', dest='ARCH'), DONE)
        end = time.monotonic() + LIMIT
        while room.text('GATE.log').count('unreadable dest="ARCH" uid=1.2.3.4') < 2:
            assert time.monotonic() < end
            time.sleep(0.05)
        flip(path, at + size // 2)
        same(gate.act('/requeue', uid='1.2.3.4', dest='ARCH'), DONE)
        gate.wait('/rows?dest=ARCH', all_done(2))
        stop(gate.process)
        stop(arch)
        same(stored(room, 'ARCH'), {'1.2.3.4': data_set(b'1.2.3.4', pixels(300_000)), '1.2.3.5': data_set(b'1.2.3.5', pixels(20_000))})


def brought_again():
    """Without a copy a spoilt data set is brought again, also after a start with it: as long as the node knows the instance it takes none in its place, not
    even the same. Once its row is dropped by name and it is forgotten, it is new, and goes over."""
    with Room() as room:
        make(room, 'GATE', 'ARCH')
        wait_at_gate(room, '1.2.3.4', 300_000)
        path, ((at, size),) = f'{room.folder}/GATE.db.data', places(room, 'GATE')
        flip(path, at + size // 2)
        arch = room.serve('ARCH', 0)
        gate = Asked(room, 'GATE', 0)
        gate.wait('/rows?dest=ARCH', lambda rows: [row.get('cause') for row in rows] == ['unreadable'])

        def bring():
            with Requestor(room.ports['GATE'], 'CT1', 'GATE') as link:
                same(link.store(b'1.2.3.4', data_set(b'1.2.3.4', pixels(300_000))), 0)
                same(link.release(), RELEASED)

        bring()
        same([(row['state'], row.get('cause')) for row in gate.read('/rows?dest=ARCH')], [('held', 'unreadable')])
        same(gate.act('/forget', uid='1.2.3.4'), (409, '{"fault":"G7 NotOver"}\n'))
        same(gate.act('/drop', uid='1.2.3.4', dest='ARCH'), DONE)
        same(gate.act('/forget', uid='1.2.3.4'), DONE)
        bring()
        gate.wait('/rows?dest=ARCH', all_done(1))
        stop(gate.process)
        stop(arch)
        same(stored(room, 'ARCH'), {'1.2.3.4': data_set(b'1.2.3.4', pixels(300_000))})


def by_hand():
    """Whether a ledger has a file is in its tables. Without a mark a file beside it is left alone, as beside each ledger from before; with one the ledger
    isn't opened without that file."""
    with Room() as room:
        wait_at_gate(room, '1.2.3.4', 300_000)
        room.put('GATE.db.data', bytes(HEAD + 1))
        plan, beside = owner(room, 'GATE'), files(room, '.data', '.data-wal')
        same(len(plan), DIGEST)
        wait_at_gate(room, '1.2.3.5', 20_000)
        same(stored(room, 'GATE'), {'1.2.3.4': data_set(b'1.2.3.4', pixels(300_000)), '1.2.3.5': data_set(b'1.2.3.5', pixels(20_000))})
        before = book(room, 'GATE')
        same(files(room, '.data', '.data-wal'), beside)
        of_no_ledger = plan[1:], plan + b'x', plan + bytes(KEY + MARK - 1), plan + bytes(KEY + MARK + 1), b''
        for cell, fault in ((plan + bytes(KEY + MARK), WRONG), *((cell, 'G6 OtherSite') for cell in of_no_ledger)):
            tables(room, 'GATE', 'UPDATE site SET plan = ?', cell)
            told(room.at('list', 'GATE'), 1, '', f'dr_router: {fault}\n')
        tables(room, 'GATE', 'UPDATE site SET plan = ?', plan)
        same(book(room, 'GATE'), before)


def rows_by_hand():
    """Without its mark a ledger with a file isn't opened, nor where a row was changed, its cells among them. By another key, and with other digests in a cell,
    it is, and nothing can be read: the row is held by name, and goes over once both are as they were."""
    with Room() as room:
        make(room, 'GATE')
        arch = room.serve('ARCH', 1)
        wait_at_gate(room, '1.2.3.4', 50_000)
        ended(arch)
        wait_at_gate(room, '1.2.3.5', 60_000)
        same(list(stored(room, 'GATE')), ['1.2.3.5'])
        before, cell = book(room, 'GATE'), owner(room, 'GATE')
        os.mkdir(f'{room.folder}/kept')
        there = [f'GATE{end}' for end in ENDS if os.path.exists(f'{room.folder}/GATE{end}')]
        for name in there:
            shutil.copyfile(f'{room.folder}/{name}', f'{room.folder}/kept/{name}')
        owners = cell[:DIGEST], cell[:DIGEST] + cell[DIGEST + KEY:], cell[:DIGEST + KEY] + bytes(MARK)
        changes = [('UPDATE site SET plan = ?', other) for other in owners] + [(statement,) for statement in CHANGES + CELLS_CHANGED]
        tried = 0
        for change in changes:
            if tables(room, 'GATE', *change)[1] > 0:
                tried += 1
                run = room.at('list', 'GATE')
                assert run.returncode in (1, 3) and run.stdout == b'', (change, run)
            for end in ENDS:
                if os.path.exists(f'{room.folder}/GATE{end}'):
                    os.remove(f'{room.folder}/GATE{end}')
            for name in there:
                shutil.copyfile(f'{room.folder}/kept/{name}', f'{room.folder}/{name}')
        assert tried > len(changes) - 5, (tried, len(changes))
        same(book(room, 'GATE'), before)
        arch, named = room.serve('ARCH', 0), cells(room, 'GATE')['1.2.3.5']
        for statement, own, other in (
            ('UPDATE site SET plan = ?', cell, cell[:DIGEST] + bytes(KEY) + cell[DIGEST + KEY:]),
            ('UPDATE item SET body = ? WHERE length(body) > 0', named, named[:16] + bytes(len(named) - 16)),
        ):
            same(tables(room, 'GATE', statement, other)[1], 1)
            gate = Asked(room, 'GATE', 0)
            gate.wait('/rows?dest=ARCH', lambda rows: [(row['state'], row.get('cause')) for row in rows] == [('done', None), ('held', 'unreadable')])
            stop(gate.process)
            same(tables(room, 'GATE', statement, own)[1], 1)
            told(room.at('requeue', 'GATE', '1.2.3.5', 'ARCH'), 0, 'requeued\n', '')
        gate = Asked(room, 'GATE', 0)
        gate.wait('/rows?dest=ARCH', all_done(2))
        stop(gate.process)
        stop(arch)
        same(stored(room, 'ARCH')['1.2.3.5'], data_set(b'1.2.3.5', pixels(60_000)))


def full():
    """Where the disk of the data sets is full, what comes isn't acknowledged, what was stays, and the node goes on when there is room."""
    with Room() as room:
        disk = f'{room.folder}/disk'
        os.mkdir(disk)
        if os.geteuid() != 0 or subprocess.run(['mount', '-t', 'tmpfs', '-o', 'size=1m', 'none', disk], capture_output=True, check=False).returncode != 0:
            print('datafile: no disk can be mounted here')
            return
        try:
            make(room, 'GATE')
            shutil.move(f'{room.folder}/GATE.db.data', f'{disk}/GATE.db.data')
            os.symlink('disk/GATE.db.data', f'{room.folder}/GATE.db.data')
            room.put('disk/ballast', bytes(400_000))
            gate, taken = room.serve('GATE', 0), {}
            with Requestor(room.ports['GATE'], 'CT1', 'GATE') as link:
                for number in range(100):
                    uid = f'1.2.3.{number}'
                    body = data_set(uid.encode(), pixels(50_000, number))
                    status = link.store(uid.encode(), body)
                    if status != 0:
                        break
                    taken[uid] = body
                same(status, 0xA700)
                assert 5 < len(taken) < 20, len(taken)
                os.remove(f'{disk}/ballast')
                same(link.store(uid.encode(), body), 0)
                taken[uid] = body
                same(link.release(), RELEASED)
            stop(gate)
            same(len(book(room, 'GATE')), 2 + 2 * len(taken))
            same(stored(room, 'GATE'), taken)
        finally:
            for process in room.running:
                stop(process)
            subprocess.run(['umount', disk], check=True)


def not_copied():
    """A node that runs isn't copied, by name and before anything is made, by itself or by the script; stopped, its three files are a copy."""
    with Room() as room:
        make(room, 'GATE')
        node = Asked(room, 'GATE', 0)
        os.mkdir(f'{room.folder}/copies')
        copy = f'{room.folder}/copies/GATE.db'
        sender = Sender(room.ports['GATE'])
        sender.start()
        end = time.monotonic() + LIMIT
        while len(sender.known) < 20:
            assert sender.fault is None and time.monotonic() < end, sender.fault
            time.sleep(0.01)
        same(node.act('/backup', copy=copy), (409, '{"fault":"Q8 DataFile"}\n'))
        told(room.run('backup', *PLAN, 'GATE', '--at', node.at, '--token', 'token', copy), 1, '', 'dr_router: Q8 DataFile\n')
        script = subprocess.run([BACKUP, str(node.process.pid), 'GATE.db', 'copies/GATE.db'], cwd=room.folder, capture_output=True, text=True, timeout=LIMIT, check=False)
        same((script.returncode, 'GATE.db.data' in script.stderr), (1, True))
        same(os.listdir(f'{room.folder}/copies'), [])
        assert f'backup copy="{copy}" fault="Q8 DataFile"' in [event[3] for event in room.events('GATE')]
        sender.is_over = True
        sender.join(LIMIT)
        assert sender.fault is None, sender.fault
        same(node.act('/stop'), DONE)
        ended(node.process)
        for end in '', '-wal', '.data':
            if os.path.exists(f'{room.folder}/GATE.db{end}'):
                shutil.copyfile(f'{room.folder}/GATE.db{end}', f'{copy}{end}')
        had = stored(room, 'GATE')
        same(set(had), set(sender.known))
        same(book(room, 'GATE', ledger='copies/GATE.db'), book(room, 'GATE'))
        arch = room.serve('ARCH', 1)
        gate = room.serve('GATE', 0, ledger='copies/GATE.db')
        assert arch.wait(LIMIT) == 0
        stop(gate)
        got = stored(room, 'ARCH')
        assert got and all(had[uid] == body for uid, body in got.items()), len(got)
        # one with its data sets in its tables isn't copied either where a file of that name lies beside it
        room.put('rows.db.data', b'')
        node = Asked(room, 'GATE', 0, ledger='rows.db')
        same(node.act('/backup', copy=f'{room.folder}/rows-copy.db'), (409, '{"fault":"Q8 DataFile"}\n'))
        os.remove(f'{room.folder}/rows.db.data')
        same(node.act('/backup', copy=f'{room.folder}/rows-copy.db'), DONE)
        stop(node.process)


def names():
    """Neither a report nor a copy takes a name of the data sets, or one beside them."""
    with Room() as room:
        make(room, 'GATE')
        before = files(room, '.data', '-wal')
        for name in 'GATE.db.data', 'GATE.db.data-wal', 'GATE.db.data-shm', 'GATE.db.data-journal', 'GATE.db.data.new', './GATE.db.data-wal':
            told(room.at('serve', 'GATE', '--links', '1', '--report', name), 3, '', f'dr_router: {name}: Q1 OwnFile\n')
        os.symlink('GATE.db.data', f'{room.folder}/link')
        told(room.at('serve', 'GATE', '--links', '1', '--report', 'link'), 3, '', 'dr_router: link: Q1 OwnFile\n')
        same(files(room, '.data', '-wal'), before)


if __name__ == '__main__':
    run_cases('datafile', made, both_kinds, let_go, taken_again, killed, brought_over, another_form, together, cut, refused, changed, changed_at_rest, changed_while_it_runs, brought_again, by_hand, rows_by_hand,
              full, not_copied, names)
