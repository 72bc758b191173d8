#!/usr/bin/env python3
"""What an audit of long journals takes, of files and of nodes that run, beside what it takes to open the ledgers.

    bench/audits.py             # 1,000,000 lines, and a fourth and a half of them; a quarter of an hour
    bench/audits.py 20000       # as many lines

One image goes from GATE to ARCH on the built program, over loopback. Then its rows are copied in both ledgers, each time
under another UID, in the data set too, until they have so many lines together: two of three are GATE's. For each number of lines it prints,
each with its time and its greatest memory: how the ledgers are opened one after the other (`list --summary`, which reads
nothing else), `audit` of the files, `audit --at` of the two nodes, and how long these took to listen.
"""
import hashlib
import os
import re
import sqlite3
import subprocess
import sys
import time

sys.dont_write_bytecode = True
sys.path.insert(0, f'{os.path.dirname(os.path.dirname(os.path.abspath(__file__)))}/tests')
from control import Asked
from lib import nodes
from lib.nodes import PLAN, PROGRAM, Room, data_set, element, stop
from lib.requestor import Requestor

COUNT = 1_000_000
# As long as one thing may take.
nodes.LIMIT = 3_600
# Each instance has a UID of the same length, so that its data set has, too.
UID = '1.2.826.0.1.3680043.9.9999.{}'
FIRST = UID.format(10_000_000)
BODY = data_set(FIRST.encode(), element(0x10, 0x4000, b'LT', b'x' * 900))
NODES = 'GATE', 'ARCH'
# The tables whose rows are of one instance: which column has its UID, and which the number of a line.
TABLES = {
    'print': ('uid', None),
    'item': ('uid', 'rowid'),
    'arrival': ('uid', None),
    'kept': ('uid', None),
    'queue': ('uid', None),
    'journal': ('uid', 'n'),
    'target': (None, 'n'),
}


def bring_one(room):
    """One image is stored at GATE, and sent on to ARCH; both have ended then."""
    arch, gate = room.serve('ARCH', 0, '--log', 'debug'), room.serve('GATE', 0, '--log', 'debug')
    with Requestor(room.ports['GATE'], 'CT1', 'GATE') as caller:
        assert caller.store(FIRST.encode(), BODY) == 0
        caller.release()
    room.wait_for_event('GATE', f'done dest="ARCH" uid={FIRST} ')
    stop(gate)
    stop(arch)


def uid_at(place):
    return UID.format(10_000_000 + place)


def body_at(place):
    """The data set of that instance: the first one's, but for the UID."""
    return BODY.replace(FIRST.encode(), uid_at(place).encode())


def copy_rows(room, node, first, last):
    """The rows of the one image stand once more under each number from the first up to the last; how many lines there are of each."""
    with sqlite3.connect(f'{room.folder}/{node}.db') as ledger:
        ledger.create_function('uid_at', 1, uid_at)
        ledger.create_function('body_at', 2, lambda body, place: body_at(place) if body else body)
        ledger.create_function('digest_at', 2, lambda digest, place: digest and hashlib.sha256(body_at(place)).digest())
        lines, = ledger.execute('SELECT max(n) FROM journal WHERE uid = ?', [FIRST]).fetchone()
        ledger.execute('CREATE TEMP TABLE more AS WITH RECURSIVE k(i) AS (SELECT ? UNION ALL SELECT i + 1 FROM k WHERE i + 1 < ?) SELECT i FROM k',
                       [first, last])
        for table, (uid, number) in TABLES.items():
            names = [row[1] for row in ledger.execute(f'PRAGMA table_info({table})')]
            shown = {name: name for name in names}
            if uid:
                shown[uid] = 'uid_at(i)'
            for name, function in ('body', 'body_at'), ('sha256', 'digest_at'):
                if name in shown:
                    shown[name] = f'{function}({name}, i)'
            if number:
                shown[number] = f'{number} + {lines} * i'
            its = f"{uid} = '{FIRST}'" if uid else f'n <= {lines}'
            shown = {name: what.replace('rowid', f'{table}.rowid') for name, what in shown.items()}
            ledger.execute(f'INSERT INTO {table} ({", ".join(shown)}) SELECT {", ".join(shown.values())} FROM more, {table} WHERE {its} ORDER BY i')
        ledger.execute('DROP TABLE more')
    ledger.close()
    return lines


def spent(room, *words):
    """How long a word of the program takes, and its greatest memory in bytes; it has to succeed."""
    begun = time.monotonic()
    process = subprocess.Popen([PROGRAM, *words], cwd=room.folder, stdout=subprocess.PIPE)
    told = process.stdout.read().decode()
    _, status, used = os.wait4(process.pid, 0)
    assert os.waitstatus_to_exitcode(status) == 0, (words, told)
    return time.monotonic() - begun, used.ru_maxrss * 1024, told


def row(lines, what, seconds, most):
    print(f'{lines:>12,} lines  {what:<34} {seconds:9.2f} s {most / 1e6:9.0f} MB', flush=True)


def memory_of(process):
    with open(f'/proc/{process.pid}/status', encoding='ascii') as file:
        return 1024 * int(re.search(r'VmHWM:\s+(\d+) kB', file.read())[1])


def measure(room, lines):
    """All of it, of ledgers that have so many lines together."""
    opened = [spent(room, 'list', *PLAN, node, f'{node}.db', '--summary') for node in NODES]
    row(lines, 'both ledgers opened', sum(it[0] for it in opened), max(it[1] for it in opened))
    seconds, most, told = spent(room, 'audit', *PLAN, '.', '--other', 'CT1')
    assert told.startswith('holds\t2\n'), told
    row(lines, 'audit of the files', seconds, most)
    begun = time.monotonic()
    running = [Asked(room, node, 0, '--forget-never', token=False) for node in NODES]
    row(lines, 'until both nodes listen', time.monotonic() - begun, max(memory_of(node.process) for node in running))
    where = [word for name, node in zip(NODES, running) for word in ('--at', f'{name}={node.at}')]
    seconds, most, at = spent(room, 'audit', *PLAN, *where, '--other', 'CT1')
    assert at == told, at
    row(lines, 'audit of the nodes that run', seconds, most)
    row(lines, 'the nodes themselves, meanwhile', 0, max(memory_of(node.process) for node in running))
    for node in running:
        stop(node.process)


def main():
    count = int(sys.argv[1]) if len(sys.argv) > 1 else COUNT
    if not os.path.exists(PROGRAM):
        sys.exit(f'{PROGRAM} is not built')
    with Room() as room:
        bring_one(room)
        there = 1
        for part in count // 4, count // 2, count:
            wanted = max(part // 3, there + 1)
            each = [copy_rows(room, node, there, wanted) for node in NODES]
            there = wanted
            measure(room, there * sum(each))


if __name__ == '__main__':
    main()
