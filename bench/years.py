#!/usr/bin/env python3
"""What a node has that sends on what it gets, with and without forgetting: its file, its start and its memory.

    bench/years.py [COUNT]     COUNT instances of some 1 kB (5000) enter at GATE, which sends them on to ARCH

Each is stored by one caller over one association, on the built program, over loopback. Then the node is stopped and
started again. It prints, for a node that forgets nothing and for one that forgets at once: instances a second until all
were sent on, the file's bytes for each instance, how long the next start takes until the node listens, and its memory
then.
"""
import os
import re
import sys
import time

sys.dont_write_bytecode = True
sys.path.insert(0, f'{os.path.dirname(os.path.dirname(os.path.abspath(__file__)))}/tests')
from lib.nodes import PROGRAM, Room, data_set, element, lines, stop
from lib.requestor import Requestor

# As long as the node may take for all of them.
LIMIT = 600


def size_of(room, node):
    """The bytes of a ledger's file and its log."""
    return sum(os.path.getsize(f'{room.folder}/{name}') for name in os.listdir(room.folder) if name.startswith(f'{node}.db'))


def wait_for_rest(room, count, forgets):
    """Waits until all were sent on, and, where the node forgets, forgotten."""
    end = time.monotonic() + LIMIT
    while time.monotonic() < end:
        text = room.text('report') if os.path.exists(f'{room.folder}/report') else ''
        rows = [line for line in text.splitlines() if line.startswith('row')]
        if f'lines\t{(3 if forgets else 2) * count}' in text and (not rows if forgets else len(rows) == count):
            return
        time.sleep(0.2)
    raise AssertionError('not all were sent on in time')


def measure(count, *options):
    """Stores so many at a node with these options."""
    forgets = '--forget-never' not in options
    with Room() as room:
        arch = room.serve('ARCH', 0, '--log', 'error')
        gate = room.serve('GATE', 0, '--log', 'error', '--report', 'report', *options)
        begun = time.monotonic()
        with Requestor(room.ports['GATE'], 'CT1', 'GATE') as caller:
            for number in range(count):
                uid = b'1.2.826.0.1.3680043.9.9999.%d' % number
                assert caller.store(uid, data_set(uid, element(0x10, 0x4000, b'LT', b'x' * 900))) == 0
            caller.release()
        taken = time.monotonic() - begun
        wait_for_rest(room, count, forgets)
        stop(gate)
        begun = time.monotonic()
        gate = room.serve('GATE', 0, '--log', 'error', *options)
        start = time.monotonic() - begun
        with open(f'/proc/{gate.pid}/status', encoding='ascii') as file:
            peak = int(re.search(r'VmHWM:\s+(\d+) kB', file.read())[1])
        stop(gate)
        stop(arch)
        listed = lines(room.at('list', 'GATE').stdout)
        print(f'{" ".join(options):18} {count / taken:6.0f} a second, {size_of(room, "GATE") / count:6.0f} bytes each, '
              f'start {start:5.2f} s, {peak / 1000:4.0f} MB, {len(listed) - 2} entries', flush=True)


def main():
    count = int(sys.argv[1]) if len(sys.argv) > 1 else 5_000
    if not os.path.exists(PROGRAM):
        sys.exit(f'{PROGRAM} is not built')
    measure(count, '--forget-never')
    measure(count, '--forget-after', '0')


if __name__ == '__main__':
    main()
