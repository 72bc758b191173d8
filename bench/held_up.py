#!/usr/bin/env python3
"""Measures for how long a running node's ledger is held by what is asked of it, by the node's own meter, and how long a
peer that stores has to wait meanwhile: on the built program, on loopback and this machine's disk.

    bench/held_up.py             # 100,000 rows that wait, and eight images of 32 MB; some minutes, on a machine that
                                 does nothing else
    bench/held_up.py 5000 2      # as many rows and images

A node's ledger has one lock. Its meter says how long the longest call of the ledger was within that lock since the node
began to serve; so the node is started anew for each thing that is measured. First each is measured alone, so that the
longest call is its own; then somebody stores small images all the while. The rows wait for a node that is down; the
images go to another one.
"""
import os
import re
import statistics
import sys
import threading
import time

sys.dont_write_bytecode = True
HERE = os.path.dirname(os.path.abspath(__file__))
sys.path.insert(0, f'{os.path.dirname(HERE)}/tests')
from control import Asked
from lib.nodes import CT, EXPLICIT, PROGRAM, Room, data_set, element, stop
from lib.requestor import RELEASED, Acceptor, Requestor, stored

ROWS, IMAGES = 100_000, 8
TIMES = 20
PATHS = ('/health', '/status', '/metrics', '/rows?dest=ARCH&state=held', '/rows?dest=ARCH&state=waiting', '/rows?dest=ARCH', '/rows?dest=ARCH&after=1.2.9')

# What CT1 brings to GATE goes to ARCH, which is down, and what CT2 brings to NEXT.
NODE = """
[[node]]
name = "{}"
address = "h:1"
"""
ACCEPT = """
[[node.accept]]
from = "*"
class = "{of}"
syntax = ["{syntax}"]
"""
RULE = """
[[node.rule]]
{}
"""
FLOW = """
[[flow]]
at = "{}"
to = "GATE"
class = ["{of}"]
syntax = ["{syntax}"]
modality = ["CT"]
station = ["S1"]
"""


def two_ways():
    takes, keeps = NODE + ACCEPT, RULE.format('keep = true')
    ways = RULE.format('from = "CT1"\nto = ["ARCH"]') + RULE.format('from = "CT2"\nto = ["NEXT"]')
    nodes = NODE.format('CT1') + NODE.format('CT2') + takes.replace('{}', 'GATE') + ways
    ends = ''.join(takes.replace('{}', name) + keeps for name in ('ARCH', 'NEXT'))
    flows = FLOW.replace('{}', 'CT1') + FLOW.replace('{}', 'CT2')
    return (nodes + ends + flows).replace('{of}', CT.decode()).replace('{syntax}', EXPLICIT.decode())


def row(what, *figures):
    print(f'{what:<58}' + ''.join(f'{figure:>16}' for figure in figures), flush=True)


def bring(room, caller, uids, size):
    """These images are stored at GATE, one after another over one association; how long each took."""
    pixels, spent = element(0x7fe0, 0x10, b'OW', bytes(size)), []
    with Requestor(room.ports['GATE'], caller, 'GATE') as link:
        for uid in uids:
            body = data_set(uid, pixels)
            begun = time.monotonic()
            assert link.store(uid, body) == 0
            spent.append(time.monotonic() - begun)
        assert link.release() == RELEASED
    return spent


def fill(room, count):
    """So many images of 1 kB wait at GATE, brought over eight associations at a time."""
    shares = [[b'1.2.1.%d' % number for number in range(share, count, 8)] for share in range(8)]
    threads = [threading.Thread(target=bring, args=(room, 'CT1', uids, 1 << 10)) for uids in shares]
    for thread in threads:
        thread.start()
    for thread in threads:
        thread.join()


class Storing(threading.Thread):
    """Stores small images one after another, and notes how long each took."""

    def __init__(self, room, name):
        super().__init__(daemon=True)
        self.room, self.name_there, self.spent, self.is_over = room, name, [], threading.Event()
        self.start()

    def run(self):
        with Requestor(self.room.ports['GATE'], 'CT1', 'GATE') as caller:
            number = 0
            while not self.is_over.is_set():
                uid = b'1.3.%d.%d' % (self.name_there, number)
                body = data_set(uid)
                begun = time.monotonic()
                assert caller.store(uid, body) == 0
                self.spent.append(time.monotonic() - begun)
                number += 1
            caller.release()

    def end(self):
        self.is_over.set()
        self.join()
        return self.spent


def milliseconds(seconds):
    return f'{1000 * seconds:.1f} ms'


def longest_lock(node):
    """How long the ledger was locked at the most since the node serves, in seconds."""
    status, text = node.ask('GET', '/metrics')
    assert status == 200, status
    return float(re.search(r'^dr_router_lock_longest_seconds ([0-9.e-]+)$', text, re.MULTILINE)[1])


class Measuring:
    """Measures one thing after another, each on a node that was started for it, beside somebody who stores."""

    def __init__(self, room):
        self.room, self.count = room, 0

    def measure(self, what, doing, *words, is_alone=False):
        """How long the doing took, each time, how long the stores beside it, and how long the ledger was locked at the most."""
        self.count += 1
        node = Asked(self.room, 'GATE', 0, *words, token=False)
        storing = None if is_alone else Storing(self.room, self.count)
        answers = doing(node)
        spent = storing.end() if storing else []
        figures = [milliseconds(it) for all_of in (answers, spent) for it in ((statistics.median(all_of), max(all_of)) if all_of else ())]
        row(f'  {what}', *(figures if answers else ['-', '-', *figures]), *([] if spent else ['-', '-']), milliseconds(longest_lock(node)))
        stop(node.process)


def asking(node, path):
    """A path is asked again and again; nothing is asked where there is none."""
    answers = []
    for _ in range(TIMES):
        begun = time.monotonic()
        if path:
            status, _ = node.ask('GET', path)
            assert status == 200, (path, status)
            answers.append(time.monotonic() - begun)
        time.sleep(0.2)
    return answers


def taking(room, images):
    """NEXT takes the images that wait for it."""
    with Acceptor(room.ports['NEXT'], lambda uid, number, to: stored(uid, number, to, 0)) as taker:
        end = time.monotonic() + 600
        while len(taker.stored) < images and time.monotonic() < end:
            time.sleep(0.05)
        assert len(taker.stored) == images, taker.stored
        time.sleep(1)
    return []


def waiting():
    """Long enough for three reports, one each ten seconds while the journal grows."""
    time.sleep(32)
    return []


def main():
    if not os.path.exists(PROGRAM):
        sys.exit(f'{PROGRAM} is not built')
    rows, images = (int(sys.argv[1]), int(sys.argv[2])) if len(sys.argv) > 2 else (ROWS, IMAGES)
    with Room(two_ways()) as room:
        node, measuring = Asked(room, 'GATE', 0, token=False), Measuring(room)
        fill(room, rows)
        stop(node.process)
        row(f'{rows} rows of 1 kB wait', 'call: median', 'longest', 'store: median', 'longest', 'lock: longest')
        for is_alone in (True, False):
            print('alone' if is_alone else 'beside somebody who stores', flush=True)
            for path in PATHS if is_alone else (None, *PATHS):
                measuring.measure(path or 'nothing', lambda node, path=path: asking(node, path), is_alone=is_alone)
            uids = [b'1.2.%d.%d' % (2 + is_alone, number) for number in range(images)]
            measuring.measure(f'{images} images of 32 MB come', lambda node, uids=uids: bring(room, 'CT2', uids, 32 << 20), is_alone=is_alone)
            measuring.measure(f'{images} images of 32 MB are sent on', lambda node: taking(room, images), is_alone=is_alone)
        measuring.measure('a report is written, each ten seconds', lambda node: waiting(), '--report', 'report')


if __name__ == '__main__':
    main()
