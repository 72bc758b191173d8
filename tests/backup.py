#!/usr/bin/env python3
"""Copies the ledger of a node that runs, by itself where it is asked to, and by packaging/dr_router-backup: a copy is a
ledger, it has all that was acknowledged before it was made, a node starts from it, and the node that was copied goes on
and loses nothing.

    tests/backup.py
"""
import os
import re
import subprocess
import sys
import threading
import time

sys.dont_write_bytecode = True
from control import DONE, Asked
from lib.nodes import PLAN, TOP, Room, data_set, element, ended, lines, run_cases, same
from lib.requestor import RELEASED, Requestor

BACKUP = f'{TOP}/packaging/dr_router-backup'
COPIES = 5


def copied(room, process, copy, *more):
    return subprocess.run([BACKUP, str(process.pid), 'GATE.db', copy, *more], cwd=room.folder, capture_output=True, text=True, timeout=60, check=False)


class Sender(threading.Thread):
    """Stores one instance after the other at GATE until it is told to end; the uids that were acknowledged, in order."""

    def __init__(self, port, size=20_000):
        super().__init__(daemon=True)
        self.port, self.size, self.known, self.is_over, self.fault = port, size, [], False, None

    def run(self):
        try:
            with Requestor(self.port, 'CT1', 'GATE') as link:
                while not self.is_over:
                    uid = f'1.2.7.{len(self.known) + 1}'
                    same(link.store(uid.encode(), data_set(uid.encode(), element(0x7FE0, 0x10, b'OW', bytes(self.size)))), 0)
                    self.known.append(uid)
                same(link.release(), RELEASED)
        except Exception as fault:
            self.fault = fault


def waiting(room, ledger):
    """The uids of the rows that a ledger's file has."""
    listed = room.at('list', 'GATE', ledger=ledger)
    same((listed.returncode, listed.stderr), (0, b''))
    return [line.split('\t')[1] for line in lines(listed.stdout) if line.startswith('row\t')]


def copies_while_it_stores():
    """Copies are made while instances come, the next node being down: each has all that was acknowledged before it was begun, and nothing else."""
    with Room() as room:
        gate = room.serve('GATE', 1)
        sender = Sender(room.ports['GATE'])
        sender.start()
        counts = []
        for number in range(COPIES):
            while len(sender.known) < 40 * (number + 1):
                assert sender.fault is None, sender.fault
                time.sleep(0.005)
            before = len(sender.known)
            made = copied(room, gate, f'copy{number}.db')
            same((made.returncode, made.stdout, made.stderr), (0, '', ''))
            counts.append((before, len(sender.known)))
        sender.is_over = True
        sender.join(60)
        assert sender.fault is None, sender.fault
        assert gate.wait(60) == 0
        for number, (before, after) in enumerate(counts):
            had = set(waiting(room, f'copy{number}.db'))
            assert set(sender.known[:before]) <= had <= set(sender.known[:after + 1]), (number, before, after, len(had))
        same(set(waiting(room, 'GATE.db')), set(sender.known))


def asked_while_it_stores(size=20_000, first=40):
    """The node is asked for copies while instances come: each has all that was acknowledged before it was asked for, and nothing else, and holds in
    an audit; and its journal has as many lines as the log says."""
    with Room() as room:
        node = Asked(room, 'GATE', 0)
        sender = Sender(room.ports['GATE'], size)
        sender.start()
        counts = []
        for number in range(COPIES):
            while len(sender.known) < first * (number + 1):
                assert sender.fault is None, sender.fault
                time.sleep(0.005)
            os.mkdir(f'{room.folder}/copy{number}')
            before = len(sender.known)
            same(node.act('/backup', copy=f'{room.folder}/copy{number}/GATE.db'), DONE)
            counts.append((before, len(sender.known)))
        sender.is_over = True
        sender.join(60)
        assert sender.fault is None, sender.fault
        same(node.act('/stop'), DONE)
        ended(node.process)
        said = [re.fullmatch('backup copy="[^"]*" lines=([0-9]+) bytes=([0-9]+) milliseconds=([0-9]+)', event[3]) for event in room.events('GATE') if event[3].startswith('backup ')]
        same(len(said), COPIES)
        for number, (before, after) in enumerate(counts):
            same(sorted(os.listdir(f'{room.folder}/copy{number}')), ['GATE.db', 'GATE.db-wal'])
            audited = room.run('audit', *PLAN, f'copy{number}', '--other', 'CT1', '--other', 'ARCH')
            same((audited.returncode, lines(audited.stdout)[:1], audited.stderr), (0, ['holds\t1'], b''))
            had = waiting(room, f'copy{number}/GATE.db')
            assert set(sender.known[:before]) <= set(had) <= set(sender.known[:after + 1]), (number, before, after, len(had))
            same(int(said[number][1]), int(re.search('^lines\t([0-9]+)$', room.at('list', 'GATE', '--summary', ledger=f'copy{number}/GATE.db').stdout.decode(), re.M)[1]))
        same(set(waiting(room, 'GATE.db')), set(sender.known))
        print(f'backup: {COPIES} copies while instances of {size} bytes come, of up to {max(int(found[2]) for found in said)} bytes, '
              f'in at most {max(int(found[3]) for found in said)} ms', flush=True)


def asked_while_large_ones_come():
    """The same of a ledger that is long to copy, and whose log is written back meanwhile."""
    asked_while_it_stores(1_000_000, 20)


def a_node_from_a_copy():
    """A node that starts from a copy sends on what that has."""
    with Room() as room:
        gate = room.serve('GATE', 0)
        with Requestor(room.ports['GATE'], 'CT1', 'GATE') as link:
            same(link.store(b'1.2.8.1', data_set(b'1.2.8.1')), 0)
            same(copied(room, gate, 'copy.db').returncode, 0)
            same(link.store(b'1.2.8.2', data_set(b'1.2.8.2')), 0)
            same(link.release(), RELEASED)
        gate.kill()
        gate.wait()
        arch = room.serve('ARCH', 1)
        room.serve('GATE', 0, ledger='copy.db')
        assert arch.wait(60) == 0
        listed = room.at('list', 'ARCH')
        same([uid in listed.stdout.decode() for uid in ('1.2.8.1', '1.2.8.2')], [True, False])


def a_node_from_a_copy_of_its_own():
    """The same of a copy that the node has made. What happens to one node or its copy later doesn't change the other."""
    with Room() as room:
        node = Asked(room, 'GATE', 0)
        copy = f'{room.folder}/copy.db'
        with Requestor(room.ports['GATE'], 'CT1', 'GATE') as link:
            same(link.store(b'1.2.8.1', data_set(b'1.2.8.1')), 0)
            same(node.act('/backup', copy=copy), DONE)
            same(link.store(b'1.2.8.2', data_set(b'1.2.8.2')), 0)
            same(link.release(), RELEASED)
        node.process.kill()
        node.process.wait()
        arch = room.serve('ARCH', 1)
        again = Asked(room, 'GATE', 0, ledger='copy.db')
        assert arch.wait(60) == 0
        listed = room.at('list', 'ARCH')
        same([uid in listed.stdout.decode() for uid in ('1.2.8.1', '1.2.8.2')], [True, False])
        same(again.act('/stop'), DONE)
        ended(again.process)
        same(waiting(room, 'GATE.db'), ['1.2.8.1', '1.2.8.2'])


def refusals():
    """What isn't the ledger's node, or is there already, is refused, and a node that was halted in vain goes on."""
    with Room() as room:
        gate = room.serve('GATE', 1)
        room.put('there.db', b'')
        for run, status, said in (
            (copied(room, gate, 'there.db'), 1, 'is there already: there.db'),
            (subprocess.run([BACKUP, str(os.getpid()), 'GATE.db', 'copy.db'], cwd=room.folder, capture_output=True, text=True, check=False), 1, 'does not have GATE.db open'),
            (subprocess.run([BACKUP, '1', 'GATE.db', 'copy.db'], cwd=room.folder, capture_output=True, text=True, check=False), 2, "not a node's process: '1'"),
            (subprocess.run([BACKUP], capture_output=True, text=True, check=False), 2, 'give PID LEDGER COPY'),
            (copied(room, gate, 'nowhere/copy.db'), 1, 'could not be copied'),
        ):
            same((run.returncode, said in run.stderr), (status, True))
        same(os.path.exists(f'{room.folder}/copy.db'), False)
        with Requestor(room.ports['GATE'], 'CT1', 'GATE') as link:
            same(link.store(b'1.2.9.1', data_set(b'1.2.9.1')), 0)
            same(link.release(), RELEASED)
        assert gate.wait(60) == 0


if __name__ == '__main__':
    run_cases('backup', asked_while_it_stores, asked_while_large_ones_come, a_node_from_a_copy_of_its_own, copies_while_it_stores, a_node_from_a_copy, refusals)
