#!/usr/bin/env python3
"""Runs routers of the sample plan on loopback, each a process of the built program with a ledger in a file: an instance
enters at CT1, goes by GATE and is kept at ARCH. Then what a person meets: a file that another program has open, another
node's file, a dead hop, repeats, reports that would replace a file, forged lines of a log, peers that say nothing, kill
-9.

    tests/serving.py
    tests/serving.py --more    cases that measure time and memory, which ./test leaves out
"""
import contextlib
import datetime
import os
import re
import shutil
import signal
import socket
import sqlite3
import statistics
import struct
import subprocess
import sys
import threading
import time

sys.dont_write_bytecode = True
from lib.requestor import ABORT, ACCEPTED, DATA, REJECTED, RELEASED, Acceptor, Requestor, associate, command, context, hear, pdu, stored, values
from lib.nodes import CT, EXPLICIT, IMPLICIT, LETS_GO, LIMIT, PLAN, PROGRAM, Room, data_set, element, ended, lines, part10, run_cases, same, stop, told


def three_nodes():
    """An instance enters at CT1, goes by GATE and is kept at ARCH; then it is sent once more."""
    with Room() as room:
        room.put('image.dcm', part10(b'1.2.3.4'))
        size = len(data_set(b'1.2.3.4'))
        arch = room.serve('ARCH', 1)
        gate = room.serve('GATE', 1)
        sent = room.at('send', 'CT1', 'image.dcm')
        same((sent.returncode, sent.stderr), (0, b''))
        same(lines(sent.stdout), ['new', 'node\tCT1', 'arrival\t-\t1.2.3.4', 'row\t1.2.3.4\tGATE\tdone', 'lines\t2'])
        same(ended(gate), ['node\tGATE', 'arrival\tCT1\t1.2.3.4', 'row\t1.2.3.4\tARCH\tdone', 'lines\t2'])
        same(ended(arch), ['node\tARCH', 'arrival\tGATE\t1.2.3.4', f'kept\t1.2.3.4\t{size}', 'lines\t1'])
        for node in 'GATE', 'ARCH', 'CT1':
            first, second = room.at('list', node), room.at('list', node)
            same((first.returncode, first.stderr), (0, b''))
            same(first.stdout, second.stdout)
        again = room.at('send', 'CT1', 'image.dcm')
        same(lines(again.stdout)[:1], ['again'])
        same(again.returncode, 0)


def refusals():
    """What is refused, by which name and with which status."""
    with Room() as room:
        room.put('image.dcm', part10(b'1.2.3.4'))
        for word in ('list',), ('list', '--summary'), ('requeue', '1.2.3.4', 'GATE'), ('drop', '1.2.3.4', 'GATE'), ('forget', '1.2.3.4'), ('serve', '--must-exist'):
            told(room.at(word[0], 'ARCH', *word[1:]), 3, '', 'dr_router: G8 NoLedger\n')
        same(os.path.exists(f'{room.folder}/ARCH.db'), False)
        told(room.at('new', 'ARCH'), 0, 'made\n', '')
        told(room.at('new', 'ARCH'), 1, '', 'dr_router: G9 IsThere\n')
        told(room.at('list', 'ARCH'), 0, 'node\tARCH\nlines\t0\n', '')
        told(room.at('forget', 'ARCH', '1.2.3.4'), 1, '', 'dr_router: G7 NotOver\n')
        told(room.at('drop', 'ARCH', '1.2.3.4', 'GATE'), 1, '', 'dr_router: G5 NotHeld\n')
        told(room.at('list', 'GATE', ledger='ARCH.db'), 1, '', 'dr_router: G6 OtherSite\n')
        told(room.at('list', 'NONE'), 1, '', 'dr_router: NoNode\n')
        told(room.at('requeue', 'ARCH', '1.2.3.4', 'GATE'), 1, '', 'dr_router: G5 NotHeld\n')
        told(room.at('send', 'ARCH', 'image.dcm'), 1, '', 'dr_router: G1 NoLine\n')
        room.put('garbage.db', b'no database at all' * 300)
        told(room.at('list', 'ARCH', ledger='garbage.db'), 3, '', 'dr_router: G3 Store\n')
        room.put('no.dcm', b'no file of the standard')
        told(room.at('send', 'CT1', 'no.dcm'), 1, '', 'dr_router: F1 NotDicom\n')
        serving = room.serve('ARCH', 1, '--must-exist')
        told(room.at('list', 'ARCH'), 3, '', 'dr_router: G3 Store: in use\n')
        serving.kill()
        serving.wait()
        told(room.at('list', 'ARCH'), 0, 'node\tARCH\nlines\t0\n', '')
        same(room.run('serve', 'plan', 'certificate', 'ARCH', 'ARCH.db', '--links', '4294967296').returncode, 2)
        same(room.run('serve', 'plan', 'certificate', 'ARCH').returncode, 2)


def listening_elsewhere():
    """A node binds to `bind`, and others reach it at `address`; one that only calls sends, and has no door."""
    with Room() as room:
        ports, text = room.ports, room.text(PLAN[0])
        text = text.replace(f'address = "127.0.0.1:{ports["CT1"]}"', 'listens = false')
        gate = f'address = "127.0.0.1:{ports["GATE"]}"\n'
        text = text.replace(gate, f'{gate}bind = "0.0.0.0:{ports["GATE"]}"\n')
        room.put(PLAN[0], b'format = 3\n' + text.replace('format = 1\n', '').encode())
        room.put(PLAN[1], room.run('check', PLAN[0]).stdout)
        room.put('image.dcm', part10(b'1.2.3.4'))
        told(room.at('serve', 'CT1'), 3, '', 'dr_router: CT1: Nowhere\n')
        told(room.run('echo', PLAN[0], 'ARCH', 'CT1'), 1, '', 'dr_router: CT1: Nowhere\n')
        arch, gate = room.serve('ARCH', 1), room.serve('GATE', 2)
        with socket.create_connection(('127.0.0.2', ports['GATE'])):
            pass
        same(lines(room.at('send', 'CT1', 'image.dcm').stdout)[0], 'new')
        same(ended(gate)[-2:], ['row\t1.2.3.4\tARCH\tdone', 'lines\t2'])
        same(ended(arch)[-1], 'lines\t1')


def dead_hop():
    """A hop that doesn't answer costs the row one try, which waits; a requeue of it is refused, since it isn't held."""
    with Room() as room:
        room.put('image.dcm', part10(b'1.2.3.4'))
        sent = room.at('send', 'CT1', 'image.dcm')
        same(sent.returncode, 0)
        got = lines(sent.stdout)
        same(got[:3], ['new', 'node\tCT1', 'arrival\t-\t1.2.3.4'])
        assert re.fullmatch(r'row\t1\.2\.3\.4\tGATE\twaiting\t1\t\d+', got[3]), got
        told(room.at('requeue', 'CT1', '1.2.3.4', 'GATE'), 1, '', 'dr_router: G5 NotHeld\n')
        same(lines(room.at('list', 'CT1').stdout), got[1:])


def held_rows():
    """Other bytes under a known UID are refused (C0F1), which holds the row; what is held is counted, queued again, or given up."""
    with Room() as room:
        room.put('image.dcm', part10(b'1.2.3.4'))
        room.put('other.dcm', part10(b'1.2.3.4', element(0x10, 0x10, b'PN', b'Other')))
        gate = room.serve('GATE', 3)
        same(room.at('send', 'CT1', 'image.dcm').returncode, 0)
        for ledger in 'second.db', 'third.db':
            sent = room.at('send', 'CT1', 'other.dcm', ledger=ledger)
            same(lines(sent.stdout)[3:4], ['row\t1.2.3.4\tGATE\theld\tC0F1'])
        ended(gate)
        # a row that is given up by name, and an instance that is forgotten then
        told(room.at('forget', 'CT1', '1.2.3.4', ledger='third.db'), 1, '', 'dr_router: G7 NotOver\n')
        told(room.at('drop', 'CT1', '1.2.3.4', 'ARCH', ledger='third.db'), 1, '', 'dr_router: G5 NotHeld\n')
        told(room.at('drop', 'CT1', '1.2.3.4', 'GATE', ledger='third.db'), 0, 'dropped\n', '')
        told(room.at('list', 'CT1', ledger='third.db'), 0, 'node\tCT1\nrow\t1.2.3.4\tGATE\tdropped\nlines\t3\n', '')
        told(room.at('drop', 'CT1', '1.2.3.4', 'GATE', ledger='third.db'), 1, '', 'dr_router: G5 NotHeld\n')
        told(room.at('requeue', 'CT1', '1.2.3.4', 'GATE', ledger='third.db'), 1, '', 'dr_router: G5 NotHeld\n')
        told(room.at('forget', 'CT1', '1.2.3.4', ledger='third.db'), 0, 'forgotten\n', '')
        told(room.at('list', 'CT1', ledger='third.db'), 0, 'node\tCT1\nlines\t4\n', '')
        counts = 'node\tCT1\narrivals\t1\nkept\t0\nqueue\tGATE\twaiting\t{}\theld\t{}\tdone\t0\toldest\t{}\nlines\t{}\n'
        told(room.at('list', 'CT1', '--summary', ledger='second.db'), 0, counts.format(0, 1, '-', 2), '')
        # the same with the class by its name and with dates: each line has those two more, and a row that was never tried isn't due at one
        date = r'20\d\d-\d\d-\d\dT\d\d:\d\d:\d\d\.\d{3}Z'
        long = room.at('list', 'CT1', '--long', ledger='second.db')
        same(re.sub(date, 'DATE', long.stdout.decode()),
             'node\tCT1\narrival\t-\t1.2.3.4\tCT Image Storage\tDATE\nrow\t1.2.3.4\tGATE\theld\tC0F1\tCT Image Storage\tDATE\nlines\t2\n')
        came = datetime.datetime.fromisoformat(re.search(date, long.stdout.decode())[0])
        assert abs((datetime.datetime.now(datetime.timezone.utc) - came).total_seconds()) < 60, came
        same(room.at('list', 'CT1', '--long', '--summary', ledger='second.db').returncode, 2)
        told(room.at('requeue', 'CT1', '--all-held', 'ARCH', ledger='second.db'), 0, '', '')
        told(room.at('requeue', 'CT1', '--all-held', 'GATE', ledger='second.db'), 0, 'requeued\t1.2.3.4\n', '')
        told(room.at('requeue', 'CT1', '--all-held', 'GATE', ledger='second.db'), 0, '', '')
        summary = room.at('list', 'CT1', '--summary', ledger='second.db')
        same(re.sub(r'oldest\t\d+', 'oldest\tN', summary.stdout.decode()), counts.format(1, 0, 'N', 3))
        long = room.at('list', 'CT1', '--long', ledger='second.db').stdout.decode()
        assert 'row\t1.2.3.4\tGATE\twaiting\t0\t-\tCT Image Storage\tDATE\n' in re.sub(date, 'DATE', long), long
        # every line has the moment of its call
        with sqlite3.connect(f'{room.folder}/second.db') as ledger:
            same([abs(time.time() * 1000 - moment) < 60_000 for moment, in ledger.execute('SELECT moment FROM journal ORDER BY n')], 3 * [True])
        same(room.at('requeue', 'CT1', '1.2.3.4', '--all-held', 'GATE').returncode, 2)
        same(room.at('requeue', 'CT1', '1.2.3.4').returncode, 2)
        same(room.at('requeue', 'CT1').returncode, 2)


def events():
    """What a node logs, by its level; a row that came in is on its way to the next node at once."""
    with Room() as room:
        arch = room.serve('ARCH', 0, '--log', 'debug')
        gate = room.serve('GATE', 5, '--log', 'debug')
        for number in range(5):
            room.put('image.dcm', part10(b'1.2.3.%d' % number))
            same(room.at('send', 'CT1', 'image.dcm').returncode, 0)
        ended(gate)
        stop(arch)
        told_at_gate, told_at_arch = room.events('GATE'), room.events('ARCH')
        said = [(*event[1:3], re.sub(r' milliseconds=\d+$', ' milliseconds=N', event[3])) for event in told_at_gate]
        said = [(*event[:2], re.sub(r'127\.0\.0\.1:\d+', '127.0.0.1:N', event[2])) for event in said]
        for event in [('INFO', 'node', 'serves node="GATE" ledger="GATE.db" associations=5'),
                      ('INFO', 'association', 'comes session=1 address="127.0.0.1:N"'), ('DEBUG', 'association', 'taken session=1'),
                      ('DEBUG', 'instance', 'new session=1 caller="CT1" uid=1.2.3.0'), ('INFO', 'association', 'released session=5 instances=1 refused=0 statuses="0000=1" milliseconds=N'),
                      ('INFO', 'contexts', f'asked session=1 caller="CT1" called="GATE" accepted="{CT.decode()}={EXPLICIT.decode()}" refused=""'),
                      ('INFO', 'visit', 'released dest="ARCH" settled=1'), ('INFO', 'node', 'has arrivals=0 kept=0 lines=0'),
                      ('INFO', 'node', 'has arrivals=5 kept=0 lines=10'), ('DEBUG', 'row', 'done dest="ARCH" uid=1.2.3.0 status="0000"'),
                      ('INFO', 'queue', 'has dest="ARCH" waiting=0 held=0 done=5 oldest=-')]:
            assert event in said, (event, said)
        came = [event[0] for event in told_at_gate if event[2] == 'instance']
        went = [event[0] for event in told_at_arch if event[3].startswith('taken')]
        waits = [there - here for here in came for there in went if there >= here]
        assert min(waits) < 0.1, (came, went)
    with Room() as room:
        gate = room.serve('GATE', 2, '--log', 'error')
        arch = room.serve('ARCH', 0)
        for number in range(2):
            room.put('image.dcm', part10(b'1.2.3.%d' % number))
            room.at('send', 'CT1', 'image.dcm')
        ended(gate)
        stop(arch)
        same(room.events('GATE'), [])
        same({event[1] for event in room.events('ARCH')}, {'INFO'})
        same(room.at('serve', 'GATE', '--log', 'loud').returncode, 2)


def reports():
    """What a running node has is in its report: when it starts, ten seconds after it has changed, and when it ends."""
    with Room() as room:
        room.put('image.dcm', part10(b'1.2.3.4'))
        arch = room.serve('ARCH', 1)
        gate = room.serve('GATE', 2, '--report', 'report')
        same(room.wait_for_text('report', 'node\tGATE\nlines\t0\n'), True)
        same(room.at('send', 'CT1', 'image.dcm').returncode, 0)
        want = 'node\tGATE\narrival\tCT1\t1.2.3.4\nrow\t1.2.3.4\tARCH\tdone\nlines\t2\n'
        same(room.wait_for_text('report', want), True)
        ended(arch)
        room.put('image.dcm', part10(b'1.2.3.5'))
        same(room.at('send', 'CT1', 'image.dcm').returncode, 0)
        printed = ended(gate)
        same(room.text('report'), ''.join(f'{line}\n' for line in printed))
        waits = [event[3] for event in room.events('GATE') if event[2] == 'row']
        assert waits and all(re.fullmatch(r'waits dest="ARCH" uid=1\.2\.3\.5 status="-" tries=1 due=\d+', event) for event in waits), waits
    with Room() as room:
        os.mkdir(f'{room.folder}/reports')
        gate = room.serve('GATE', 1, '--report', 'reports/GATE')
        same(room.wait_for_text('reports/GATE', 'node\tGATE\nlines\t0\n'), True)
        shutil.rmtree(f'{room.folder}/reports')
        room.put('image.dcm', part10(b'1.2.3.4'))
        same(room.at('send', 'CT1', 'image.dcm').returncode, 0)
        ended(gate)
        told_at_gate = [event[1:] for event in room.events('GATE') if event[2] == 'report']
        assert told_at_gate and told_at_gate[0][0] == 'ERROR' and told_at_gate[0][2].startswith('unwritten error='), told_at_gate


def report_paths():
    """A report takes the place of no file of the node's own, by whatever path that is named, and of no other file that isn't a report."""
    own, other = 'Q1 OwnFile', 'Q2 NoReport'
    tails = ['', '-wal', '-shm', '-journal', '.data', '.journal.1']
    with Room() as room:
        def refused(path, fault, ledger=None):
            told(room.at('serve', 'GATE', '--links', '1', '--report', path, ledger=ledger), 3, '', f'dr_router: {path}: {fault}\n')
        def at(name):
            return f'{room.folder}/{name}'
        os.mkdir(at('sub'))
        os.symlink('.', at('here'))
        names = [f'GATE.db{tail}{end}' for tail in tails for end in ('', '.new')]
        # while no file is there; where the file that is written first would be the ledger's, too
        for name in names:
            for path in name, f'./{name}', f'sub/../{name}', f'here/{name}', at(name):
                refused(path, own)
        refused('GATE', own, ledger='GATE.new')
        same(sorted(os.listdir(room.folder)), ['certificate', 'here', 'plan', 'sub'])
        # with a ledger: by its name, by links, and by the other name of a ledger that is named by a link
        told(room.at('new', 'GATE'), 0, 'made\n', '')
        os.symlink('GATE.db', at('link'))
        os.link(at('GATE.db'), at('hard'))
        for path in [*names, './GATE.db', 'sub/../GATE.db-wal', 'here/GATE.db', at('GATE.db-wal'), 'link', 'hard', 'plan', './certificate', 'sub/../plan']:
            refused(path, own)
        for path in 'link', 'link-wal', 'GATE.db', 'GATE.db-wal', 'here/GATE.db-wal':
            refused(path, own, ledger='link')
        os.link(at('GATE.db'), at('report.new'))
        refused('report', own)
        os.unlink(at('report.new'))
        # what is no report, and links to nothing
        room.put('notes', b'node by node')
        room.put('report.new', b'what somebody wrote')
        os.symlink('nothing', at('dangling'))
        os.mkfifo(at('pipe'))
        for path in 'notes', 'report', 'dangling', 'pipe', 'sub':
            refused(path, other)
        refused('none/report', 'No such file or directory (os error 2)')
        os.unlink(at('report.new'))
        # a database with two names isn't opened
        os.unlink(at('hard'))
        told(room.at('list', 'GATE'), 0, 'node\tGATE\nlines\t0\n', '')
        same(room.text('notes'), 'node by node')
    with Room() as room:
        # a report from before, what a loss of power leaves of one, and a name that is only like the ledger's
        for name, text in ('old', b'node\tARCH\nlines\t7\n'), ('empty', b''), ('cut', b'nod'), ('GATE.db2', None), ('GATE.report', None):
            if text is not None:
                room.put(name, text)
            gate = room.serve('GATE', 0, '--report', name)
            same(room.wait_for_text(name, 'node\tGATE\nlines\t0\n'), True)
            stop(gate)


def forged():
    """A title of a peer begins no line of the log, ends no quoted value, and sends nothing to a terminal."""
    with Room() as room:
        arch = room.serve('ARCH', 1, '--log', 'debug')
        with Requestor(room.ports['ARCH'], 'A\nB\x1b[1m" \\C', 'ARCH') as caller:
            same(caller.answer[0], ACCEPTED)
            same(caller.store(b'1.2.3.4', data_set(b'1.2.3.4')), 0xC0F0)
            same(caller.release(), RELEASED)
        ended(arch)
        told_at_arch = [event[3] for event in room.events('ARCH') if event[2] == 'instance']
        same(told_at_arch, ['refused session=1 caller="A\\nB\\x1b[1m\\" \\\\C" uid=1.2.3.4 fault="G1 NoLine" '
                            f'class={CT.decode()} syntax={EXPLICIT.decode()} modality="CT" station="S1" '
                            f'why="no flow or rule at ARCH brings {CT.decode()} in {EXPLICIT.decode()} of modality \'CT\' and station \'S1\' '
                            'from A\\nB\\x1b[1m\\" \\\\C"'])


def refused_contexts():
    """Who asked for an association, and which of its contexts were refused, with the result of each; also of one that was rejected."""
    with Room() as room:
        arch = room.serve('ARCH', 2)
        contexts = context(1, b'1.2.840.10008.1.1', IMPLICIT) + context(3, CT, b'1.2.840.10008.1.2.4.50') + context(5, b'1.2.3', EXPLICIT)
        for called in 'ARCH', 'OTHER':
            link = socket.create_connection(('127.0.0.1', room.ports['ARCH']))
            link.sendall(associate(1, called, 'GATE', contexts))
            hear(link)
            link.close()
        ended(arch)
        same([event[3] for event in room.events('ARCH') if event[2] == 'contexts'],
             ['asked session=1 caller="GATE" called="ARCH" accepted="1.2.840.10008.1.1=1.2.840.10008.1.2" '
              f'refused="{CT.decode()}=4 1.2.3=3"', 'none session=2 caller="GATE" called="OTHER"'])


def asked_at(room, node='ARCH', caller='GATE'):
    """An association that was asked for at a node."""
    return Requestor(room.ports[node], caller, node)


def few_workers():
    """Connections that say nothing hold a worker each; who waits for one counts its 30 seconds from when it has one."""
    with Room() as room:
        arch = room.serve('ARCH', 0, '--workers', '2')
        held = [asked_at(room)]
        with asked_at(room) as caller:
            same(caller.answer[0], ACCEPTED)
            same(caller.release(), RELEASED)
        held.append(asked_at(room))
        begun = time.monotonic()
        def let_go():
            time.sleep(32)
            same(held[0].release(), RELEASED)
            held[0].link.close()
        waits = threading.Thread(target=let_go)
        waits.start()
        with asked_at(room) as late:
            same(late.answer[0], ACCEPTED)
            assert time.monotonic() - begun > 31, time.monotonic() - begun
            same(late.release(), RELEASED)
        waits.join()
        for one in held:
            one.link.close()
        stop(arch)


def unasked():
    """Who connects and doesn't ask in time is let go, as --request says; a longer time is one too, and who asks in time is served."""
    with Room() as room:
        arch = room.serve('ARCH', 0, '--request', '2')
        begun = time.monotonic()
        silent = socket.create_connection(('127.0.0.1', room.ports['ARCH']), timeout=LIMIT)
        slow = socket.create_connection(('127.0.0.1', room.ports['ARCH']), timeout=LIMIT)
        slow.sendall(b'\1\0\0\0\1\0')
        with asked_at(room) as caller:
            for link in silent, slow:
                same(link.recv(1), b'')
                link.close()
            assert 1.5 < time.monotonic() - begun < 12, time.monotonic() - begun
            # an association that was asked for in time has no such end
            time.sleep(2)
            same(caller.echo(), 0)
            same(caller.release(), RELEASED)
        stop(arch)
        said = [event[3] for event in room.events('ARCH') if event[3].startswith('limits ')]
        same(len(said), 1)
        assert ' request=2 ' in said[0], said
    with Room() as room:
        arch = room.serve('ARCH', 0, '--request', '36')
        begun = time.monotonic()
        silent = socket.create_connection(('127.0.0.1', room.ports['ARCH']), timeout=LIMIT + 36)
        same(silent.recv(1), b'')
        assert 35 < time.monotonic() - begun < 46, time.monotonic() - begun
        silent.close()
        stop(arch)


def silent_associations():
    """64 associations that say nothing, and as many connections on which none is asked for, hold up nobody who stores."""
    with Room() as room:
        arch = room.serve('ARCH', 0)
        held = [asked_at(room).link for _ in range(64)]
        held += [socket.create_connection(('127.0.0.1', room.ports['ARCH'])) for _ in range(64)]
        begun = time.monotonic()
        with asked_at(room) as caller:
            same(caller.answer[0], ACCEPTED)
            same(caller.store(b'1.2.3.4', data_set(b'1.2.3.4')), 0)
            same(caller.release(), RELEASED)
        assert time.monotonic() - begun < 5, time.monotonic() - begun
        for link in held:
            link.close()
        stop(arch)


def rejected_callers():
    """Of 300 callers 256 are served at a time; each one more is rejected by name, until one has left."""
    with Room() as room:
        arch = room.serve('ARCH', 0)
        open_ones = [asked_at(room) for _ in range(256)]
        same({one.answer[0] for one in open_ones}, {ACCEPTED})
        for _ in range(44):
            with asked_at(room) as one:
                same(one.answer, (REJECTED, b'\0\2\3\2'))
        # who is rejected for another reason, first, takes nobody's place
        with asked_at(room, caller='CT1') as stranger:
            same(stranger.answer, (REJECTED, b'\0\2\3\2'))
        for number, one in enumerate(open_ones[:8]):
            same(one.store(b'1.2.3.%d' % number, data_set(b'1.2.3.%d' % number)), 0)
            same(one.release(), RELEASED)
            one.link.close()
            room.wait_for_event('ARCH', f'released session={number + 1} ')
            with asked_at(room) as other:
                same(other.answer[0], ACCEPTED)
                same(other.release(), RELEASED)
            room.wait_for_event('ARCH', f'released session={302 + number} ')
        for one in open_ones[8:]:
            one.link.close()
        same(len([event for event in room.events('ARCH') if 'why="2 3 2"' in event[3]]), 45)
        stop(arch)


# Instances enter at CT1, and GATE sends each to three nodes.
THREE_HOPS = """
[[node]]
name = "CT1"
address = "h:1"
{gate}
{ends}
[[flow]]
at = "CT1"
to = "GATE"
class = ["{of}"]
syntax = ["{syntax}"]
modality = ["CT"]
station = ["S1"]
"""


def three_hops(*names):
    """A plan in which GATE sends what it has from CT1 to nodes of these names."""
    def node(name, rule):
        return (f'[[node]]\nname = "{name}"\naddress = "h:1"\n[[node.accept]]\nfrom = "*"\nclass = "{CT.decode()}"\n'
                f'syntax = ["{EXPLICIT.decode()}"]\n[[node.rule]]\n{rule}\n')
    to = ', '.join(f'"{name}"' for name in names)
    return THREE_HOPS.format(gate=node('GATE', f'from = "CT1"\nto = [{to}]'), ends=''.join(node(name, 'keep = true') for name in names),
                             of=CT.decode(), syntax=EXPLICIT.decode())


def hops_alone():
    """A next node that takes connections and says nothing, one that reads nothing, and one that is down hold up neither the one that takes
    its rows nor the report; and a dead one is tried ever more seldom."""
    with Room(three_hops('ARCH', 'HANG', 'DOWN')) as room, socket.create_server(('127.0.0.1', room.ports['HANG'])) as hangs:
        arch = room.serve('ARCH', 0)
        gate = room.serve('GATE', 0, '--report', 'report')
        with Requestor(room.ports['GATE'], 'CT1', 'GATE') as caller:
            for number in range(40):
                uid = b'1.2.3.%d' % number
                same(caller.store(uid, data_set(uid)), 0)
                time.sleep(0.25)
            same(caller.release(), RELEASED)
        deadline = time.monotonic() + 60
        def rows_done():
            told_rows = room.text('report').splitlines() if os.path.exists(f'{room.folder}/report') else []
            return len([line for line in told_rows if line.endswith('ARCH\tdone')])
        while rows_done() < 40 and time.monotonic() < deadline:
            time.sleep(0.1)
        assert rows_done() == 40, room.text('report')
        said = [event for event in room.events('GATE') if event[2] == 'visit']
        down = [event[0] for event in said if event[3].startswith('unreached dest="DOWN"')]
        # tries at 0, 1, 3 and 7 s and then each 5 s, while rows are made
        assert 3 <= len(down) <= 5 + (down[-1] - down[0]) / 5, said
        assert all(later - one > 0.9 for one, later in zip(down, down[1:])), said
        assert not [event for event in said if 'dest="HANG"' in event[3]], said
        stop(gate)
        stop(arch)
        same(len([line for line in lines(room.at('list', 'ARCH').stdout) if line.startswith('kept')]), 40)
        hangs.close()


def slow_peers():
    """A message that is begun and not brought, and silence between two messages, end an association in time."""
    with Room() as room:
        arch = room.serve('ARCH', 3, '--message', '2', '--idle', '4')
        with asked_at(room) as slow, asked_at(room) as silent, asked_at(room) as other:
            begun = time.monotonic()
            whole = values(3, 1, command((2, CT), (0x100, 1), (0x110, 1), (0x700, 0), (0x800, 1), (0x1000, b'1.2.3.4')))
            def drip():
                try:
                    for at in range(60):
                        slow.link.sendall(whole[at:at + 1])
                        time.sleep(1)
                except OSError:
                    pass
            drips = threading.Thread(target=drip)
            drips.start()
            same(aborts(slow.link), True)
            assert 1.5 < time.monotonic() - begun < 12, time.monotonic() - begun
            for _ in range(3):
                time.sleep(1.5)
                same(other.echo(), 0)
            same(aborts(silent.link), True)
            assert 3.5 < time.monotonic() - begun < 20, time.monotonic() - begun
            same(other.release(), RELEASED)
            drips.join()
        ended(arch)


def deaf_peer():
    """A next node that reads nothing ends a visit in time."""
    with Room() as room:
        body = data_set(b'1.2.3.4', element(0x7fe0, 0x10, b'OW', bytes(8 << 20)))
        with Acceptor(room.ports['ARCH'], None) as deaf:
            # what the systems of both sides hold is less than the data set
            deaf.listener.setsockopt(socket.SOL_SOCKET, socket.SO_RCVBUF, 4096)
            deaf.serve = lambda link: (hear_request(deaf, link), time.sleep(8))
            gate = room.serve('GATE', 0, '--write', '2')
            with Requestor(room.ports['GATE'], 'CT1', 'GATE') as caller:
                same(caller.store(b'1.2.3.4', body), 0)
                begun = time.monotonic()
                room.wait_for_event('GATE', 'failed dest="ARCH" settled=1 fault="Y2 Write"')
                assert 1.5 < time.monotonic() - begun < 20, time.monotonic() - begun
            stop(gate)


def slow_reader():
    """A next node that always reads a little ends a visit in time, too: a PDU has its time as a whole, and not each part of it."""
    with Room() as room:
        body = data_set(b'1.2.3.4', element(0x7fe0, 0x10, b'OW', bytes(8 << 20)))
        is_over = threading.Event()

        def read_a_little(link):
            # PDUs have no limit, so one of 1 MiB would take more than a minute
            link.sendall(slow.accepted(hear(link)[1], limit=0))
            while not is_over.wait(0.1) and link.recv(1000):
                pass
        with Acceptor(room.ports['ARCH'], None) as slow:
            slow.listener.setsockopt(socket.SOL_SOCKET, socket.SO_RCVBUF, 2048)
            slow.listener.setsockopt(socket.IPPROTO_TCP, socket.TCP_MAXSEG, 500)
            slow.serve = read_a_little
            gate = room.serve('GATE', 0, '--write', '2')
            with Requestor(room.ports['GATE'], 'CT1', 'GATE') as caller:
                same(caller.store(b'1.2.3.4', body), 0)
                begun = time.monotonic()
                room.wait_for_event('GATE', 'failed dest="ARCH" settled=1 fault="Y2 Write"')
                assert 1.5 < time.monotonic() - begun < 20, time.monotonic() - begun
            is_over.set()
            stop(gate)


def drip_from(acceptor, link, is_over):
    """Takes the association that is asked for, and reads a byte a second until that is over."""
    hear_request(acceptor, link)
    while not is_over.wait(1) and link.recv(1):
        pass


@contextlib.contextmanager
def neighbour(room, kind):
    """What stands at SLOW: nobody (`down`), one that takes connections and says nothing (`hangs`), or one that reads a byte a second (`drips`)."""
    if kind == 'hangs':
        with socket.create_server(('127.0.0.1', room.ports['SLOW'])):
            yield
    elif kind == 'drips':
        is_over = threading.Event()
        with Acceptor(room.ports['SLOW'], None) as slow:
            slow.serve = lambda link: drip_from(slow, link, is_over)
            try:
                yield
            finally:
                is_over.set()
    else:
        yield


def rate_beside(kind, count=1500):
    """How many rows a second ARCH takes that wait for it when the node starts, each of which goes to SLOW too; to ARCH alone where there is no
    kind. They are brought while each of them takes connections and says nothing."""
    names = ('ARCH', 'SLOW') if kind else ('ARCH',)
    moments = []
    def take(uid, number, to):
        moments.append(time.monotonic())
        return stored(uid, number, to, 0)
    with Room(three_hops(*names)) as room:
        with contextlib.ExitStack() as mute:
            for name in names:
                mute.enter_context(socket.create_server(('127.0.0.1', room.ports[name])))
            gate = room.serve('GATE', 0)
            with Requestor(room.ports['GATE'], 'CT1', 'GATE') as caller:
                for number in range(count):
                    uid = b'1.2.3.%d' % number
                    same(caller.store(uid, data_set(uid)), 0)
                same(caller.release(), RELEASED)
            stop(gate)
        with neighbour(room, kind), Acceptor(room.ports['ARCH'], take) as fast:
            gate = room.serve('GATE', 0)
            end = time.monotonic() + LIMIT
            while len(moments) < count and time.monotonic() < end:
                time.sleep(0.01)
            # whoever waits for the other side's bytes is let go, so that nobody is left behind
            stop(gate)
            same(len(set(fast.stored)), count)
    return (count - 1) / (moments[count - 1] - moments[0])


def rates_alone():
    """A next node that hangs, one that reads a byte a second and one that is down leave the one beside it its rate, within a fifth: by the
    medians of five rounds."""
    rates = {kind: [] for kind in (None, 'hangs', 'drips', 'down')}
    for _ in range(5):
        for kind, found in rates.items():
            found.append(rate_beside(kind))
    middle = {kind: statistics.median(found) for kind, found in rates.items()}
    print('rows a second:', ', '.join(f'{kind or "alone"} {middle[kind]:.0f} ({min(found):.0f} to {max(found):.0f})' for kind, found in rates.items()))
    for kind, rate in middle.items():
        assert rate >= 0.8 * middle[None], (kind, middle)


def hear_request(acceptor, link):
    """Takes the association that is asked for, and reads nothing more."""
    _, body = hear(link)
    link.sendall(acceptor.accepted(body))


def aborts(link):
    """Whether the other side says an A-ABORT before it closes; this side closes behind it."""
    said = b''
    while not said.endswith(ABORT):
        piece = link.recv(4096)
        if not piece:
            return False
        said += piece
    link.close()
    return True


def crowded():
    """Where there is no room in memory for a data set that comes, it is answered A700H, and comes in later; the others do at once."""
    with Room() as room:
        arch = room.serve('ARCH', 0, '--memory', '128', env={**os.environ, **LETS_GO})
        bodies = {uid: data_set(uid, element(0x7fe0, 0x10, b'OW', bytes(48 << 20))) for uid in (b'1.2.3.%d' % number for number in range(4))}
        answers = {}
        def store(uid):
            with asked_at(room) as caller:
                answers[uid] = caller.store(uid, bodies[uid])
                same(caller.echo(), 0)
                same(caller.release(), RELEASED)
        callers = [threading.Thread(target=store, args=(uid,)) for uid in bodies]
        for caller in callers:
            caller.start()
        for caller in callers:
            caller.join()
        # at least one of those that come at a time finds room, and at least one none
        same(set(answers.values()), {0, 0xa700})
        refused = [uid for uid in bodies if answers[uid] != 0]
        same(len([event for event in room.events('ARCH') if event[3].startswith('crowded ')]), len(refused))
        for uid in refused:
            store(uid)
        same(set(answers.values()), {0})
        peak = peak_of(arch)
        assert peak < 500_000_000, peak
        stop(arch)
        same(len([line for line in lines(room.at('list', 'ARCH').stdout) if line.startswith('kept')]), len(bodies))


def peak_of(process):
    """The greatest memory that a process has had, in bytes."""
    return 1024 * int(re.search(r'VmHWM:\s+(\d+) kB', open(f'/proc/{process.pid}/status').read())[1])


def many_transfers():
    """Of 64 data sets of 64 MiB that come at once those for which there is no room come again, and in the end each is kept. The node stays
    below its budget (1,024 MB) and 200 MB."""
    with Room() as room:
        arch = room.serve('ARCH', 0, env={**os.environ, **LETS_GO})
        size = 64 << 20
        head = len(data_set(b'1.2.3.4', element(0x7fe0, 0x10, b'OW', b'')))
        # what they have in common is made once: this process has all of them at a time
        rest = values(3, 0, bytes(size - 64 - head))
        refused = []
        def bring(caller, uid):
            caller.last += 1
            asked = command((2, CT), (0x100, 1), (0x110, caller.last), (0x700, 0), (0x800, 1), (0x1000, uid))
            begun = data_set(uid) + b'\xe0\x7f\x10\0OW\0\0' + struct.pack('<I', size - 64 - head)
            caller.link.sendall(values(3, 1, asked) + pdu(DATA, struct.pack('>IBB', len(begun) + 2, 3, 0) + begun))
            caller.link.sendall(rest)
            return caller.response()
        def store(number):
            uid = b'1.2.3.%d' % number
            with asked_at(room) as caller:
                caller.link.settimeout(600)
                for _ in range(LIMIT):
                    status = bring(caller, uid)
                    if status == 0:
                        same(caller.release(), RELEASED)
                        return
                    same(status, 0xa700)
                    refused.append(uid)
                    time.sleep(1)
            raise AssertionError(f'{uid} is never taken')
        callers = [threading.Thread(target=store, args=(number,)) for number in range(64)]
        begun = time.monotonic()
        for caller in callers:
            caller.start()
        for caller in callers:
            caller.join()
        peak, spent = peak_of(arch), time.monotonic() - begun
        print(f'greatest memory {peak / 1e6:.0f} MB, {len(refused)} times refused, {64 * size / spent / 1e6:.0f} MB a second')
        assert peak < 1_224_000_000, peak
        same(len([event for event in room.events('ARCH') if event[3].startswith('crowded ')]), len(refused))
        stop(arch)
        # four gigabytes: `list` reads all of it first, which takes minutes
        with sqlite3.connect(f'{room.folder}/ARCH.db') as ledger:
            same(ledger.execute('SELECT count(*) FROM kept').fetchone(), (64,))
            same(ledger.execute('SELECT count(*), min(length(body)), max(length(body)) FROM item').fetchone(), (64, size - 64, size - 64))
        ledger.close()


def cut_short():
    """A kill in the midst of eight transfers loses nothing that was acknowledged."""
    with Room() as room:
        arch = room.serve('ARCH', 0)
        acknowledged = []
        def store(number):
            try:
                with asked_at(room) as caller:
                    for count in range(100_000):
                        uid = b'1.2.%d.%d' % (number, count)
                        if caller.store(uid, data_set(uid)) == 0:
                            acknowledged.append(uid.decode())
            except (OSError, EOFError, AssertionError):
                pass
        callers = [threading.Thread(target=store, args=(number,)) for number in range(8)]
        for caller in callers:
            caller.start()
        time.sleep(2)
        arch.send_signal(signal.SIGKILL)
        arch.wait()
        for caller in callers:
            caller.join()
        kept = {line.split('\t')[1] for line in lines(room.at('list', 'ARCH').stdout) if line.startswith('kept')}
        assert len(acknowledged) > 10 and set(acknowledged) <= kept, (len(acknowledged), set(acknowledged) - kept)


# A disk of which each sync fails from when on a file is there.
FAILING = rb"""
#include <errno.h>
#include <stdlib.h>
#include <sys/syscall.h>
#include <unistd.h>

static int sync_by(long call, int file) {
    const char *sign = getenv("FAILS");
    if (sign && access(sign, F_OK) == 0) {
        errno = EIO;
        return -1;
    }
    return (int)syscall(call, file);
}

int fsync(int file) { return sync_by(SYS_fsync, file); }
int fdatasync(int file) { return sync_by(SYS_fdatasync, file); }
"""


def shut():
    """After a sync that failed nothing is acknowledged, and the node ends with status 3 after one line, so that a service manager starts
    it anew: what was acknowledged before is there, and what wasn't is taken."""
    if not shutil.which('cc'):
        print('serving: cc is missing, so no sync was made to fail', flush=True)
        return
    with Room() as room:
        room.put('failing.c', FAILING)
        subprocess.run(['cc', '-shared', '-fPIC', '-o', 'failing.so', 'failing.c'], cwd=room.folder, check=True)
        disk = {**os.environ, 'LD_PRELOAD': f'{room.folder}/failing.so', 'FAILS': f'{room.folder}/fails'}
        arch = room.serve('ARCH', 0, env=disk)
        caller = asked_at(room)
        same(caller.store(b'1.2.3.4', data_set(b'1.2.3.4')), 0)
        room.put('fails', b'')
        status = None
        # an A-ABORT, or the end of the connection, acknowledges nothing either
        with contextlib.suppress(OSError, EOFError, AssertionError):
            status = caller.store(b'1.2.3.5', data_set(b'1.2.3.5'))
        assert status is None or 0xa700 <= status <= 0xa7ff, status
        arch.communicate(timeout=LIMIT)
        same(arch.returncode, 3)
        logged = room.text('ARCH.log').splitlines()
        same([line.partition('[')[2] for line in logged if '[ERROR ' in line], ['ERROR node] shut fault="G3 Store"'])
        same(logged[-1], 'dr_router: G3 Store')
        os.remove(f'{room.folder}/fails')
        arch = room.serve('ARCH', 1, env=disk)
        with asked_at(room) as caller:
            same(caller.store(b'1.2.3.5', data_set(b'1.2.3.5')), 0)
            caller.release()
        same([line.split('\t')[1] for line in ended(arch) if line.startswith('kept')], ['1.2.3.4', '1.2.3.5'])


def stopped():
    """At the end of its input a node ends in order: what it has acknowledged is there, and what is open has ten seconds."""
    with Room() as room:
        arch = room.serve('ARCH', 0, '--until-input-ends', '--report', 'report', stdin=subprocess.PIPE)
        acknowledged, is_over = [], threading.Event()
        def store(number):
            try:
                with asked_at(room) as caller:
                    for count in range(100_000):
                        uid = b'1.2.%d.%d' % (number, count)
                        if is_over.is_set():
                            caller.release()
                            return
                        if caller.store(uid, data_set(uid)) == 0:
                            acknowledged.append(uid.decode())
            except (OSError, EOFError, AssertionError):
                pass
        silent, half = asked_at(room), asked_at(room)
        asked = command((2, CT), (0x100, 1), (0x110, 1), (0x700, 0), (0x800, 1), (0x1000, b'1.2.99.1'))
        begun = data_set(b'1.2.99.1')
        half.link.sendall(values(3, 1, asked) + pdu(DATA, struct.pack('>IBB', len(begun) + 2, 3, 0) + begun))
        callers = [threading.Thread(target=store, args=(number,)) for number in range(8)]
        for caller in callers:
            caller.start()
        time.sleep(2)
        begun = time.monotonic()
        arch.stdin.close()
        arch.stdin = None
        room.wait_for_event('ARCH', 'stops')
        time.sleep(1)
        try:
            with asked_at(room):
                raise AssertionError('an association after the stop')
        except (OSError, EOFError):
            pass
        is_over.set()
        # who says nothing, and who has sent half of a store
        same([aborts(one.link) for one in (silent, half)], [True, True])
        printed = ended(arch)
        assert 8 < time.monotonic() - begun < 30, time.monotonic() - begun
        for caller in callers:
            caller.join()
        kept = {line.split('\t')[1] for line in printed if line.startswith('kept')}
        assert len(acknowledged) > 10 and set(acknowledged) <= kept, (len(acknowledged), set(acknowledged) - kept)
        assert '1.2.99.1' not in kept
        same(room.text('report'), ''.join(f'{line}\n' for line in printed))
        same(lines(room.at('list', 'ARCH').stdout), printed)
    with Room() as room:
        # nobody is open: it ends at once; so does one whose input is over before it begins
        gate = room.serve('GATE', 0, '--until-input-ends', stdin=subprocess.PIPE)
        begun = time.monotonic()
        gate.stdin.close()
        gate.stdin = None
        same(ended(gate), ['node\tGATE', 'lines\t0'])
        assert time.monotonic() - begun < 9, time.monotonic() - begun


def forgotten():
    """What was sent on everywhere is forgotten when its time has come, and comes again as new; what waits, and what is kept, stays."""
    with Room() as room:
        uid = b'1.2.3.4'
        def bring():
            with Requestor(room.ports['GATE'], 'CT1', 'GATE') as caller:
                same(caller.store(uid, data_set(uid)), 0)
                same(caller.release(), RELEASED)
        def times_forgotten(node):
            return len([event for event in room.events(node) if event[3] == 'forgets instances=1'])
        gate = room.serve('GATE', 0, '--forget-after', '0')
        bring()
        time.sleep(2.5)
        same(times_forgotten('GATE'), 0)
        arch = room.serve('ARCH', 0, '--forget-after', '0')
        for times in 1, 2:
            end = time.monotonic() + LIMIT
            while times_forgotten('GATE') < times and time.monotonic() < end:
                time.sleep(0.1)
            same(times_forgotten('GATE'), times)
            if times == 1:
                bring()
        stop(gate)
        same(lines(room.at('list', 'GATE').stdout)[:-1], ['node\tGATE'])
        time.sleep(2)
        same(times_forgotten('ARCH'), 0)
        # what was over before a node began is found in its journal
        gate = room.serve('GATE', 0, '--forget-never')
        bring()
        room.wait_for_event('GATE', 'released dest="ARCH" settled=1')
        time.sleep(2)
        stop(gate)
        same(len(lines(room.at('list', 'GATE').stdout)), 4)
        gate = room.serve('GATE', 0, '--forget-after', '0')
        end = time.monotonic() + LIMIT
        while times_forgotten('GATE') < 3 and time.monotonic() < end:
            time.sleep(0.1)
        stop(gate)
        same(lines(room.at('list', 'GATE').stdout)[:-1], ['node\tGATE'])
        stop(arch)
        same([line.partition('\t')[0] for line in lines(room.at('list', 'ARCH').stdout)], ['node', 'arrival', 'kept', 'lines'])
        same(room.at('serve', 'GATE', '--forget-after', '1', '--forget-never').returncode, 2)


def killed():
    """ARCH is killed again and again while CT1 and GATE send; in the end each instance that was sent is kept at ARCH, once."""
    with Room() as room:
        uids = [f'1.2.3.{number}' for number in range(1, 7)]
        gate = room.serve('GATE', len(uids))
        for number, uid in enumerate(uids):
            room.put('image.dcm', part10(uid.encode()))
            arch = room.serve('ARCH', 0)
            sent = room.at('send', 'CT1', 'image.dcm')
            same((sent.returncode, lines(sent.stdout)[0]), (0, 'new'))
            time.sleep(0.02 * number)
            arch.send_signal(signal.SIGKILL)
            arch.wait()
        ended(gate)
        arch = room.serve('ARCH', 0)
        end = time.monotonic() + LIMIT
        # what wasn't taken in waits at GATE until it is due again; `send` of what is known already visits the hop once more
        while time.monotonic() < end:
            room.put('again.dcm', part10(uids[0].encode()))
            waiting = [line for line in lines(room.at('list', 'GATE').stdout) if '\twaiting' in line]
            if not waiting:
                break
            gate = room.serve('GATE', 1)
            room.at('send', 'CT1', 'again.dcm')
            gate.kill()
            gate.wait()
            time.sleep(1)
        arch.kill()
        arch.wait()
        kept = [line.split('\t')[1] for line in lines(room.at('list', 'ARCH').stdout) if line.startswith('kept')]
        done = [line for line in lines(room.at('list', 'GATE').stdout) if line.endswith('done')]
        same(kept, sorted(uids))
        same(len(done), len(uids))


def moments():
    """A line has the moment at which its message came, or its answer: none of when the association was asked for, or of the message before."""
    def late(uid, number, to):
        time.sleep(1.2)
        answered.append(time.time() * 1000)
        return stored(uid, number, to, 0)
    with Room() as room, Acceptor(room.ports['ARCH'], late):
        answered, brought = [], []
        gate = room.serve('GATE', 1)
        with Requestor(room.ports['GATE'], 'CT1', 'GATE') as caller:
            for uid in b'1.2.3.1', b'1.2.3.2', b'1.2.3.3':
                time.sleep(1.2)
                began = time.time() * 1000
                same(caller.store(uid, data_set(uid)), 0)
                brought.append((began, time.time() * 1000))
            same(caller.release(), RELEASED)
        ended(gate)
        with sqlite3.connect(f'{room.folder}/GATE.db') as ledger:
            came, settled = ([moment for moment, in ledger.execute('SELECT moment FROM journal WHERE kind = ? ORDER BY n', [kind])] for kind in (0, 2))
        same([began - 5 <= moment <= end + 5 for (began, end), moment in zip(brought, came, strict=True)], 3 * [True])
        same([-5 <= moment - at < 1000 for moment, at in zip(settled, answered, strict=True)], 3 * [True])


def main():
    if not os.path.exists(PROGRAM):
        sys.exit(f'{PROGRAM} is not built')
    if sys.argv[1:] == ['--more']:
        return run_cases('serving --more', rates_alone, many_transfers)
    run_cases('serving', three_nodes, refusals, listening_elsewhere, dead_hop, held_rows, moments, events, reports, report_paths, forged, refused_contexts, few_workers, unasked, silent_associations,
              rejected_callers, hops_alone, slow_peers, deaf_peer, slow_reader, crowded, shut, stopped, cut_short, forgotten, killed)


if __name__ == '__main__':
    main()
