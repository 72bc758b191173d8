#!/usr/bin/env python3
"""Measures running nodes of the built program beside dcmtk's storescp, and beside Orthanc where that is installed, on
loopback and this machine's disk, all in one run. Nodes are of both kinds: with their data sets in their tables, and in a
file of their own (`new --data-file`).

    bench/peers.py              # some minutes, on a machine that does nothing else
    bench/peers.py --data-file  # the same without what a data file has no part in
    bench/peers.py --tiny       # a few small files: whether it runs, not how fast

storescp never syncs a file that it writes (seen by strace, 3.6.7); a node acknowledges what is synced. So the disk's
own syncs are measured too: a node can't acknowledge more instances a second than the disk syncs, association by
association. Orthanc has its own settings but for names and folders, by which it syncs each file (`SyncStorageArea`).
"""
import json
import os
import random
import shutil
import sqlite3
import statistics
import struct
import subprocess
import sys
import tempfile
import threading
import time

sys.dont_write_bytecode = True
HERE = os.path.dirname(os.path.abspath(__file__))
sys.path.insert(0, f'{os.path.dirname(HERE)}/tests')
from lib.requestor import ACCEPTED, DATA, RELEASED, Requestor, command, pdu, values
from lib.nodes import CT, LETS_GO, PROGRAM, Room, data_set, element, part10, stop

LONG = 600
SIZES = (('1 kB', 1 << 10, 1000), ('512 kB', 512 << 10, 200), ('32 MB', 32 << 20, 8))
TINY = (('1 kB', 1 << 10, 3), ('16 kB', 16 << 10, 3), ('1 MB', 1 << 20, 2))


def image(size):
    """Elements of about that size: a patient, a study and a series, without which Orthanc takes nothing, and pixels whose bytes differ."""
    ids = element(0x10, 0x20, b'LO', b'P1') + element(0x20, 0xD, b'UI', b'1.2.3.8') + element(0x20, 0xE, b'UI', b'1.2.3.9')
    return ids + element(0x7FE0, 0x10, b'OW', random.Random(size).randbytes(size))


def put_files(room, name, size, count):
    """A folder of files of that size, each an instance of its own."""
    os.makedirs(f'{room.folder}/{name}', exist_ok=True)
    pixels = image(size)
    for number in range(count):
        room.put(f'{name}/{number}.dcm', part10(f'1.2.{size}.{number}'.encode(), pixels))


def send(room, node, name, sender):
    """dcmsend sends the folder's files in one association; how long that takes from its start to its end."""
    begun = time.monotonic()
    run = subprocess.run(['dcmsend', '-aet', sender, '-aec', node, '+sd', '127.0.0.1', str(room.ports[node]), name], cwd=room.folder,
                         env={**os.environ, 'TCP_NODELAY': '1'}, capture_output=True, timeout=LONG, check=False)
    assert run.returncode == 0, run
    return time.monotonic() - begun


def storescp(room):
    os.makedirs(f'{room.folder}/stored', exist_ok=True)
    process = room.start('storescp', '-aet', 'ARCH', '+B', '-od', 'stored', str(room.ports['ARCH']), env={**os.environ, 'TCP_NODELAY': '1'})
    room.wait_for('ARCH', process)
    return process


def forking_storescp(room):
    """One that takes associations side by side, as a node does: a process for each."""
    os.makedirs(f'{room.folder}/stored', exist_ok=True)
    process = room.start('storescp', '--fork', '-aet', 'ARCH', '+B', '-od', 'stored', str(room.ports['ARCH']), env={**os.environ, 'TCP_NODELAY': '1'})
    room.wait_for('ARCH', process)
    return process


def orthanc(room):
    """Orthanc by its own settings, but for its name, its port and its folders."""
    settings = {'Name': 'ARCH', 'StorageDirectory': 'stored', 'IndexDirectory': 'stored', 'HttpServerEnabled': False, 'DicomAet': 'ARCH',
                'DicomPort': room.ports['ARCH'], 'DicomModalities': {'gate': ['GATE', '127.0.0.1', room.ports['GATE']]}}
    room.put('orthanc.json', json.dumps(settings).encode())
    with open(f'{room.folder}/orthanc.log', 'wb') as log:
        process = room.start('Orthanc', 'orthanc.json', stdout=log, stderr=log)
    room.wait_for('ARCH', process)
    return process


def row(what, *figures):
    print(f'{what:<58}' + ''.join(f'{figure:>16}' for figure in figures), flush=True)


def rate(count, seconds):
    return f'{count / seconds:.1f}/s'


# ---- what is measured

def syncs(count):
    """Writes 1 kB behind what is there and syncs it, again and again."""
    spent = []
    with tempfile.TemporaryDirectory() as room, open(f'{room}/file', 'wb', buffering=0) as file:
        for _ in range(count):
            begun = time.monotonic()
            file.write(bytes(1024))
            os.fdatasync(file.fileno())
            spent.append(time.monotonic() - begun)
    row('fdatasync of 1 kB: a second, median', rate(count, sum(spent)), f'{1000 * statistics.median(spent):.2f} ms')


def receiving(sizes):
    """The same files by dcmsend into a node of each kind that keeps them, into storescp, and into Orthanc where it is; the shorter of two runs each, in
    turn. Behind each figure but storescp's is how many times storescp's it is."""
    others = {'with data file': ours_with_data, **({'Orthanc': orthanc} if shutil.which('Orthanc') else {})}
    receivers = {'node': ours, **others, 'storescp': storescp}
    row('receiving by dcmsend: files a second', *receivers)
    for name, size, count in sizes:
        best = {}
        for _ in range(2):
            for receiver, start in receivers.items():
                with Room() as room:
                    put_files(room, 'files', size, count)
                    process = start(room)
                    spent = send(room, 'ARCH', 'files', 'GATE')
                    best[receiver] = min(spent, best.get(receiver, spent))
                    stop(process)
        base = best['storescp']
        row(f'  {count} of {name}', *(rate(count, spent) + ('' if receiver == 'storescp' else f'; {base / spent:.2f}') for receiver, spent in best.items()))


def ours(room):
    """A node, by the unit's settings of the C library."""
    return room.serve('ARCH', 0, env={**os.environ, **LETS_GO})


def with_data(room, *nodes):
    """Ledgers with their data sets in files of their own."""
    for node in nodes:
        made = room.at('new', node, '--data-file')
        assert made.returncode == 0, made


def ours_with_data(room):
    """A node whose data sets are in a file of their own."""
    with_data(room, 'ARCH')
    return ours(room)


KINDS = (('', ()), (', with data files', ('GATE', 'ARCH')))


def forwarding(sizes):
    """The shorter of two runs. What waits at GATE goes to ARCH over one association, between nodes of each kind. It is queued while ARCH takes connections and
    answers none, so that each row is due at once when GATE starts again."""
    row('forwarding: files a second', 'in tables', '', 'with data files', '')
    for name, size, count in sizes:
        best = {}
        for kind, nodes in KINDS + KINDS:
            spent = forwarded(size, count, nodes)
            best[kind] = min(spent, best.get(kind, spent))
        row(f'  {count} of {name}', *(figure for spent in best.values() for figure in (rate(count, spent), f'{count * size / spent / 1e6:.1f} MB/s')))


def forwarded(size, count, nodes):
    """How long GATE takes, from its start on, for so many files that wait there for ARCH. These nodes have data files."""
    with Room() as room:
        with_data(room, *nodes)
        put_files(room, 'files', size, count)
        mute = room.start(sys.executable, '-c', 'import socket, sys, time\n'
                          'listener = socket.create_server(("127.0.0.1", int(sys.argv[1])))\ntime.sleep(3600)', str(room.ports['ARCH']))
        room.wait_for('ARCH', mute)
        gate = room.serve('GATE', 0)
        send(room, 'GATE', 'files', 'CT1')
        stop(gate)
        stop(mute)
        arch = room.serve('ARCH', 0)
        begun = time.monotonic()
        gate = room.serve('GATE', 1)
        with Requestor(room.ports['GATE'], 'CT1', 'GATE') as caller:
            caller.release()
        out, err = gate.communicate(timeout=LONG)
        spent = time.monotonic() - begun
        done = sum(line.endswith('\tdone') for line in out.decode().splitlines())
        assert done == count, (done, count, err)
        stop(arch)
        return spent


def associations(count):
    """Associations with an echo, each over a connection of its own, one after another and eight at a time."""
    row('associations with an echo, a second', 'node', 'storescp', 'node/storescp')
    for at_once in 1, 8:
        spent = {}
        for start in ours, storescp:
            with Room() as room:
                process = start(room)
                def echo_often():
                    for _ in range(count // at_once):
                        with Requestor(room.ports['ARCH'], 'GATE', 'ARCH') as caller:
                            assert (caller.answer[0], caller.echo(), caller.release()) == (ACCEPTED, 0, RELEASED)
                threads = [threading.Thread(target=echo_often) for _ in range(at_once)]
                begun = time.monotonic()
                for thread in threads:
                    thread.start()
                for thread in threads:
                    thread.join()
                spent[start] = time.monotonic() - begun
                stop(process)
        made = count // at_once * at_once
        row(f'  {made}, {at_once} at a time', rate(made, spent[ours]), rate(made, spent[storescp]), f'{spent[storescp] / spent[ours]:.2f}')


def storing_at_once(count):
    """Images of 1 kB, over 1, 8 and 64 associations at a time, each of which stores its share one after another."""
    row('images of 1 kB stored by several at a time, a second', 'node', 'with data file', 'storescp --fork', 'node/storescp', 'file/storescp')
    for at_once in 1, 8, 64:
        spent = {}
        for start in ours, ours_with_data, forking_storescp:
            with Room() as room:
                process, pixels = start(room), image(1 << 10)
                def store_share(share):
                    with Requestor(room.ports['ARCH'], 'GATE', 'ARCH') as caller:
                        for number in range(count // at_once):
                            uid = b'1.2.%d.%d' % (share, number)
                            assert caller.store(uid, data_set(uid, pixels)) == 0
                        assert caller.release() == RELEASED
                spent[start] = timed([lambda share=share: store_share(share) for share in range(at_once)])
                stop(process)
        made = count // at_once * at_once
        row(f'  {made}, {at_once} at a time', *(rate(made, spent[start]) for start in spent),
            *(f'{spent[forking_storescp] / spent[start]:.2f}' for start in (ours, ours_with_data)))


def crowd(at_once, size, kind, start):
    """So many associations that bring a data set of that size at the same time, each again until it is taken: the greatest memory."""
    with Room() as room:
        arch, tries = start(room), []
        head = len(data_set(b'1.2.3.10', element(0x7FE0, 0x10, b'OW', b'')))
        # what they have in common is made once: this process has all of them at a time
        rest = values(3, 0, bytes(size - head))
        def bring(caller, uid):
            caller.last += 1
            asked = command((2, CT), (0x100, 1), (0x110, caller.last), (0x700, 0), (0x800, 1), (0x1000, uid))
            begun = data_set(uid) + b'\xe0\x7f\x10\0OW\0\0' + struct.pack('<I', size - head)
            caller.link.sendall(values(3, 1, asked) + pdu(DATA, struct.pack('>IBB', len(begun) + 2, 3, 0) + begun))
            caller.link.sendall(rest)
            return caller.response()
        def store_until_taken(number):
            with Requestor(room.ports['ARCH'], 'GATE', 'ARCH') as caller:
                caller.link.settimeout(LONG)
                while True:
                    status = bring(caller, b'1.2.3.%d' % number)
                    tries.append(status)
                    if status == 0:
                        assert caller.release() == RELEASED
                        return
                    assert status == 0xA700, status
                    time.sleep(1)
        spent = timed([lambda number=number: store_until_taken(number) for number in range(10, 10 + at_once)])
        peak = most_memory(arch)
        stop(arch)
        row(f'{at_once} x {size / 1e6:.0f} MB at once{kind}: memory, A700H, a second', f'{peak:.0f} MB', len(tries) - at_once,
            f'{at_once * size / spent / 1e6:.0f} MB')
        # `list` would read all of it first, which takes minutes
        with sqlite3.connect(f'{room.folder}/ARCH.db') as ledger:
            assert ledger.execute('SELECT count(*) FROM kept').fetchone() == (at_once,)
        ledger.close()


def timed(tasks):
    """How long these take that run side by side; each has to come to its end."""
    failed = []
    def run(task):
        try:
            task()
        except BaseException as error:
            failed.append(error)
    threads = [threading.Thread(target=run, args=(task,)) for task in tasks]
    begun = time.monotonic()
    for thread in threads:
        thread.start()
    for thread in threads:
        thread.join()
    assert not failed, failed
    return time.monotonic() - begun


def most_memory(process):
    """The greatest memory that a process has had, in MB."""
    with open(f'/proc/{process.pid}/status', encoding='ascii') as file:
        return next(int(line.split()[1]) * 1024 / 1e6 for line in file if line.startswith('VmHWM'))


def memory(size, kind, start):
    """The node's greatest resident memory: before anything came, and behind four transfers at once."""
    with Room() as room:
        for number in range(4):
            room.put(f'{number}.dcm', part10(f'1.2.3.{number}'.encode(), image(size)))
        arch = start(room)
        idle = most_memory(arch)
        senders = [room.start('storescu', '-aet', 'GATE', '-aec', 'ARCH', '127.0.0.1', str(room.ports['ARCH']), f'{number}.dcm') for number in range(4)]
        for sender in senders:
            sender.communicate(timeout=LONG)
            assert sender.returncode == 0, sender.args
        row(f'greatest memory{kind}: idle, and 4 x {size >> 20} MB at once', f'{idle:.1f} MB', f'{most_memory(arch):.1f} MB')
        stop(arch)


def starting(count, size, kind, nodes):
    """From the start of a process until it listens: with a new file, and with one of so many instances that it keeps; and the memory then."""
    def start(room):
        begun = time.monotonic()
        process = room.serve('ARCH', 0)
        spent, peak = time.monotonic() - begun, most_memory(process)
        stop(process)
        return f'{spent:.2f} s', f'{peak:.0f} MB'
    with Room() as room:
        with_data(room, *nodes)
        new = start(room)
        put_files(room, 'files', size, count)
        process = room.serve('ARCH', 0)
        send(room, 'ARCH', 'files', 'GATE')
        stop(process)
        row(f'start{kind}: new, and {count} of {size >> 10} kB', *new, *start(room))


def main():
    if not os.path.exists(PROGRAM):
        sys.exit(f'{PROGRAM} is not built')
    tiny = '--tiny' in sys.argv[1:]
    sizes = TINY if tiny else SIZES
    syncs(20 if tiny else 500)
    receiving(sizes)
    forwarding(sizes)
    if '--data-file' not in sys.argv[1:]:
        associations(8 if tiny else 400)
    storing_at_once(64 if tiny else 3200)
    for (kind, nodes), start in zip(KINDS, (ours, ours_with_data)):
        memory(sizes[2][1], kind, start)
        crowd(*(4, 1 << 20) if tiny else (64, (64 << 20) - 4096), kind, start)
        starting(10 if tiny else 5000, 1 << 10, kind, nodes)
        starting(4 if tiny else 1000, 512 << 10, kind, nodes)


main()
