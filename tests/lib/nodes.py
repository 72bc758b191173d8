"""What tests of running nodes share: files of the standard by bytes, and rooms, in which nodes of a plan run as
processes of the built program. DR_ROUTER names the program, where it isn't the one that this repository builds."""
import datetime
import os
import re
import shutil
import socket
import struct
import subprocess
import tempfile
import time

TOP = os.path.dirname(os.path.dirname(os.path.dirname(os.path.abspath(__file__))))
PROGRAM = os.environ.get('DR_ROUTER') or f'{TOP}/crates/dr_router/out/dr_router'
SAMPLE = f'{TOP}/plans/three-nodes.toml'
IMPLICIT, EXPLICIT = b'1.2.840.10008.1.2', b'1.2.840.10008.1.2.1'
CT = b'1.2.840.10008.5.1.4.1.1.2'
PLAN = ('plan', 'certificate')
LIMIT = 60
# how the unit has the C library let go of memory: what is large goes back to the system at once
LETS_GO = {'MALLOC_ARENA_MAX': '2', 'MALLOC_MMAP_THRESHOLD_': '1048576'}
EVENT = re.compile(r'(\d{4}-\d\d-\d\dT\d\d:\d\d:\d\d\.\d{3}Z) \[(\w+) +(\w+)\] (.*)')


# ---- files of the standard

def element(group, number, kind, value, syntax=EXPLICIT):
    """An element (PS3.5 7.1), its value padded to an even length."""
    value += (b'\0' if kind in (b'UI', b'OB', b'OW', b'UN') else b' ') * (len(value) % 2)
    tag = struct.pack('<HH', group, number)
    if syntax == IMPLICIT:
        return tag + struct.pack('<I', len(value)) + value
    if kind in (b'OB', b'OW', b'SQ', b'UN'):
        return tag + kind + b'\0\0' + struct.pack('<I', len(value)) + value
    return tag + kind + struct.pack('<H', len(value)) + value


def data_set(uid, more=b'', syntax=EXPLICIT, of=CT):
    """A data set with the four values by which it is routed; what stands behind them is `more`, in that syntax, by rising tags."""
    values = ((8, 0x16, b'UI', of), (8, 0x18, b'UI', uid), (8, 0x60, b'CS', b'CT'), (8, 0x1010, b'SH', b'S1'))
    return b''.join(element(*value, syntax) for value in values) + more


def part10(uid, more=b'', syntax=EXPLICIT, of=CT):
    """A file (PS3.10 7.1) with that data set."""
    meta = (element(2, 1, b'OB', b'\0\1') + element(2, 2, b'UI', of) + element(2, 3, b'UI', uid)
            + element(2, 0x10, b'UI', syntax) + element(2, 0x12, b'UI', b'1.2.3'))
    return 128 * b'\0' + b'DICM' + element(2, 0, b'UL', struct.pack('<I', len(meta))) + meta + data_set(uid, more, syntax, of)


def behind_meta(file):
    """The data set of a file: what stands behind its meta information, whose first element says how long the others are."""
    assert file[128:140] == b'DICM\2\0\0\0UL\4\0', file[:144]
    length, = struct.unpack_from('<I', file, 140)
    return file[144 + length:]


# ---- processes

def free_port():
    with socket.create_server(('127.0.0.1', 0)) as listener:
        return listener.getsockname()[1]


def listening_ports():
    found = set()
    for name in 'tcp', 'tcp6':
        if os.path.exists(f'/proc/net/{name}'):
            with open(f'/proc/net/{name}', encoding='ascii') as file:
                parts = [line.split() for line in file.readlines()[1:]]
            found.update(int(part[1].rpartition(':')[2], 16) for part in parts if part[3] == '0A')
    return found


class Room:
    """A folder with a plan, whose nodes have free ports, its certificate, and the ledgers of its nodes; and with more plans, where there are any."""

    def __init__(self, text=None):
        self.folder = tempfile.mkdtemp()
        self.running = []
        if text is None:
            with open(SAMPLE, encoding='utf-8') as file:
                text = file.read()
        self.ports = {}
        self.put_plan(text)

    def __enter__(self):
        return self

    def __exit__(self, *_):
        for process in self.running:
            stop(process)
        shutil.rmtree(self.folder)

    def put(self, name, data):
        with open(f'{self.folder}/{name}', 'wb') as file:
            file.write(data)

    def put_plan(self, text, plan=PLAN):
        """A plan with free ports, and its certificate. A node that has a port by another plan of the room keeps it."""
        for name in re.findall(r'^name = "(\w+)"', text, re.M):
            self.ports.setdefault(name, free_port())
        def address(found):
            return f'name = "{found[1]}"{found[2]}address = "127.0.0.1:{self.ports[found[1]]}"'
        text = re.sub(r'name = "(\w+)"(.*?)address = "[^"]*"', address, text, flags=re.S)
        self.put(plan[0], text.encode())
        self.put(plan[1], self.run('check', plan[0]).stdout)

    def run(self, *words):
        return subprocess.run([PROGRAM, *words], cwd=self.folder, capture_output=True, timeout=LIMIT, check=False)

    def text(self, name):
        with open(f'{self.folder}/{name}', encoding='utf-8') as file:
            return file.read()

    def wait_for_text(self, name, text):
        """Whether the file has that text before long; one that isn't there yet has none."""
        end = time.monotonic() + LIMIT
        while time.monotonic() < end:
            if os.path.exists(f'{self.folder}/{name}') and self.text(name) == text:
                return True
            time.sleep(0.05)
        return False

    def wait_for_event(self, node, text):
        """Waits until a node has logged that."""
        end = time.monotonic() + LIMIT
        while time.monotonic() < end:
            if text in self.text(f'{node}.log'):
                return
            time.sleep(0.05)
        raise AssertionError(f'{node} does not log {text}')

    def at(self, word, node, *more, ledger=None, plan=PLAN):
        return self.run(word, *plan, node, ledger or f'{node}.db', *more)

    def start(self, *command, **settings):
        """A process that ends with the room, if it hasn't ended before."""
        process = subprocess.Popen(command, cwd=self.folder, **{'stdout': subprocess.PIPE, 'stderr': subprocess.PIPE, **settings})
        self.running.append(process)
        return process

    def serve(self, node, links, *more, ledger=None, plan=PLAN, **settings):
        """A node that serves and listens already. Its events go to a file, so that nobody has to read them while it serves."""
        words = ['serve', *plan, node, ledger or f'{node}.db', '--links', str(links), *more]
        with open(f'{self.folder}/{node}.log', 'ab') as log:
            process = self.start(PROGRAM, *words, **{'stdin': subprocess.DEVNULL, **settings, 'stderr': log})
        self.wait_for(node, process)
        return process

    def events(self, node):
        """The lines that a node has logged: the moment in seconds, the level, what the line is about, and what it says."""
        with open(f'{self.folder}/{node}.log', encoding='utf-8') as file:
            found = [EVENT.fullmatch(line.rstrip('\n')) for line in file]
        assert all(found), found
        return [(datetime.datetime.fromisoformat(event[1].replace('Z', '+00:00')).timestamp(), event[2], event[3], event[4]) for event in found]

    def wait_for(self, node, process):
        """Waits until the node listens: no connection is made, since each counts."""
        end = time.monotonic() + LIMIT
        while time.monotonic() < end:
            if self.ports[node] in listening_ports():
                return
            assert process.poll() is None, (node, process.communicate())
            time.sleep(0.02)
        raise AssertionError(f'{node} does not listen')


def stop(process):
    """Kills it, if it hasn't ended."""
    if process.poll() is None:
        process.kill()
    process.wait()
    for pipe in process.stdout, process.stderr:
        if pipe:
            pipe.close()


def lines(text):
    return text.decode().splitlines()


def ended(process, status=0):
    out, err = process.communicate(timeout=LIMIT)
    assert process.returncode == status, (process.returncode, out, err)
    return lines(out)


def same(got, wanted):
    assert got == wanted, f'{got} instead of {wanted}'


def told(run, status, out, err):
    same((run.returncode, run.stdout.decode(), run.stderr.decode()), (status, out, err))


def run_cases(script, *cases):
    """Runs each case, and prints how long it took."""
    for case in cases:
        begun = time.monotonic()
        case()
        print(f'{script}: {case.__name__}, {time.monotonic() - begun:.1f} s', flush=True)
