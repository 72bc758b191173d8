#!/usr/bin/env python3
"""Runs the built program's `echo` against nodes of this file, which answer on loopback with bytes by hand.

    tests/echo.py
"""
import os
import socket
import struct
import subprocess
import sys
import tempfile
import threading
import time

sys.dont_write_bytecode = True
from lib.requestor import ABORT, RELEASE_RP, RELEASE_RQ, VERIFICATION, associate, command, context, item, pdu
from lib.nodes import IMPLICIT, PROGRAM

# C-ECHO-RQ, context 1, message 1 (PS3.7 9.3.5)
ECHO_RQ = bytes.fromhex(
    '04 00 0000004A 00000046 01 03'
    '0000 0000 04000000 38000000'
    '0000 0200 12000000 312E322E3834302E31303030382E312E3100'
    '0000 0001 02000000 3000'
    '0000 1001 02000000 0100'
    '0000 0008 02000000 0101')


def request(calling='CT1', called='ARCH'):
    return associate(1, called, calling, context(1, VERIFICATION, IMPLICIT))


def acceptance(result=0):
    return associate(2, 'ARCH', 'CT1', item(0x21, bytes([1, 0, result, 0]) + item(0x40, IMPLICIT)))


def rejection(*numbers):
    return pdu(3, bytes([0, *numbers]))


def response(status):
    """C-ECHO-RSP (PS3.7 9.3.5.2)."""
    answer = command((2, VERIFICATION), (0x100, 0x8030), (0x120, 1), (0x800, 0x101), (0x900, status))
    return pdu(4, struct.pack('>IBB', len(answer) + 2, 1, 3) + answer)


# ---- a node: what it is sent and what it does, in turn

class Peer(threading.Thread):
    """Listens on loopback and plays its part with the first connection. Texts of bytes are sent; functions are called with
    the connection; what is awaited stands in a tuple, which has to come in one piece."""

    def __init__(self, *acts):
        super().__init__(daemon=True)
        self.acts, self.fault = acts, None
        self.listener = socket.create_server(('127.0.0.1', 0))
        self.port = self.listener.getsockname()[1]
        self.start()

    def run(self):
        try:
            connection, _ = self.listener.accept()
            with connection:
                connection.settimeout(100)
                for act in self.acts:
                    self.play(connection, act)
        except (OSError, AssertionError) as fault:
            self.fault = fault

    def play(self, connection, act):
        if isinstance(act, tuple):
            got = connection.recv(65536)
            assert got == act[0], (got, act[0])
        elif callable(act):
            act(connection)
        else:
            connection.sendall(act)


def ended(connection):
    """The other side has closed, and sent nothing more."""
    got = connection.recv(1)
    assert got == b'', got


def reset(connection):
    """The connection breaks: what is sent next is a reset."""
    connection.setsockopt(socket.SOL_SOCKET, socket.SO_LINGER, struct.pack('ii', 1, 0))


def in_bytes(data):
    """Sends one byte after the other, each in a packet of its own."""
    def send(connection):
        connection.setsockopt(socket.IPPROTO_TCP, socket.TCP_NODELAY, 1)
        for byte in data:
            connection.sendall(bytes([byte]))
            time.sleep(0.001)
    return send


GOES = (request(),), acceptance(), (ECHO_RQ,)
LEAVES = (RELEASE_RQ,), RELEASE_RP, ended


def answered(status):
    return *GOES, response(status), *LEAVES


def invalid(reason):
    return pdu(7, bytes([0, 0, 2, reason]))


CASES = [
    ('an echo', answered(0), 'status 0000|', 0),
    ('an echo in single bytes', ((request(),), in_bytes(acceptance()), (ECHO_RQ,), in_bytes(response(0)), (RELEASE_RQ,), in_bytes(RELEASE_RP), ended), 'status 0000|', 0),
    ('an echo that fails', answered(0xA7F0), 'status A7F0|', 1),
    ('an echo with the status 0122H', answered(0x122), 'status 0122|', 1),
    ('an echo and no answer to the release', (*GOES, response(0), (RELEASE_RQ,)), 'status 0000|', 0),
    ('a rejection', ((request(),), rejection(1, 1, 7), ended), 'rejected 1 1 7|', 1),
    ('.. for a while', ((request(),), rejection(2, 3, 2), ended), 'rejected 2 3 2|', 1),
    ('.. with other numbers', ((request(),), rejection(255, 0, 10), ended), 'rejected 255 0 10|', 1),
    ('a context that is refused', ((request(),), acceptance(3), *LEAVES), 'no-context|', 1),
    ('an abort in place of an answer', ((request(),), ABORT, ended), 'aborted|', 1),
    ('an abort in place of a response', (*GOES, ABORT, ended), 'aborted|', 1),
    ('a PDU of an unknown type', ((request(),), pdu(8, b''), (invalid(1),)), 'aborted|', 1),
    ('a PDU that is too long', ((request(),), struct.pack('>BBI', 2, 0, 262_145), (invalid(6),)), 'aborted|', 1),
    ('garbage', ((request(),), b'HTTP/1.1 400 Bad Request\r\n\r\n', (invalid(1),)), 'aborted|', 1),
    ('a response before it is asked for', ((request(),), response(0), (invalid(2),)), 'aborted|', 1),
    ('a response to another message', (*GOES, response(0).replace(b'\x20\x01\2\0\0\0\1\0', b'\x20\x01\2\0\0\0\2\0'), (ABORT,)), 'aborted|', 1),
    ('an end in place of an answer', ((request(),),), 'closed|', 1),
    ('an end in the midst of an answer', ((request(),), acceptance()[:-1]), 'closed|', 1),
    ('an end in place of a response', GOES, 'closed|', 1),
    ('a connection that breaks', ((request(),), reset), '', 3),
    ('silence', ((request(),), (ABORT,)), 'aborted|', 1),
    ('silence behind an acceptance', (*GOES, (ABORT,)), 'aborted|', 1),
]


# ---- runs

def plan(port):
    accept = f'[[node.accept]]\nfrom = "*"\nclass = "1.2.840.10008.5.1.4.1.1.2"\nsyntax = ["1.2.840.10008.1.2.1"]\n'
    return (f'[[node]]\nname = "CT1"\naddress = "127.0.0.1:1"\n'
            f'[[node]]\nname = "ARCH"\naddress = "127.0.0.1:{port}"\n{accept}[[node.rule]]\nkeep = true\n')


def run(*words):
    ended = subprocess.run([PROGRAM, *words], stdin=subprocess.DEVNULL, stdout=subprocess.PIPE, stderr=subprocess.PIPE, timeout=110)
    faults = ''.join(line for line in ended.stderr.decode().splitlines(True) if not line.startswith('  '))
    return ended.stdout.decode(), faults, ended.returncode


class Case(threading.Thread):
    def __init__(self, room, number, what, acts, printed, status):
        super().__init__()
        self.what, self.peer = what, Peer(*acts)
        self.wanted = printed.replace(' ', '\t').replace('|', '\n'), '' if printed else 'dr_router: Y1 Read\n', status
        self.plan = f'{room}/{number}.toml'
        with open(self.plan, 'w') as it:
            it.write(plan(self.peer.port))
        self.start()

    def run(self):
        self.got = run('echo', self.plan, 'CT1', 'ARCH')
        self.peer.join(10)

    def fault(self):
        self.join()
        if self.got != self.wanted or self.peer.fault or self.peer.is_alive():
            return f'{self.what}: got {self.got}, not {self.wanted}; the node: {self.peer.fault}'


def compare(what, got, wanted):
    if got != wanted:
        sys.exit(f'{what}: got {got}, not {wanted}')


def refusals(room):
    path = f'{room}/refused.toml'
    with socket.create_server(('127.0.0.1', 0)) as listener:
        port = listener.getsockname()[1]
    with open(path, 'w') as it:
        it.write(plan(port))
    compare('nobody listens', run('echo', path, 'CT1', 'ARCH'), ('', 'dr_router: ARCH: Connection refused (os error 111)\n', 3))
    for caller, called in (('CT2', 'ARCH'), ('CT1', 'GATE'), ('', 'ARCH'), ('-', 'ARCH'), ('*', 'ARCH'), ('arch', 'ARCH')):
        compare(f'from {caller!r} to {called!r}', run('echo', '--', path, caller, called), ('', 'dr_router: NoNode\n', 1))
    compare('no plan', run('echo', __file__, 'CT1', 'ARCH'), ('', 'dr_router: L1 NotToml\n', 1))
    compare('no file', run('echo', 'none', 'CT1', 'ARCH')[::2], ('', 3))
    for words in (['echo'], ['echo', path], ['echo', path, 'CT1'], ['echo', path, 'CT1', 'ARCH', 'ARCH']):
        compare(f'words {words}', run(*words)[::2], ('', 2))


def unanswered(room):
    """A connect to a listener whose queue is full is given up after 10 s."""
    with socket.socket() as listener:
        listener.bind(('127.0.0.1', 0))
        listener.listen(0)
        port = listener.getsockname()[1]
        waiting = [socket.socket() for _ in range(4)]
        for one in waiting:
            one.setblocking(False)
            one.connect_ex(('127.0.0.1', port))
        time.sleep(0.2)
        path = f'{room}/unanswered.toml'
        with open(path, 'w') as it:
            it.write(plan(port))
        begun = time.monotonic()
        printed, faults, status = run('echo', path, 'CT1', 'ARCH')
        took = time.monotonic() - begun
        for one in waiting:
            one.close()
    compare('a connect that nobody answers', (printed, faults.startswith('dr_router: ARCH: '), status, 9 < took < 15), ('', True, 3, True))


def main():
    if not os.path.exists(PROGRAM):
        sys.exit(f'{PROGRAM} is not built')
    with tempfile.TemporaryDirectory(prefix='echo-') as room:
        cases = [Case(room, number, *case) for number, case in enumerate(CASES)]
        refusals(room)
        unanswered(room)
        faults = [fault for fault in (case.fault() for case in cases) if fault]
        if faults:
            sys.exit('\n'.join(faults))
    print(f'echo.py: {len(CASES)} echoes over loopback, each as it should be')


main()
