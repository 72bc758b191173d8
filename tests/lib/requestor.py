"""Associations by hand: PDUs and commands of the standard as bytes, and a requestor over a socket of this process, for
tests that can't wait for the start of another program, or that send what no program of the standard does."""
import socket
import struct
import threading

from lib.nodes import CT, EXPLICIT, IMPLICIT, LIMIT

VERIFICATION, APPLICATION = b'1.2.840.10008.1.1', b'1.2.840.10008.3.1.1.1'
RELEASE_RQ, RELEASE_RP, ABORT = (bytes([kind, 0, 0, 0, 0, 4, 0, 0, 0, 0]) for kind in (5, 6, 7))
STORE = 0x0001
ECHO = 0x0030
ACCEPTED, REJECTED, DATA, RELEASED, ABORTED = 2, 3, 4, 6, 7
PIECE = 16000


# ---- PDUs (PS3.8 9.3)

def item(kind, body):
    return struct.pack('>BBH', kind, 0, len(body)) + body


def pdu(kind, body):
    return struct.pack('>BBI', kind, 0, len(body)) + body


def title(name):
    return name.ljust(16).encode()


def associate(kind, called, calling, contexts, limit=16384):
    """An A-ASSOCIATE-RQ (1) or an A-ASSOCIATE-AC (2), PS3.8 9.3.2 and 9.3.3."""
    user = item(0x51, struct.pack('>I', limit)) + item(0x52, b'2.25.331274590186724905318462075136948210573') + item(0x55, b'DR_ROUTER_1')
    return pdu(kind, b'\0\1\0\0' + title(called) + title(calling) + 32 * b'\0' + item(0x10, APPLICATION) + contexts + item(0x50, user))


def context(number, of, *syntaxes):
    """A proposed presentation context."""
    return item(0x20, bytes([number, 0, 0, 0]) + item(0x30, of) + b''.join(item(0x40, syntax) for syntax in syntaxes))


# Verification, and images in each of the two transfer syntaxes
CONTEXTS = context(1, VERIFICATION, IMPLICIT) + context(3, CT, EXPLICIT) + context(5, CT, IMPLICIT)
CONTEXT_OF = {EXPLICIT: 3, IMPLICIT: 5}


def values(number, kind, bytes_of):
    """The P-DATA-TF PDUs of a command (kind 1) or a data set (kind 0) in a context."""
    pieces = [bytes_of[at:at + PIECE] for at in range(0, len(bytes_of), PIECE)] or [b'']
    last = len(pieces) - 1
    return b''.join(pdu(DATA, struct.pack('>IBB', len(piece) + 2, number, kind | (2 if at == last else 0)) + piece) for at, piece in enumerate(pieces))


# ---- commands (PS3.7 9.3)

def command(*elements):
    """A command by its elements, each a number of group 0000 with a text or a number of two bytes."""
    def spelled(number, value):
        value = struct.pack('<H', value) if isinstance(value, int) else value + b'\0' * (len(value) % 2)
        return struct.pack('<HHI', 0, number, len(value)) + value
    rest = b''.join(spelled(*element) for element in elements)
    return spelled(0, struct.pack('<I', len(rest))) + rest


def text_in(text, wanted):
    """The value that a command has under that number."""
    at = 0
    while at < len(text):
        _, number, length = struct.unpack_from('<HHI', text, at)
        if number == wanted:
            return text[at + 8:at + 8 + length]
        at += 8 + length
    raise AssertionError((wanted, text))


def number_in(text, wanted):
    return struct.unpack('<H', text_in(text, wanted))[0]


def exactly(link, count):
    """So many bytes that come next; EOFError where the other side closes before."""
    got = bytearray()
    while len(got) < count:
        piece = link.recv(count - len(got))
        if not piece:
            raise EOFError(bytes(got))
        got += piece
    return bytes(got)


def hear(link):
    """The type and the body of the next PDU."""
    kind, _, length = struct.unpack('>BBI', exactly(link, 6))
    return kind, exactly(link, length)


class Requestor:
    """An association that is asked for, over a connection of its own. `answer` is the first PDU that came."""

    def __init__(self, port, calling, called, contexts=CONTEXTS):
        self.link = socket.create_connection(('127.0.0.1', port), timeout=LIMIT)
        self.link.setsockopt(socket.IPPROTO_TCP, socket.TCP_NODELAY, 1)
        self.last = 0
        self.link.sendall(associate(1, called, calling, contexts))
        self.answer = self.hear()

    def __enter__(self):
        return self

    def __exit__(self, *_):
        self.link.close()

    def hear(self):
        return hear(self.link)

    def response(self):
        """The status of a response that came whole in one PDU."""
        kind, body = self.hear()
        assert kind == DATA, (kind, body)
        return number_in(body[6:], 0x900)

    def echo(self):
        self.last = self.last % 0xffff + 1
        self.link.sendall(values(1, 1, command((2, VERIFICATION), (0x100, ECHO), (0x110, self.last), (0x800, 0x101))))
        return self.response()

    def store(self, uid, data, syntax=EXPLICIT, of=CT):
        self.last = self.last % 0xffff + 1
        asked = command((2, of), (0x100, STORE), (0x110, self.last), (0x700, 0), (0x800, 1), (0x1000, uid))
        self.link.sendall(values(CONTEXT_OF[syntax], 1, asked) + values(CONTEXT_OF[syntax], 0, data))
        return self.response()

    def ask(self, field):
        """A request that this program may not know, without a data set."""
        self.last = self.last % 0xffff + 1
        self.link.sendall(values(3, 1, command((2, CT), (0x100, field), (0x110, self.last), (0x700, 0), (0x800, 0x101))))
        return self.response()

    def release(self):
        self.link.sendall(RELEASE_RQ)
        return self.hear()[0]


# ---- the other side

def parts(text):
    """The items of a variable field, each its type and its body."""
    at = 0
    while at < len(text):
        kind, _, length = struct.unpack_from('>BBH', text, at)
        yield kind, text[at + 4:at + 4 + length]
        at += 4 + length


class Acceptor(threading.Thread):
    """Takes each association that is asked for at a port, each context in the first of its transfer syntaxes (or none, by `result`), and
    answers each C-STORE-RQ as `answer` says: a function from its uid and its message's id to bytes. `stored` are the uids that came."""

    def __init__(self, port, answer, result=0):
        super().__init__(daemon=True)
        self.answer, self.result, self.stored = answer, result, []
        self.listener = socket.create_server(('127.0.0.1', port))
        self.start()

    def __enter__(self):
        return self

    def __exit__(self, *_):
        # a thread in accept() goes on after a close alone
        self.listener.shutdown(socket.SHUT_RDWR)
        self.join(LIMIT)
        self.listener.close()

    def run(self):
        while True:
            try:
                link, _ = self.listener.accept()
            except OSError:
                return
            with link:
                link.settimeout(LIMIT)
                try:
                    self.serve(link)
                except (EOFError, OSError):
                    pass

    def accepted(self, body, limit=16384):
        taken = b''
        for kind, part in parts(body[68:]):
            if kind == 0x20:
                syntax = next(text for of, text in parts(part[4:]) if of == 0x40)
                taken += item(0x21, bytes([part[0], 0, self.result, 0]) + item(0x40, syntax))
        return associate(2, body[4:20].decode(), body[20:36].decode(), taken, limit)

    def serve(self, link):
        _, body = hear(link)
        link.sendall(self.accepted(body))
        asked, kind = b'', DATA
        while kind == DATA:
            kind, body = hear(link)
            if kind == DATA and body[5] & 1:
                asked += body[6:]
            elif kind == DATA and body[5] == 2:
                uid = text_in(asked, 0x1000).rstrip(b'\0')
                self.stored.append(uid)
                link.sendall(self.answer(uid, body[4], number_in(asked, 0x110)))
                asked = b''
        if kind == RELEASE_RQ[0]:
            link.sendall(RELEASE_RP)


def stored(uid, number, to, status, announced=0x101):
    """A C-STORE response in a context, to the message of that id."""
    return values(number, 1, command((2, CT), (0x100, 0x8000 | STORE), (0x120, to), (0x800, announced), (0x900, status), (0x1000, uid)))
