#!/usr/bin/env python3
"""The words at nodes that run (--at), by the built program, on loopback: what they print is what the words print of a
file, acts are told once the node was seen to be the one that is meant, and what answers like no node ends them by a
named fault, in bounded time and memory.

    tests/at.py
"""
import json
import os
import resource
import socket
import sys
import threading
import time
import urllib.parse

sys.dont_write_bytecode = True
from control import Asked, TOKEN, hold, put_token
from lib.nodes import LIMIT, PLAN, PROGRAM, Room, ended, free_port, lines, run_cases, same, stop, told
from lib.requestor import Requestor

NODE = {'node': 'CT1', 'since': 1, 'arrivals': 0, 'kept': 0, 'lines': 0, 'failures': 0}


def at(room, word, node, where, *more, token='token'):
    """A word at a running node, with a token before what else it has."""
    given = ['--token', token] if token else []
    return room.run(word, *PLAN, node, '--at', where, *given, *more)


def waits(room, word, node, where, wanted):
    """Runs a word until it prints that."""
    end = time.monotonic() + LIMIT
    while (got := at(room, word, node, where, token=None)).stdout.decode() != wanted:
        assert time.monotonic() < end, got
        time.sleep(0.05)


def reads():
    """What a node has, as the words print it of its file when it has ended."""
    with Room() as room:
        hold(room)
        node = Asked(room, 'CT1', 0, token=False)
        listed = at(room, 'list', 'CT1', node.at, token=None)
        summed = at(room, 'list', 'CT1', node.at, '--summary', token=None)
        told(at(room, 'list', 'CT1', node.at, '--summary', '--fail-if-held', token=None), 1, summed.stdout.decode(), '')
        same(at(room, 'list', 'CT1', node.at, '--long', token=None).returncode, 2)
        same((listed.returncode, summed.returncode, listed.stderr, summed.stderr), (0, 0, b'', b''))
        # without a token nothing can be told
        told(at(room, 'stop', 'CT1', node.at, token=None), 1, '', 'dr_router: H9 Closed\n')
        same(node.process.poll(), None)
        stop(node.process)
        of_file = lines(room.at('list', 'CT1').stdout)
        same(lines(listed.stdout), [line for line in of_file if line.split('\t')[0] in ('node', 'row')])
        same(summed.stdout, room.at('list', 'CT1', '--summary').stdout)
        # an association that is open is none of the rows
        gate = Asked(room, 'GATE', 0, token=False)
        before = at(room, 'list', 'GATE', gate.at, '--summary', token=None).stdout
        with Requestor(room.ports['GATE'], 'CT1', 'GATE') as caller:
            told(at(room, 'list', 'GATE', gate.at, '--summary', token=None), 0, before.decode(), '')
            same(len(gate.read('/status')), 3)
            caller.release()
        stop(gate.process)


def acts():
    """A held row is queued again, another is given up, all held ones are queued again, and the node ends."""
    with Room() as room:
        hold(room)
        node = Asked(room, 'CT1', 0)
        told(at(room, 'requeue', 'CT1', node.at, '1.2.3.4', 'ARCH'), 1, '', 'dr_router: G5 NotHeld\n')
        told(at(room, 'requeue', 'CT1', node.at, '1.2.3.4', 'GATE'), 0, 'requeued\n', '')
        told(at(room, 'requeue', 'CT1', node.at, '1.2.3.4', 'GATE'), 1, '', 'dr_router: G5 NotHeld\n')
        told(at(room, 'drop', 'CT1', node.at, '1.2.3.4', 'GATE'), 1, '', 'dr_router: G5 NotHeld\n')
        gate = room.serve('GATE', 0)
        waits(room, 'list', 'CT1', node.at, 'node\tCT1\nrow\t1.2.3.4\tGATE\theld\tC0F1\n')
        put_token(room, 'other', text='another token of sixteen bytes\n')
        told(at(room, 'drop', 'CT1', node.at, '1.2.3.4', 'GATE', token='other'), 1, '', 'dr_router: H10 Token\n')
        told(at(room, 'drop', 'CT1', node.at, '1.2.3.4', 'GATE', token=None), 1, '', 'dr_router: H10 Token\n')
        told(at(room, 'drop', 'CT1', node.at, '1.2.3.4', 'GATE', '--reason', 'sent by disc & "by hand"'), 0, 'dropped\n', '')
        said = [event[3] for event in room.events('CT1') if event[2] == 'control']
        assert 'drop dest="GATE" uid=1.2.3.4 reason="sent by disc & \\"by hand\\""' in said, said
        told(at(room, 'list', 'CT1', node.at), 0, 'node\tCT1\nrow\t1.2.3.4\tGATE\tdropped\n', '')
        told(at(room, 'list', 'CT1', node.at, '--summary', '--fail-if-held'), 0, room_summary(node), '')
        told(at(room, 'forget', 'CT1', node.at, '1.2.3'), 1, '', 'dr_router: G7 NotOver\n')
        told(at(room, 'forget', 'CT1', node.at, '1.2.3.4'), 0, 'forgotten\n', '')
        told(at(room, 'forget', 'CT1', node.at, '1.2.3.4'), 1, '', 'dr_router: G7 NotOver\n')
        told(at(room, 'list', 'CT1', node.at), 0, 'node\tCT1\n', '')
        told(at(room, 'visit', 'CT1', node.at, 'GATE'), 0, 'visited\n', '')
        told(at(room, 'visit', 'CT1', node.at, 'ARCH'), 1, '', 'dr_router: H11 NoHop\n')
        told(at(room, 'visit', 'CT1', node.at, 'GATE', token=None), 1, '', 'dr_router: H10 Token\n')
        copy = f'{room.folder}/copy & copy.db'
        told(at(room, 'backup', 'CT1', node.at, copy, token=None), 1, '', 'dr_router: H10 Token\n')
        told(at(room, 'backup', 'CT1', node.at, 'copy.db'), 1, '', 'dr_router: Q4 NoPath\n')
        told(at(room, 'backup', 'CT1', node.at, f'{room.folder}/CT1.db'), 1, '', 'dr_router: Q1 OwnFile\n')
        told(at(room, 'backup', 'CT1', node.at, f'{room.folder}/nowhere/copy.db'), 3, '', 'dr_router: Q7 NoCopy\n')
        told(at(room, 'backup', 'CT1', node.at, copy), 0, 'copied\n', '')
        told(at(room, 'backup', 'CT1', node.at, copy), 1, '', 'dr_router: Q3 IsThere\n')
        same(lines(room.at('list', 'CT1', ledger=copy).stdout)[:1], ['node\tCT1'])
        told(at(room, 'stop', 'CT1', node.at), 0, 'stopped\n', '')
        same(ended(node.process)[:1], ['node\tCT1'])
        stop(gate)


def many():
    """All held rows are queued again; names are escaped in a form; and a list has more than a page."""
    with Room() as room:
        hold(room, b'1.2.3.4', b'1.2.3.5')
        node = Asked(room, 'CT1', 0)
        told(at(room, 'requeue', 'CT1', node.at, '--all-held', 'ARCH'), 0, 'requeued\n', '')
        told(at(room, 'requeue', 'CT1', node.at, '1.2.3.4&dest=GATE', 'ARCH'), 1, '', 'dr_router: G5 NotHeld\n')
        told(at(room, 'drop', 'CT1', node.at, '1.2.3.4', 'G ATE+%&=\u00e9'), 1, '', 'dr_router: G5 NotHeld\n')
        told(at(room, 'list', 'CT1', node.at), 0, 'node\tCT1\nrow\t1.2.3.4\tGATE\theld\tC0F1\nrow\t1.2.3.5\tGATE\theld\tC0F1\n', '')
        told(at(room, 'requeue', 'CT1', node.at, '--all-held', 'GATE'), 0, 'requeued\n', '')
        listed = lines(at(room, 'list', 'CT1', node.at).stdout)
        same([line.split('\t')[:4] for line in listed[1:]], [['row', uid, 'GATE', 'waiting'] for uid in ('1.2.3.4', '1.2.3.5')])
        same(sorted((row['uid'], row['state']) for row in node.read('/rows?dest=GATE')), [('1.2.3.4', 'waiting'), ('1.2.3.5', 'waiting')])
        told(at(room, 'stop', 'CT1', node.at), 0, 'stopped\n', '')
        same(ended(node.process)[:1], ['node\tCT1'])
    # a node of 2,500 rows tells them in pages of 1,000
    with Room() as room:
        put_token(room, 'token')
        uids = [f'1.2.{number:04}' for number in range(2500)]
        first = json.dumps(NODE) + '\n'

        def page(link, request):
            target = request.split(b' ')[1].decode()
            if target == '/status':
                return link.sendall(whole(first))
            behind = urllib.parse.parse_qs(target.partition('?')[2], keep_blank_values=True)['after'][0]
            rows = [uid for uid in uids if uid > behind][:1000]
            return link.sendall(whole(''.join(json.dumps({'uid': uid, 'dest': 'GATE', 'state': 'done'}) + '\n' for uid in rows)))
        fake = Fake(page)
        told(at(room, 'list', 'CT1', fake.at, token=None), 0, 'node\tCT1\n' + ''.join(f'row\t{uid}\tGATE\tdone\n' for uid in uids), '')
        same(len(fake.heard), 5)
        fake.close()


def room_summary(node):
    """What `list --summary` prints of a node, by its status."""
    first, *hops = node.read('/status')
    text = f'node\t{first["node"]}\narrivals\t{first["arrivals"]}\nkept\t{first["kept"]}\n'
    for hop in hops:
        text += f'queue\t{hop["dest"]}\twaiting\t{hop["waiting"]}\theld\t{hop["held"]}\tdone\t{hop["done"]}\toldest\t{hop.get("due", "-")}\n'
    return text + f'lines\t{first["lines"]}\n'


def refusals():
    """Another node, no node, a token that others may read, and words that are none."""
    with Room() as room:
        node = Asked(room, 'CT1', 0)
        for word, more in ('list', ()), ('list', ('--summary',)), ('stop', ()), ('requeue', ('1.2', 'ARCH')), ('drop', ('1.2', 'ARCH')):
            told(at(room, word, 'GATE', node.at, *more), 1, '', 'dr_router: H4 OtherNode\n')
        told(at(room, 'stop', 'NONE', node.at), 1, '', 'dr_router: NoNode\n')
        # the same nodes by another plan: a comment more
        room.put_plan(room.text('plan') + '# another plan\n', plan=('next', 'next certificate'))
        for word in 'list', 'stop':
            told(room.run(word, 'next', 'next certificate', 'CT1', '--at', node.at, '--token', 'token'), 1, '', 'dr_router: H5 OtherPlan\n')
        nobody = f'127.0.0.1:{free_port()}'
        told(at(room, 'stop', 'CT1', nobody), 3, '', 'dr_router: H1 NoConnection\n')
        told(at(room, 'list', 'CT1', nobody), 3, '', 'dr_router: H1 NoConnection\n')
        put_token(room, 'open', mode=0o640)
        told(at(room, 'stop', 'CT1', node.at, token='open'), 3, '', 'dr_router: open: permission denied\n')
        for words in (('stop', *PLAN, 'CT1'), ('stop', *PLAN, 'CT1', 'CT1.db'), ('list', *PLAN, 'CT1', 'CT1.db', '--at', node.at),
                      ('drop', *PLAN, 'CT1', '--at', node.at, '1.2'), ('send', *PLAN, 'CT1', '--at', node.at, 'image.dcm')):
            same((words, room.run(*words).returncode), (words, 2))
        same(node.process.poll(), None)
        stop(node.process)


class Fake:
    """What listens as a node might, and answers each request by a function of it."""

    def __init__(self, answer):
        self.answer, self.heard = answer, []
        self.listener = socket.create_server(('127.0.0.1', 0))
        self.at = f'127.0.0.1:{self.listener.getsockname()[1]}'
        self.thread = threading.Thread(target=self.serve, daemon=True)
        self.thread.start()

    def serve(self):
        # the thread alone closes its listener: another one would get the number of a file that is closed under an accept, and this
        # thread would answer for it
        with self.listener:
            while True:
                try:
                    link, _ = self.listener.accept()
                except OSError:
                    return
                with link:
                    self.hear(link)

    def hear(self, link):
        request = b''
        while b'\r\n\r\n' not in request:
            piece = link.recv(65536)
            if not piece:
                break
            request += piece
        self.heard.append(request)
        try:
            self.answer(link, request)
        except (BrokenPipeError, ConnectionResetError):
            pass

    def close(self):
        self.listener.shutdown(socket.SHUT_RDWR)


def whole(text, status=200):
    return f'HTTP/1.1 {status} X\r\nContent-Length: {len(text)}\r\n\r\n{text}'.encode()


def endless(front, piece):
    def answer(link, _):
        link.sendall(front)
        while True:
            link.sendall(piece)
    return answer


def slowly(link, _):
    for byte in whole(json.dumps(NODE)):
        link.sendall(bytes([byte]))
        time.sleep(0.5)


def silently(link, _):
    time.sleep(30)


def hostile():
    """Answers of what is no node: the word ends by a named fault in bounded time and memory, and nothing is told."""
    with Room() as room:
        put_token(room, 'token')
        node = json.dumps(NODE) + '\n'
        other = json.dumps({**NODE, 'node': 'GATE'}) + '\n'
        plan = json.dumps({**NODE, 'plan': 64 * '0'}) + '\n'
        cases = [
            ('an endless head', endless(b'HTTP/1.1 200 OK\r\nX: ', 65536 * b'x'), 3, 'H3 NoNodesAnswer'),
            ('endless fields', endless(b'HTTP/1.1 200 OK\r\n', b'X: y\r\n' * 1000), 3, 'H3 NoNodesAnswer'),
            ('an endless body', endless(b'HTTP/1.1 200 OK\r\n\r\n', 65536 * b'x'), 3, 'H3 NoNodesAnswer'),
            ('endless chunks', endless(b'HTTP/1.1 200 OK\r\nTransfer-Encoding: chunked\r\n\r\n', b'1\r\nx\r\n' * 1000), 3, 'H3 NoNodesAnswer'),
            ('no HTTP', lambda link, _: link.sendall(b'220 mail.example\r\n'), 3, 'H3 NoNodesAnswer'),
            ('nothing', lambda link, _: None, 3, 'H2 NoAnswer'),
            ('a cut body', lambda link, _: link.sendall(whole(node)[:-5]), 3, 'H2 NoAnswer'),
            ('no JSON', lambda link, _: link.sendall(whole('<html>')), 3, 'H3 NoNodesAnswer'),
            ('deep JSON', lambda link, _: link.sendall(whole(100_000 * '[')), 3, 'H3 NoNodesAnswer'),
            ('other JSON', lambda link, _: link.sendall(whole('[1]')), 3, 'H3 NoNodesAnswer'),
            ('a number for a name', lambda link, _: link.sendall(whole('{"node":1}')), 3, 'H3 NoNodesAnswer'),
            ('another node', lambda link, _: link.sendall(whole(other)), 1, 'H4 OtherNode'),
            ('another plan', lambda link, _: link.sendall(whole(plan)), 1, 'H5 OtherPlan'),
            ('a refusal', lambda link, _: link.sendall(whole('{"fault":"Host"}\n', 421)), 1, 'H7 Host'),
            ('another refusal', lambda link, _: link.sendall(whole('{"fault":"Magic"}\n', 418)), 3, 'H3 NoNodesAnswer'),
            ('slow bytes', slowly, 3, 'H2 NoAnswer'),
            ('silence', silently, 3, 'H2 NoAnswer'),
        ]
        for name, answer, status, fault in cases:
            fake = Fake(answer)
            begun = time.monotonic()
            got = at(room, 'stop', 'CT1', fake.at)
            took = time.monotonic() - begun
            same((name, got.returncode, got.stdout.decode(), got.stderr.decode()), (name, status, '', f'dr_router: {fault}\n'))
            assert took < 20, (name, took)
            same((name, [request.split(b' ')[0] for request in fake.heard]), (name, [b'GET']))
            fake.close()
        # pages without an end, and one row again and again
        row = json.dumps({'uid': '1.2', 'dest': 'GATE', 'state': 'done'}) + '\n'
        fake = Fake(lambda link, request: link.sendall(whole(node if b'/status' in request else row * 1000)))
        got = at(room, 'list', 'CT1', fake.at, token=None)
        same((got.returncode, got.stdout, got.stderr), (3, b'', b'dr_router: H3 NoNodesAnswer\n'))
        assert all(request.startswith(b'GET ') for request in fake.heard)
        fake.close()
        # an act whose answer says nothing that is known
        fake = Fake(lambda link, request: link.sendall(whole(node if request.startswith(b'GET') else '{"done":1}\n')))
        told(at(room, 'stop', 'CT1', fake.at), 3, '', 'dr_router: H3 NoNodesAnswer\n')
        same([request.split(b' ')[0] for request in fake.heard], [b'GET', b'POST'])
        assert f'Authorization: Bearer {TOKEN}'.lower().encode() in fake.heard[1].lower()
        fake.close()
        most = resource.getrusage(resource.RUSAGE_CHILDREN).ru_maxrss
        assert most < 700_000, most


def main():
    if not os.path.exists(PROGRAM):
        sys.exit(f'{PROGRAM} is not built')
    run_cases('at', reads, acts, many, refusals, hostile)


if __name__ == '__main__':
    main()
