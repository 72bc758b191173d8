#!/usr/bin/env python3
"""Asks running nodes what they have over their control connection, and tells them to act: by the built program, on
loopback. Who may, what is answered, and that nothing else acts; then requests that are no requests, slow ones, and many
at a time, while a peer stores.

    tests/control.py
    tests/control.py --more    20,000 malformed requests while two peers store, and by how much their rate falls, which
                               ./test leaves out
"""
import base64
import contextlib
import hashlib
import http.client
import json
import os
import random
import re
import socket
import sqlite3
import subprocess
import sys
import threading
import time
import types
import urllib.parse

sys.dont_write_bytecode = True
from lib.nodes import CT, LIMIT, PLAN, PROGRAM, TOP, Room, data_set, element, ended, free_port, lines, part10, run_cases, same, stop, told
from lib.requestor import Requestor

TOKEN = 'a token of more than sixteen bytes'
GOOD = 'GET /health HTTP/1.1\r\nHost: {}\r\n\r\n'
DONE, NOT_HELD = (200, '{"done":true}\n'), (409, '{"fault":"G5 NotHeld"}\n')


class Asked:
    """A node that may be asked at an address of its own."""

    def __init__(self, room, node, links, *more, token=True, **settings):
        self.port = free_port()
        self.at = f'127.0.0.1:{self.port}'
        words = ['--control', self.at, *more]
        if token:
            put_token(room, 'token')
            words += ['--control-token', 'token']
        self.process = room.serve(node, links, *words, **settings)

    def whole(self, method, path, form=None, **fields):
        """An answer with its fields, and its text."""
        link = http.client.HTTPConnection('127.0.0.1', self.port, timeout=LIMIT)
        head = {'Host': self.at, **{name.replace('_', '-'): value for name, value in fields.items()}}
        link.request(method, path, body=None if form is None else urllib.parse.urlencode(form), headers=head)
        came = link.getresponse()
        text = came.read().decode('ascii')
        link.close()
        return came, text

    def ask(self, method, path, form=None, **fields):
        """The status and the text of an answer."""
        came, text = self.whole(method, path, form, **fields)
        return came.status, text

    def key(self):
        """The key of the forms of the page."""
        return re.search('name="key" value="([0-9a-f]{32})"', self.ask('GET', '/')[1])[1]

    def wait(self, path, enough):
        """What a path answers as soon as that is enough."""
        end = time.monotonic() + LIMIT
        while not enough(came := self.read(path)):
            assert time.monotonic() < end, came
            time.sleep(0.05)
        return came

    def read(self, path):
        status, text = self.ask('GET', path)
        same(status, 200)
        return [json.loads(line) for line in text.splitlines()]

    def act(self, path, token=TOKEN, **form):
        return self.ask('POST', path, form, Authorization=f'Bearer {token}')

    def raw(self, data, wait=LIMIT):
        """What comes until the other side closes; nothing where it is reset."""
        with socket.create_connection(('127.0.0.1', self.port), timeout=wait) as link:
            try:
                link.sendall(data)
                link.shutdown(socket.SHUT_WR)
                got = b''
                while piece := link.recv(65536):
                    got += piece
                return got
            except (ConnectionResetError, BrokenPipeError):
                return b''


def put_token(room, name, text=TOKEN + '\n', mode=0o600):
    room.put(name, text.encode())
    os.chmod(f'{room.folder}/{name}', mode)


def hold(room, *uids):
    """CT1 gets rows to GATE that are held: GATE has other bytes under those UIDs."""
    uids = uids or (b'1.2.3.4',)
    gate = room.serve('GATE', 2 * len(uids))
    for uid in uids:
        room.put('image.dcm', part10(uid))
        room.put('other.dcm', part10(uid, element(0x10, 0x10, b'PN', b'Other')))
        same(room.at('send', 'CT1', 'image.dcm', ledger='first.db').returncode, 0)
        assert f'row\t{uid.decode()}\tGATE\theld\tC0F1' in lines(room.at('send', 'CT1', 'other.dcm').stdout)
    ended(gate)


def basic(name=b'operator', token=TOKEN):
    """What a browser gives that was told a name and the token (RFC 7617 2)."""
    return 'Basic ' + base64.b64encode(name + b':' + token.encode()).decode()


def reads():
    """What a node has, as lines of JSON and as figures, without a token on loopback."""
    with Room() as room:
        hold(room)
        node = Asked(room, 'CT1', 0, token=False)
        status = node.read('/status')
        since = status[0].pop('since')
        assert abs(time.time() * 1000 - since) < 60_000, since
        with open(f'{room.folder}/{PLAN[0]}', 'rb') as file:
            same(status[0].pop('plan'), hashlib.sha256(file.read()).hexdigest())
        version = subprocess.run([f'{TOP}/tools/version.py'], stdout=subprocess.PIPE, check=True, text=True).stdout
        same(status[0].pop('version'), version.strip())
        same(status, [{'node': 'CT1', 'arrivals': 1, 'kept': 0, 'lines': 2, 'failures': 0}, {'dest': 'GATE', 'waiting': 0, 'held': 1, 'done': 0}])
        row = {'uid': '1.2.3.4', 'dest': 'GATE', 'state': 'held', 'cause': 'C0F1'}
        same(node.read('/rows?dest=GATE'), [row])
        same(node.read('/rows?state=held&dest=GATE&after=1.2.3'), [row])
        same(node.read('/rows?dest=GATE&after=1.2.3.4'), [])
        same(node.read('/rows?dest=GATE&state=waiting'), [])
        same(node.read('/rows?dest=ARCH'), [])
        same(node.ask('GET', '/rows'), (400, '{"fault":"Field"}\n'))
        same(node.ask('GET', '/rows?dest=GATE&state=lost'), (400, '{"fault":"Field"}\n'))
        for limit in ('', '0', '1001', '-1', '+5', '007', '5.0', 'many', '%2B1', '99999999999999999999'):
            same(node.ask('GET', f'/rows?dest=GATE&limit={limit}'), (400, '{"fault":"Field"}\n'))
        same(node.read('/health'), [{'well': True}])
        code, figures = node.ask('GET', '/metrics')
        same(code, 200)
        locked = re.findall(r'^dr_router_lock_[a-z_]+ .*$', figures, re.M)
        assert [bool(re.fullmatch(form, line)) for form, line in zip(
            ('dr_router_lock_calls_total [1-9][0-9]*', r'dr_router_lock_seconds_total [0-9]+\.[0-9]{6}',
             r'dr_router_lock_longest_seconds [0-9]+\.[0-9]{6}'), locked, strict=True)] == 3 * [True], locked
        same([line for line in figures.splitlines() if not line.startswith('#')],
             ['dr_router_arrivals 1', 'dr_router_kept 0', 'dr_router_journal_lines 2', 'dr_router_store_failures 0',
              'dr_router_rows{dest="GATE",state="waiting"} 0', 'dr_router_rows{dest="GATE",state="held"} 1', 'dr_router_rows{dest="GATE",state="done"} 0',
              'dr_router_oldest_waiting_seconds{dest="GATE"} 0',
              *(f'dr_router_visits_total{{dest="GATE",came="{came}"}} 0' for came in ('released', 'rejected', 'aborted', 'closed', 'unreached', 'failed')),
              'dr_router_associations 0', *locked])
        names = re.findall('^# TYPE ([a-z_]+) (?:gauge|counter)$', figures, re.M)
        same(sorted(set(names)), sorted(names))
        same({re.match('[a-z_]+', line)[0] for line in figures.splitlines() if line[0] != '#'} - set(names), set())
        stop(node.process)


def line_told(ledger, row):
    """The line of a row of a ledger's journal, as a node tells it."""
    n, kind, caller, uid, dest, outcome, moment, *key, length, digest = row
    kinds = 'arrival', 'repeat', 'settling', 'requeuing', 'adoption', 'forgetting', 'dropping'
    line = {'line': n, 'kind': kinds[kind]}
    if kind in (0, 1):
        uids = {'I': '1.2.840.10008.1.2', 'E': '1.2.840.10008.1.2.1'}
        of, syntax, modality, station = key
        line |= {'caller': caller, 'uid': uid, 'class': of, 'syntax': uids[syntax], 'modality': modality.decode('latin-1'),
                 'station': station.decode('latin-1'), 'length': length, 'sha256': digest.hex()}
    if kind == 0:
        goals = [dest for dest, in ledger.execute('SELECT dest FROM target WHERE n = ? ORDER BY dest', (n,))]
        line |= {'to': [dest for dest in goals if dest != '-'], 'keep': '-' in goals}
    if kind in (2, 3, 6):
        line |= {'uid': uid, 'dest': dest}
    if kind == 2:
        line |= {'outcome': 'broken' if outcome is None else f'{outcome:04X}' if outcome >= 0 else {-1: 'no-context', -2: 'unreadable'}[outcome]}
    if kind in (2, 6):
        line |= {'moment': moment}
    return line | ({'uid': uid} if kind == 5 else {})


def journal_in(room, node):
    """The journal in a node's file, as the node tells it."""
    with sqlite3.connect(f'{room.folder}/{node}.db') as ledger:
        rows = ledger.execute('SELECT n, kind, caller, uid, dest, outcome, moment, class, syntax, modality, station, length, sha256 FROM journal ORDER BY n').fetchall()
        told_lines = [line_told(ledger, row) for row in rows]
    ledger.close()
    return told_lines


def wait_until_tried(node, tries=1):
    """Waits until the row to GATE, which isn't there, was tried so often: its next try is a second later, then two, then four."""
    end = time.monotonic() + LIMIT
    while not (rows := node.read('/rows?dest=GATE&state=waiting')) or rows[0]['tries'] < tries:
        assert time.monotonic() < end, rows
        time.sleep(0.05)


def journal():
    """The journal in pages, each line with its number, behind a line that tells whose it is and how many lines there are."""
    with Room() as room:
        hold(room, b'1.2.3.4', b'1.2.3.5')
        node = Asked(room, 'CT1', 0)
        same(node.act('/drop', uid='1.2.3.4', dest='GATE'), DONE)
        same(node.act('/requeue', uid='1.2.3.5', dest='GATE'), DONE)
        # each try is a line: the next one is four seconds later
        wait_until_tried(node, 3)
        head, *whole = node.read('/journal')
        status = node.read('/status')[0]
        same(head, {name: status[name] for name in ('node', 'plan', 'lines')})
        count = head['lines']
        same([line['line'] for line in whole], list(range(1, count + 1)))
        for limit in 1, 2, count - 1, count, count + 1, 1_000:
            read = []
            while len(read) < count:
                read += node.read(f'/journal?after={len(read)}&limit={limit}')[1:][:limit]
            same(read, whole)
        same(node.read('/journal?after=1&limit=2'), [head, *whole[1:3]])
        for after in count, count + 1, 2 ** 63 - 1, 2 ** 63, 2 ** 64 - 1:
            same(node.read(f'/journal?after={after}'), [head])
        for form in 'limit=0', 'limit=1001', 'limit=', 'limit=01', 'after=', 'after=-1', 'after=01', 'after=x', f'after={2 ** 64}', 'after=1%00':
            same((form, node.ask('GET', f'/journal?{form}')), (form, (400, '{"fault":"Field"}\n')))
        same(node.ask('POST', '/journal', {}), (405, '{"fault":"Method"}\n'))
        same(node.ask('GET', '/journal/'), (404, '{"fault":"Path"}\n'))
        stop(node.process)
        same(journal_in(room, 'CT1')[:count], whole)
        same([line['kind'] for line in whole if line['uid'] == '1.2.3.4'][-1], 'dropping')
        guarded = Asked(room, 'CT1', 0, '--control-anyone')
        same(guarded.ask('GET', '/journal'), (401, '{"fault":"Token"}\n'))
        same(guarded.ask('GET', '/journal', Authorization=f'Bearer {TOKEN}')[0], 200)
        stop(guarded.process)


def page():
    """The page for people: its light, its figures, rows that are held, and a UID that would be markup."""
    with Room() as room:
        node = Asked(room, 'CT1', 0, token=False)
        status, text = node.ask('GET', '/')
        same(status, 200)
        assert text.startswith('<!DOCTYPE html>\n') and text.endswith('</table>\n</body>\n</html>\n'), text
        assert '<h1 class="green">Nothing is held, and nothing waits</h1>' in text, text
        assert '<tr><td>GATE</td><td>0</td><td>-</td><td>0</td><td>0</td><td>-</td><td>-</td><td></td></tr>' in text, text
        stop(node.process)
        hold(room)
        node = Asked(room, 'CT1', 0, token=False)
        link = http.client.HTTPConnection('127.0.0.1', node.port, timeout=LIMIT)
        link.request('GET', '/', headers={'Host': node.at})
        came = link.getresponse()
        text = came.read().decode('ascii')
        link.close()
        same([came.getheader(name) for name in ('content-type', 'x-content-type-options')], ['text/html; charset=utf-8', 'nosniff'])
        assert '<h1 class="red">Rows are held</h1>' in text, text
        assert '<tr><td>GATE</td><td>0</td><td>-</td><td>1</td><td>0</td><td>-</td><td>-</td><td></td></tr>' in text, text
        assert '<tr><td>1.2.3.4</td><td>GATE</td><td>status C0F1</td><td></td></tr>' in text, text
        # without a token nothing can be acted, so there are no buttons
        for none in '<script', '<form', 'http://', 'https://', 'src=', 'href=':
            assert none not in text, none
        same(node.ask('POST', '/')[0], 405)
        same(node.ask('GET', '/', Host='evil.example')[0], 421)
        stop(node.process)


def acts():
    """A held row is queued again and sent at once; another is given up; the receipts agree with the journal when the node is told to stop."""
    with Room() as room:
        hold(room)
        node = Asked(room, 'CT1', 0)
        same(node.act('/requeue', uid='1.2.3.4', dest='ARCH'), (409, '{"fault":"G5 NotHeld"}\n'))
        same(node.act('/requeue', uid='1.2.3.4'), (400, '{"fault":"Field"}\n'))
        # GATE isn't there any more, so that the row waits
        same(node.act('/requeue', uid='1.2.3.4', dest='GATE'), (200, '{"done":true}\n'))
        wait_until_tried(node)
        text = node.ask('GET', '/')[1]
        assert '<h1 class="amber">Rows wait</h1>' in text, text
        assert re.search('<tr><td>GATE</td><td>1</td><td>[0-9]+ s</td><td>0</td><td>0</td>', text), text
        same(node.act('/requeue', uid='1.2.3.4', dest='GATE'), (409, '{"fault":"G5 NotHeld"}\n'))
        same(node.act('/drop', uid='1.2.3.4', dest='GATE'), (409, '{"fault":"G5 NotHeld"}\n'))
        # GATE is there again, and refuses it again: each process is another one
        gate = room.serve('GATE', 0)
        end = time.monotonic() + LIMIT
        while not node.read('/rows?dest=GATE&state=held'):
            assert time.monotonic() < end
            time.sleep(0.05)
        same(node.act('/drop', uid='1.2.3.4', dest='GATE'), (200, '{"done":true}\n'))
        same(node.read('/rows?dest=GATE'), [{'uid': '1.2.3.4', 'dest': 'GATE', 'state': 'dropped'}])
        same(node.act('/stop'), (200, '{"done":true}\n'))
        got = ended(node.process)
        same(got[:2], ['node\tCT1', 'row\t1.2.3.4\tGATE\tdropped'])
        stop(gate)
        same(lines(room.at('list', 'CT1').stdout), got)
        said = [event[3] for event in room.events('CT1') if event[2] == 'control']
        same(said, ['requeue dest="ARCH" uid=1.2.3.4 fault="G5 NotHeld"', 'requeue dest="GATE" uid=1.2.3.4', 'requeue dest="GATE" uid=1.2.3.4 fault="G5 NotHeld"',
                    'drop dest="GATE" uid=1.2.3.4 fault="G5 NotHeld"', 'drop dest="GATE" uid=1.2.3.4', 'stop'])


def dropped():
    """What somebody gives up at a node that runs is forgotten when its time has come, and not at the next start alone."""
    with Room() as room:
        hold(room)
        node = Asked(room, 'CT1', 0, '--forget-after', '0')
        time.sleep(2.5)
        same([row['state'] for row in node.read('/rows?dest=GATE')], ['held'])
        same(node.act('/drop', uid='1.2.3.4', dest='GATE'), (200, '{"done":true}\n'))
        node.wait('/rows?dest=GATE', lambda rows: not rows)
        room.wait_for_event('CT1', 'forgets instances=1')
        same(node.act('/stop'), (200, '{"done":true}\n'))
        same(ended(node.process)[0], 'node\tCT1')


def without_origin(shown):
    """What is shown of an instance, without its class, which is CT, and without the moment when it came, which was just now."""
    same(shown[0].pop('class'), CT.decode())
    came = shown[0].pop('came')
    assert abs(time.time() * 1000 - came) < 60_000, came
    return shown


def ages():
    """For how long the oldest row to a node has waited: from when its instance came, over an end of the node too, and from the start where
    nobody noted when it came. It waits while GATE isn't there, and no more when GATE took it."""
    with Room() as room:
        room.put('image.dcm', part10(b'1.2.3.4'))
        same(room.at('send', 'CT1', 'image.dcm').returncode, 0)
        node = Asked(room, 'CT1', 0, token=False)
        came = node.read('/instance/1.2.3.4')[0]['came']
        assert 0 <= time.time() * 1000 - came < 60_000, came
        time.sleep(max(0, came / 1000 + 2.5 - time.time()))
        waited = node.read('/status')[1]['waited']
        assert 0 <= time.time() - came / 1000 - waited < 2, waited
        figures = node.ask('GET', '/metrics')[1]
        assert int(re.search('^dr_router_oldest_waiting_seconds{dest="GATE"} ([0-9]+)$', figures, re.M)[1]) >= waited, figures
        stop(node.process)
        with contextlib.closing(sqlite3.connect(f'{room.folder}/CT1.db')) as file:
            same(file.execute('SELECT moment FROM journal WHERE n = 1').fetchall(), [(came,)])
            file.execute('UPDATE journal SET moment = NULL WHERE kind < 2')
            file.commit()
        begun = time.time()
        node = Asked(room, 'CT1', 0, token=False)
        same(node.read('/instance/1.2.3.4')[0], {'instance': '1.2.3.4', 'body': True, 'over': False, 'class': CT.decode()})
        assert node.read('/status')[1]['waited'] <= time.time() - begun + 1
        gate = room.serve('GATE', 0)
        node.wait('/status', lambda lines: lines[1]['done'] == 1)
        assert 'waited' not in node.read('/status')[1]
        stop(node.process)
        stop(gate)


def orders():
    """All held rows of a node are queued again; an instance is looked at, dropped with a reason, and forgotten."""
    with Room() as room:
        uids = [b'1.2.3.%d' % number for number in range(5)]
        hold(room, *uids)
        node = Asked(room, 'CT1', 0)
        row = {'uid': '1.2.3.0', 'dest': 'GATE', 'state': 'held', 'cause': 'C0F1'}
        whole = [{'instance': '1.2.3.0', 'body': True, 'over': False}, {'from': '-'}, row]
        same(without_origin(node.read('/instance/1.2.3.0')), whole)
        same(without_origin(node.read('/instance/1%2E2.3.0')), whole)
        for unknown in '1.2.3', '', '1.2.3.0/', '%00%ff%22%0a':
            same(node.ask('GET', f'/instance/{unknown}'), (404, '{"fault":"Instance"}\n'))
        same(node.ask('GET', '/instance'), (404, '{"fault":"Path"}\n'))
        same(node.ask('POST', '/instance/1.2.3.0')[0], 405)
        same(node.act('/forget', uid='1.2.3.0'), (409, '{"fault":"G7 NotOver"}\n'))
        same(node.act('/forget'), (400, '{"fault":"Field"}\n'))
        same(node.act('/visit', dest='ARCH'), (404, '{"fault":"Hop"}\n'))
        same(node.act('/visit'), (400, '{"fault":"Field"}\n'))
        same(node.act('/requeue', dest='ARCH'), DONE)
        same(len(node.read('/rows?dest=GATE&state=held')), 5)
        # GATE isn't there, so that the rows wait
        same(node.act('/requeue', dest='GATE'), DONE)
        same([row['uid'] for row in node.read('/rows?dest=GATE&state=waiting')], [uid.decode() for uid in uids])
        # a page of as many rows as are asked for
        for more, first, last in ('', 0, 5), ('&limit=1000', 0, 5), ('&limit=5', 0, 5), ('&limit=2', 0, 2), ('&limit=2&after=1.2.3.1', 2, 4), ('&limit=2&after=1.2.3.3', 4, 5):
            same([row['uid'] for row in node.read(f'/rows?dest=GATE{more}')], [uid.decode() for uid in uids[first:last]])
        hop = node.wait('/status', lambda lines: 'came' in lines[1])[1]
        # a row that waits says when it was tried last
        row = node.wait('/instance/1.2.3.4', lambda lines: 'tried' in lines[-1])[-1]
        same((row['state'], row['due'] - row['tried']), ('waiting', 1000 * min(300, 2 ** (row['tries'] - 1))))
        assert abs(time.time() * 1000 - row['tried']) < 60_000, row
        same((hop['dest'], hop['waiting'], hop['held'], hop['came']), ('GATE', 5, 0, 'unreached'))
        assert abs(time.time() * 1000 - hop['visited']) < 60_000, hop
        text = node.ask('GET', '/')[1]
        assert re.search('<td>unreached, [0-9]+ s ago</td><td><form', text), text
        # GATE is there again, and refuses them again
        gate = room.serve('GATE', 0)
        same(node.act('/visit', dest='GATE'), DONE)
        node.wait('/rows?dest=GATE&state=held', lambda rows: len(rows) == 5)
        node.wait('/status', lambda lines: lines[1].get('came') == 'released')
        figures = node.ask('GET', '/metrics')[1]
        assert re.search('^dr_router_visits_total{dest="GATE",came="released"} [1-9]', figures, re.M), figures
        assert re.search('^dr_router_visits_total{dest="GATE",came="unreached"} [1-9]', figures, re.M), figures
        same(node.act('/drop', uid='1.2.3.0', dest='GATE', reason='twice\n"by hand"' + 200 * 'x'), DONE)
        # who brings what was given up brings it anew, so nobody is noted for it
        shown = [{'instance': '1.2.3.0', 'body': False, 'over': True}, {'uid': '1.2.3.0', 'dest': 'GATE', 'state': 'dropped'}]
        same(without_origin(node.read('/instance/1.2.3.0')), shown)
        same(node.act('/forget', uid='1.2.3.0'), DONE)
        same(node.ask('GET', '/instance/1.2.3.0'), (404, '{"fault":"Instance"}\n'))
        same(node.act('/stop'), DONE)
        ended(node.process)
        stop(gate)
        said = [event[3] for event in room.events('CT1') if event[2] == 'control' and not event[3].startswith('refused ')]
        shown = r'twice\n\"by hand\"' + 113 * 'x' + r'\..'
        same(said, ['forget uid=1.2.3.0 fault="G7 NotOver"', 'requeue dest="ARCH"', 'requeue dest="GATE"', 'visit dest="GATE"',
                    f'drop dest="GATE" uid=1.2.3.0 reason="{shown}"', 'forget uid=1.2.3.0', 'stop'])


def hurried():
    """A node that is left alone for long is visited at once where somebody wants that."""
    with Room() as room:
        node = Asked(room, 'GATE', 0)
        with Requestor(room.ports['GATE'], 'CT1', 'GATE') as link:
            for number in range(12):
                uid = f'1.2.3.{number}'.encode()
                same(link.store(uid, data_set(uid)), 0)
        def visits():
            return [event for event in room.events('GATE') if event[2] == 'visit']
        end = time.monotonic() + LIMIT
        while len(visits()) < 4:
            assert time.monotonic() < end
            time.sleep(0.05)
        # it rests for 4 s at least now, and for 5 s at most where rows were made meanwhile
        begun, count = time.monotonic(), len(visits())
        same(node.act('/visit', dest='ARCH'), DONE)
        while len(visits()) == count:
            assert time.monotonic() - begun < 3.5, visits()
            time.sleep(0.05)
        same(node.read('/health'), [{'well': True}])
        stop(node.process)


def forms():
    """A browser acts by the forms of the page, with the token: not without it, not by another page, and not by the page of another run."""
    with Room() as room:
        hold(room, b'1.2.3.4', b'1.2.3.5')
        node = Asked(room, 'CT1', 0, '--control-host', 'node.example')
        text = node.ask('GET', '/')[1]
        key = node.key()
        row = {'key': key, 'uid': '1.2.3.4', 'dest': 'GATE'}
        hidden = ''.join(f'<input type="hidden" name="{name}" value="{value}">' for name, value in row.items())
        for act, label in ('/requeue', 'Queue again'), ('/drop', 'Drop for good'):
            assert f'<form method="post" action="{act}">{hidden}<button>{label}</button></form>' in text, text
        hop = {'key': key, 'dest': 'GATE'}
        hidden = ''.join(f'<input type="hidden" name="{name}" value="{value}">' for name, value in hop.items())
        for act, label in ('/visit', 'Visit now'), ('/requeue', 'Queue all held again'):
            assert f'<form method="post" action="{act}">{hidden}<button>{label}</button></form>' in text, text
        own = f'http://{node.at}'
        came, told_so = node.whole('POST', '/drop', row, Origin=own)
        same((came.status, came.getheader('www-authenticate'), told_so), (401, 'Basic realm="dr_router"', '{"fault":"Token"}\n'))
        for given in basic(b'root'), basic(b''), basic(token=TOKEN[:-1]), basic(token=TOKEN + 'x'), basic()[:-1], basic().lower(), basic()[6:]:
            same(node.ask('POST', '/drop', row, Origin=own, Authorization=given)[0], 401)
        # a form of another page, which the browser sends with the token
        for other in 'http://evil.example', 'null', f'http://{node.at}.evil.example', f'http://127.0.0.1:{node.port + 1}', f'ftp://{node.at}', node.at, '':
            same(node.ask('POST', '/drop', row, Origin=other, Authorization=basic()), (403, '{"fault":"Origin"}\n'))
            same(node.ask('POST', '/drop', row, Origin=other, Authorization=f'Bearer {TOKEN}'), (403, '{"fault":"Origin"}\n'))
        for wrong in None, '', key[:-1], key + '0', key[::-1]:
            form = {name: value for name, value in {**row, 'key': wrong}.items() if value is not None}
            same(node.ask('POST', '/drop', form, Origin=own, Authorization=basic()), (403, '{"fault":"Key"}\n'))
            same(node.ask('POST', '/stop', form, Origin=own, Authorization=basic()), (403, '{"fault":"Key"}\n'))
        same(len(node.read('/rows?dest=GATE&state=held')), 2)
        came, told_so = node.whole('POST', '/drop', row, Origin=own, Authorization=basic())
        same((came.status, told_so), DONE)
        same([came.getheader(name) for name in ('content-type', 'refresh')], ['text/plain; charset=utf-8', '2; url=/'])
        same(node.ask('POST', '/drop', row, Origin='https://node.example', Authorization=basic()), NOT_HELD)
        same(node.ask('POST', '/visit', hop, Authorization=basic()), DONE)
        same(node.ask('POST', '/requeue', {**hop, 'key': '0'}, Authorization=basic()), (403, '{"fault":"Key"}\n'))
        same(len(node.read('/rows?dest=GATE&state=held')), 1)
        same(node.ask('POST', '/requeue', hop, Authorization=basic()), DONE)
        same(node.read('/rows?dest=GATE&state=held'), [])
        stop(node.process)
        again = Asked(room, 'CT1', 0)
        same(again.ask('POST', '/requeue', row, Authorization=basic()), (403, '{"fault":"Key"}\n'))
        stop(again.process)


def associations():
    """The associations that are open, with what came over each: in lines, in figures and on the page."""
    with Room() as room:
        node = Asked(room, 'GATE', 0, token=False)

        def opened():
            return [line for line in node.read('/status') if 'session' in line]
        same(len(node.read('/status')), 2)
        with Requestor(room.ports['GATE'], 'CT1', 'GATE') as first:
            same(first.store(b'1.2.3.4', data_set(b'1.2.3.4')), 0)
            same(first.store(b'1.2.3.4', data_set(b'1.2.3.4')), 0)
            same(first.store(b'1.2.3.4', data_set(b'1.2.3.4', element(0x10, 0x10, b'PN', b'Other'))), 0xC0F1)
            same(first.store(b'1.2.3.5', data_set(b'1.2.3.5')), 0)
            one = opened()[0]
            assert abs(time.time() * 1000 - one.pop('since')) < 60_000, one
            assert re.fullmatch('127.0.0.1:[0-9]+', one.pop('address')), one
            same(one, {'caller': 'CT1', 'session': 1, 'stored': 2, 'again': 1, 'refused': 1})
            with Requestor(room.ports['GATE'], 'CT1', 'GATE'):
                same([line['session'] for line in opened()], [1, 2])
                assert 'dr_router_associations 2\n' in node.ask('GET', '/metrics')[1]
            node.wait('/status', lambda lines: len(lines) == 4)
            text = node.ask('GET', '/')[1]
            assert re.search('<tr><td>CT1</td><td>[0-9]+ s ago</td><td>2</td><td>1</td><td>1</td></tr>', text), text
        node.wait('/status', lambda lines: len(lines) == 3)
        # what came within the last hour stays shown, and what each caller has brought is counted
        same(node.read('/status')[2], {'from': 'CT1', 'modality': 'CT', 'stored': 3, 'refused': 1})
        assert '<tr><td>CT1</td><td>CT</td><td>3</td><td>1</td></tr>' in node.ask('GET', '/')[1]
        figures = node.ask('GET', '/metrics')[1].splitlines()
        for answer, count in ('stored', 2), ('again', 1), ('refused', 1):
            assert f'dr_router_instances_total{{caller="CT1",answer="{answer}"}} {count}' in figures, figures
        for status, count in ('0000', 3), ('C0F1', 1):
            assert f'dr_router_answers_total{{caller="CT1",status="{status}"}} {count}' in figures, figures
        size = len(data_set(b'1.2.3.4'))
        assert f'dr_router_stored_bytes_total{{caller="CT1"}} {2 * size}' in figures, (size, figures)
        # the log says from where a connection came, and of what is refused what rules read of it
        said = [event[3] for event in room.events('GATE')]
        assert any(re.fullmatch('comes session=1 address="127.0.0.1:[0-9]+"', line) for line in said), said
        assert any(line.startswith('refused session=1 caller="CT1" uid=1.2.3.4 fault="G2 Conflict" class=') and ' modality="CT" station="' in line for line in said), said
        assert '<caption>Open associations</caption>\n<tr><th>Caller</th><th>Since</th><th>Stored</th><th>Again</th><th>Refused</th></tr>\n</table>' in node.ask('GET', '/')[1]
        stop(node.process)


def responses():
    """Each response counts by its status: for its caller in figures, also while the association is open, and in the line of its end. Nothing
    else that is sent counts, and who isn't let in has no figure."""
    with Room() as room:
        node = Asked(room, 'GATE', 0, token=False)
        pattern = 'dr_router_answers_total{caller="([^"]*)",status="([^"]*)"} ([0-9]+)'

        def waits_for(**counts):
            # a response is counted as soon as it was sent, so that its caller may be a moment earlier
            want, end = [('CT1', status[1:], str(count)) for status, count in counts.items()], time.monotonic() + LIMIT
            while (came := re.findall(f'^{pattern}$', node.ask('GET', '/metrics')[1], re.M)) != want:
                assert time.monotonic() < end, (want, came)
                time.sleep(0.05)

        def end_of(session):
            """What the log says of an association's end, behind the number of its session."""
            until = time.monotonic() + LIMIT
            while not (found := [said for _, _, about, event in room.events('GATE') if about == 'association'
                                 for word, _, said in [event.partition(f' session={session} ')] if word in ('released', 'closed', 'rejected')]):
                assert time.monotonic() < until, room.events('GATE')
                time.sleep(0.05)
            return re.sub(r'milliseconds=[0-9]+$', 'milliseconds=N', found[0])
        waits_for()
        same([line for line in node.ask('GET', '/metrics')[1].splitlines() if 'answers' in line], ['# TYPE dr_router_answers_total counter'])
        with Requestor(room.ports['GATE'], 'CT1', 'GATE') as first:
            waits_for()
            same(first.echo(), 0)
            same(first.store(b'1.2.3.4', data_set(b'1.2.3.4')), 0)
            waits_for(_0000=2)
            same(first.store(b'1.2.3.4', data_set(b'1.2.3.4', element(0x10, 0x10, b'PN', b'Other'))), 0xC0F1)
            same(first.ask(0x0020), 0x0211)
            same(first.store(b'1.2.3.5', data_set(b'1.2.3.6')), 0xA900)
            same(first.store(b'1.2.3.4', data_set(b'1.2.3.4')), 0)
            waits_for(_0000=3, _C0F1=1, _0211=1, _A900=1)
            with Requestor(room.ports['GATE'], 'CT1', 'GATE') as second:
                same(second.store(b'1.2.3.7', data_set(b'1.2.3.7')), 0)
                waits_for(_0000=4, _C0F1=1, _0211=1, _A900=1)
                second.release()
            same(end_of(2), 'instances=1 refused=0 statuses="0000=1" milliseconds=N')
            first.release()
        same(end_of(1), 'instances=2 refused=1 statuses="0000=3 C0F1=1 0211=1 A900=1" milliseconds=N')
        with Requestor(room.ports['GATE'], 'CT1', 'GATE') as silent:
            silent.release()
        same(end_of(3), 'instances=0 refused=0 milliseconds=N')
        with Requestor(room.ports['GATE'], 'STRANGER', 'GATE'):
            same(end_of(4), 'why="1 1 3" instances=0 refused=0 milliseconds=N')
        waits_for(_0000=4, _C0F1=1, _0211=1, _A900=1)
        stop(node.process)


def refusals():
    """Who may act: a POST with the token, to a host that is allowed. Whatever else is asked changes nothing."""
    with Room() as room:
        hold(room)
        row = {'uid': '1.2.3.4', 'dest': 'GATE'}
        form = urllib.parse.urlencode(row)
        node = Asked(room, 'CT1', 0, '--control-host', 'node.example')
        bearer = f'Bearer {TOKEN}'
        for path in '/requeue', '/drop', '/forget', '/visit', '/backup', '/stop':
            same(node.ask('POST', path, row), (401, '{"fault":"Token"}\n'))
            for given in TOKEN, f'Basic {TOKEN}', f'bearer {TOKEN}', f'Bearer {TOKEN[:-1]}', f'Bearer {TOKEN}x', f'Bearer {TOKEN[:-1]}X', 'Bearer ', 'Bearer':
                same(node.ask('POST', path, row, Authorization=given)[0], 401)
            for method in 'GET', 'PUT', 'DELETE', 'PATCH', 'OPTIONS':
                same(node.ask(method, f'{path}?{form}', row, Authorization=bearer)[0], 405)
            for host in 'evil.example', f'evil.example:{node.port}', '127.0.0.1:1', f'127.0.0.1.evil.example:{node.port}':
                same(node.ask('POST', path, row, Host=host, Authorization=bearer)[0], 421)
        for path in '/requeue/', '/Requeue', '//requeue', '/requeue%20', '/drop.html', '/forgets', '/visit/GATE':
            same(node.ask('POST', path, row, Authorization=bearer), (404, '{"fault":"Path"}\n'))
        for host in f'localhost:{node.port}', 'node.example', f'node.example:{node.port}', node.at:
            same(node.ask('GET', '/health', Host=host)[0], 200)
        same(node.ask('GET', '/status', Host='evil.example')[0], 421)
        same(node.ask('POST', '/status', row)[0], 405)
        # two hosts, none, and a form that doesn't come whole
        assert node.raw(f'POST /stop HTTP/1.1\r\nHost: {node.at}\r\nHost: x\r\nAuthorization: {bearer}\r\nContent-Length: 0\r\n\r\n'.encode()).split(b' ')[1] in (b'400', b'421')
        assert node.raw(f'POST /stop HTTP/1.1\r\nAuthorization: {bearer}\r\nContent-Length: 0\r\n\r\n'.encode()).split(b' ')[1] in (b'400', b'421')
        same(node.raw(f'POST /drop HTTP/1.1\r\nHost: {node.at}\r\nAuthorization: {bearer}\r\nContent-Length: 40\r\n\r\n{form}'.encode()).split(b' ')[1:2], [b'400'])
        # the second request of a connection isn't read
        both = (GOOD.format(node.at) + f'POST /stop HTTP/1.1\r\nHost: {node.at}\r\nAuthorization: {bearer}\r\nContent-Length: 0\r\n\r\n').encode()
        same(node.raw(both).count(b'HTTP/1.1 '), 1)
        same(node.read('/rows?dest=GATE&state=held')[0]['uid'], '1.2.3.4')
        same(node.process.poll(), None)
        stop(node.process)
    with Room() as room:
        hold(room)
        node = Asked(room, 'CT1', 0, token=False)
        for path in '/requeue', '/drop', '/forget', '/visit', '/backup', '/stop':
            same(node.ask('POST', path, row, Authorization=bearer), (403, '{"fault":"Closed"}\n'))
        same(node.read('/rows?dest=GATE&state=held')[0]['uid'], '1.2.3.4')
        stop(node.process)


def backups():
    """The ledger is copied to a path where nothing is, of the node's machine and from its root: two files, that nobody but their owner may read.
    Where that is refused, or fails, nothing is there then that wasn't before."""
    with Room() as room:
        node = Asked(room, 'GATE', 0)
        with Requestor(room.ports['GATE'], 'CT1', 'GATE') as link:
            same(link.store(b'1.2.3.4', data_set(b'1.2.3.4')), 0)
        os.mkdir(f'{room.folder}/copies')
        for name in 'there.db', 'log.db-wal', 'part.db.part', 'late.db-wal.part':
            room.put(f'copies/{name}', b'not to be lost')
        os.symlink('nowhere', f'{room.folder}/copies/link.db')
        os.symlink('GATE.db', f'{room.folder}/second.db')
        before = sorted(os.listdir(room.folder)), sorted(os.listdir(f'{room.folder}/copies'))
        copy = f'{room.folder}/copies/GATE.db'
        same(node.ask('POST', '/backup', {'copy': copy}), (401, '{"fault":"Token"}\n'))
        same(node.ask('GET', f'/backup?copy={copy}')[0], 405)
        same(node.act('/backup'), (400, '{"fault":"Field"}\n'))
        same(node.act('/backup', uid='1.2.3.4'), (400, '{"fault":"Field"}\n'))
        for path in 'copy.db', '', './copy.db', '\udcff/copy.db':
            same(node.act('/backup', copy=path.encode('utf-8', 'surrogateescape')), (400, '{"fault":"Q4 NoPath"}\n'))
        for name in 'there', 'log', 'part', 'late', 'link':
            same(node.act('/backup', copy=f'{room.folder}/copies/{name}.db'), (409, '{"fault":"Q3 IsThere"}\n'))
        same(node.act('/backup', copy=f'{room.folder}/second.db'), (409, '{"fault":"Q3 IsThere"}\n'))
        # the ledger's own names, whether a file has them or not, by whatever path, and what would be another ledger's log
        for name in 'GATE.db', 'GATE.db-wal', 'GATE.db-journal', 'GATE.db-shm', 'GATE.db.new', 'GATE.db.data', 'GATE.db.data-wal', 'copies/../GATE.db', 'copies/ARCH.db-wal', 'copies/ARCH.db-journal', 'copies/ARCH.db.data':
            same(node.act('/backup', copy=f'{room.folder}/{name}'), (409, '{"fault":"Q1 OwnFile"}\n'))
        same(node.act('/backup', copy=f'{room.folder}/nowhere/GATE.db'), (503, '{"fault":"Q7 NoCopy"}\n'))
        same((sorted(os.listdir(room.folder)), sorted(os.listdir(f'{room.folder}/copies'))), before)
        same(node.act('/backup', copy=copy), DONE)
        same(sorted(set(os.listdir(f'{room.folder}/copies')) - set(before[1])), ['GATE.db', 'GATE.db-wal'])
        for name in copy, f'{copy}-wal':
            same(os.stat(name).st_mode & 0o777, 0o600)
        same(node.act('/backup', copy=copy), (409, '{"fault":"Q3 IsThere"}\n'))
        # of many at the same time the others are refused while one is made
        answers = []
        askers = [threading.Thread(target=lambda number=number: answers.append((number, node.act('/backup', copy=f'{copy}.{number}')))) for number in range(8)]
        for asker in askers:
            asker.start()
        for asker in askers:
            asker.join()
        made = sorted(f'GATE.db.{number}' for number, answer in answers if answer == DONE)
        assert made and all(answer in (DONE, (409, '{"fault":"Q5 Busy"}\n')) for _, answer in answers), answers
        same(sorted(name for name in os.listdir(f'{room.folder}/copies') if re.fullmatch('GATE.db.[0-9]', name)), made)
        same(node.act('/stop'), DONE)
        ended(node.process)
        said = [event[3] for event in room.events('GATE') if event[2] == 'control' and event[3].startswith('backup ')]
        told_of = re.fullmatch(f'backup copy="{copy}" lines=([0-9]+) bytes=[0-9]+ milliseconds=[0-9]+', next(line for line in said if 'bytes=' in line))
        listed = lines(room.at('list', 'GATE', ledger='copies/GATE.db').stdout)
        same([line.split('\t')[:4] for line in listed if line.startswith('row\t')], [['row', '1.2.3.4', 'ARCH', 'waiting']])
        same(listed[-1], f'lines\t{told_of[1]}')
        assert f'backup copy="{room.folder}/GATE.db" fault="Q1 OwnFile"' in said, said
        assert any(line.startswith(f'backup copy="{room.folder}/nowhere/GATE.db" fault="Q7 NoCopy" error="') for line in said), said


def places():
    """Where a node may be asked: on loopback, or for anyone with a token, which its owner alone may read."""
    with Room() as room:
        at = f'127.0.0.1:{free_port()}'
        for mode in 0o640, 0o604, 0o660, 0o620:
            put_token(room, 'open', mode=mode)
            same(room.at('serve', 'CT1', '--control', at, '--control-token', 'open').returncode, 3)
        put_token(room, 'short', text='fifteen bytes..\n')
        same(room.at('serve', 'CT1', '--control', at, '--control-token', 'short').returncode, 3)
        same(room.at('serve', 'CT1', '--control', at, '--control-token', 'none').returncode, 3)
        everywhere = f'0.0.0.0:{free_port()}'
        told(room.at('serve', 'CT1', '--control', everywhere), 3, '', f'dr_router: {everywhere}: permission denied\n')
        same(room.at('serve', 'CT1', '--control', everywhere, '--control-anyone').returncode, 3)
        same(room.at('serve', 'CT1', '--control-token', 'short').returncode, 2)
        same(os.path.exists(f'{room.folder}/CT1.db'), False)
        node = Asked(room, 'CT1', 0, '--control-anyone')
        same(node.ask('GET', '/status')[0], 401)
        same(node.ask('GET', '/status', Authorization=f'Bearer {TOKEN}')[0], 200)
        same(room.at('serve', 'GATE', '--control', node.at).returncode, 3)
        stop(node.process)


def hostile():
    """Requests that are none, or too long, or come slowly: each is refused or cut, and the node goes on; meanwhile a peer stores."""
    with Room() as room:
        node = Asked(room, 'GATE', 0)
        stored, over = [], threading.Event()

        def store():
            with Requestor(room.ports['GATE'], 'CT1', 'GATE') as link:
                while not over.is_set():
                    uid = f'1.2.3.{len(stored)}'.encode()
                    same(link.store(uid, data_set(uid)), 0)
                    stored.append(uid)
        peer = threading.Thread(target=store)
        peer.start()
        try:
            whole = f'POST /stop HTTP/1.1\r\nHost: {node.at}\r\nContent-Length: 3\r\n\r\nabc'.encode()
            for cut in range(len(whole)):
                assert not node.raw(whole[:cut]).startswith(b'HTTP/1.1 200'), cut
            for data, status in ((b'GET /health HTTP/1.1\r\nX: ' + 9000 * b'x' + b'\r\n\r\n', b'431'), (b'GET /' + 9000 * b'x' + b' HTTP/1.1\r\n\r\n', b'414'),
                                 (f'POST /drop HTTP/1.1\r\nHost: {node.at}\r\nContent-Length: 70000\r\n\r\n'.encode() + 70000 * b'x', b'413'),
                                 (f'POST /drop HTTP/1.1\r\nHost: {node.at}\r\nTransfer-Encoding: chunked\r\n\r\nfffffffffffffffff\r\n'.encode(), b'400'),
                                 (f'POST /drop HTTP/1.1\r\nHost: {node.at}\r\nTransfer-Encoding: gzip, chunked\r\n\r\n0\r\n\r\n'.encode(), b'501')):
                same(node.raw(data).split(b' ')[1:2], [status])
            chance = random.Random(52)
            for _ in range(300):
                data = bytearray(whole)
                for _ in range(chance.randrange(1, 6)):
                    data[chance.randrange(len(data))] = chance.randrange(256)
                assert not node.raw(bytes(data)).startswith(b'HTTP/1.1 200'), data
            # 16 who say nothing are let go after 5 s; whoever asks meanwhile waits for that
            begun = time.monotonic()
            idle = [socket.create_connection(('127.0.0.1', node.port)) for _ in range(16)]
            idle[0].sendall(b'GET /hea')
            same(node.read('/health'), [{'well': True}])
            took = time.monotonic() - begun
            assert 4 < took < 15, took
            for link in idle:
                link.close()
            # one byte a second isn't a request in time
            begun = time.monotonic()
            with socket.create_connection(('127.0.0.1', node.port)) as slow:
                try:
                    for byte in GOOD.format(node.at).encode():
                        slow.sendall(bytes([byte]))
                        time.sleep(0.5)
                    raise AssertionError('a slow request was heard')
                except (BrokenPipeError, ConnectionResetError):
                    took = time.monotonic() - begun
            assert took < 15, took
        finally:
            over.set()
            peer.join()
        assert len(stored) > 10, len(stored)
        same(node.read('/status')[0]['arrivals'], len(stored))
        same(node.act('/stop')[0], 200)
        ended(node.process)


def storing(room, callers, seconds, meanwhile=None, caller='CT1', called='GATE'):
    """How many images peers store in that time, one association each, while something else is done; each is acknowledged."""
    counts, end = [0] * callers, [time.monotonic() + seconds]

    def store(peer):
        with Requestor(room.ports[called], caller, called) as link:
            while time.monotonic() < end[0]:
                uid = f'1.2.{os.getpid()}.{peer}.{time.monotonic_ns()}'.encode()
                same(link.store(uid, data_set(uid)), 0)
                counts[peer] += 1
    peers = [threading.Thread(target=store, args=(peer,)) for peer in range(callers)]
    for peer in peers:
        peer.start()
    begun = time.monotonic()
    if meanwhile:
        try:
            meanwhile()
        finally:
            end[0] = time.monotonic()
    for peer in peers:
        peer.join()
    return sum(counts), sum(counts) / (time.monotonic() - begun)


def malformed(node, chance):
    """A request that is none, in one of several ways."""
    whole = f'POST /drop HTTP/1.1\r\nHost: {node.at}\r\nAuthorization: Bearer {TOKEN[:-1]}\r\nContent-Length: 26\r\n\r\nuid=1.2.3.4&dest=ARCHIVE_1'.encode()
    kind = chance.randrange(6)
    if kind == 0:
        return whole[:chance.randrange(len(whole))]
    if kind == 1:
        return b'GET / HTTP/1.1\r\nX: ' + chance.randrange(8_000, 60_000) * b'x'
    if kind == 2:
        length = chance.choice((b'-1', b'fffffffffffffffff', b'8000000000000000', b'1;' + 9000 * b'x', b'zz', b''))
        return f'POST /drop HTTP/1.1\r\nHost: {node.at}\r\nTransfer-Encoding: chunked\r\n\r\n'.encode() + length + b'\r\nabc\r\n0\r\n\r\n'
    if kind == 3:
        return chance.randrange(2, 40) * whole
    if kind == 4:
        return chance.randbytes(chance.randrange(1, 3_000))
    data = bytearray(whole)
    for _ in range(chance.randrange(1, 6)):
        data[chance.randrange(len(data))] = chance.randrange(256)
    return bytes(data)


def memory(process):
    """The most memory that a process has had so far, in MB."""
    with open(f'/proc/{process.pid}/status', encoding='ascii') as file:
        return int(re.search(r'VmHWM:\s+(\d+) kB', file.read())[1]) // 1024


def attack(port, count):
    """Sends so many malformed requests, from eight at a time; how many had which answer, as JSON on the standard output."""
    node, answers, lock = types.SimpleNamespace(port=port, at=f'127.0.0.1:{port}'), {}, threading.Lock()

    def send(sender):
        chance = random.Random(sender)
        for _ in range(count // 8):
            try:
                status = Asked.raw(node, malformed(node, chance))[9:12].decode()
            except OSError:
                status = 'cut'
            with lock:
                answers[status] = answers.get(status, 0) + 1
    senders = [threading.Thread(target=send, args=(sender,)) for sender in range(8)]
    for sender in senders:
        sender.start()
    for sender in senders:
        sender.join()
    json.dump(answers, sys.stdout)


def flood(count=1_000):
    """Malformed requests, from eight at a time, while two peers store: nothing is lost, nothing is done, and memory stays bounded. The
    requests come from a process of their own: in this one Python's own lock would hold up the peers, and not the node."""
    with Room() as room:
        node = Asked(room, 'GATE', 0)
        alone, rate = storing(room, 2, 2)
        before = memory(node.process)
        answers, took = {}, []

        def be_attacked():
            begun = time.monotonic()
            attacker = [sys.executable, __file__, '--attack', str(node.port), str(count)]
            answers.update(json.loads(subprocess.run(attacker, stdout=subprocess.PIPE, check=True).stdout))
            took.append(time.monotonic() - begun)
        meanwhile, slower = storing(room, 2, 10 * LIMIT, be_attacked)
        same(answers.get('200', 0), 0)
        same(sum(answers.values()), count // 8 * 8)
        grown = memory(node.process) - before
        assert grown < 200, grown
        same(node.read('/status')[0]['arrivals'], alone + meanwhile)
        same(node.read('/rows?dest=ARCH&state=dropped'), [])
        same(node.process.poll(), None)
        print(f'control: {count} malformed requests in {took[0]:.1f} s while two peers store: {rate:.0f} images a second alone, '
              f'{slower:.0f} meanwhile; {grown} MB more memory; answers {sorted(answers.items())}', flush=True)
        same(node.act('/stop')[0], 200)
        ended(node.process)


def flood_of_20_000():
    flood(20_000)


def main():
    if not os.path.exists(PROGRAM):
        sys.exit(f'{PROGRAM} is not built')
    if sys.argv[1:2] == ['--attack']:
        return attack(*map(int, sys.argv[2:]))
    if sys.argv[1:] == ['--more']:
        return run_cases('control --more', flood_of_20_000)
    return run_cases('control', reads, journal, page, acts, dropped, ages, orders, hurried, forms, associations, responses, refusals, backups, places, hostile, flood)


if __name__ == '__main__':
    main()
