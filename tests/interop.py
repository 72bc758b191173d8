#!/usr/bin/env python3
"""Runs a node of the built program between programs of another make, dcmtk's: SENDER is echoscu, storescu or dcmsend,
GATE is ours, ARCH is storescp. Then peers that mean harm, and ledgers' files that can't be used. Where dcmtk isn't here,
it says so, and tries nothing.

    tests/interop.py [ROUNDS [SILENT]]    # so many rounds with kill -9 (5), and so many connections that say nothing
                                          (500)
"""
import os
import random
import re
import shutil
import socket
import struct
import subprocess
import sys
import time

sys.dont_write_bytecode = True
from lib.requestor import (ABORT, ACCEPTED, APPLICATION, CONTEXTS, DATA, RELEASED, RELEASE_RP, RELEASE_RQ, STORE, VERIFICATION, Acceptor, Requestor, associate,
                       command, context, exactly, pdu, stored, values)
from lib.nodes import CT, EXPLICIT, IMPLICIT, LIMIT, PROGRAM, Room, behind_meta, data_set, element, ended, lines, part10, run_cases, same, stop, told

TOOLS = 'echoscu', 'storescu', 'dcmsend', 'storescp'
MR = b'1.2.840.10008.5.1.4.1.1.4'
NOBODY = 65534


def text_of(*syntaxes):
    """The plan: what SENDER brings goes by GATE to ARCH, in these transfer syntaxes, of which an acceptor prefers the first."""
    taken = ', '.join(f'"{syntax.decode()}"' for syntax in syntaxes)
    def node(name, rows):
        return f'[[node]]\nname = "{name}"\naddress = "127.0.0.1:1"\n{rows}'
    def accept(caller):
        return f'[[node.accept]]\nfrom = ["{caller}"]\nclass = "{CT.decode()}"\nsyntax = [{taken}]\n[[node.rule]]\n'
    return (node('SENDER', '') + node('GATE', accept('SENDER') + 'to = ["ARCH"]\n') + node('ARCH', accept('GATE') + 'keep = true\n')
            + f'[[flow]]\nat = "SENDER"\nto = "GATE"\nclass = ["{CT.decode()}"]\nsyntax = [{taken}]\nmodality = "*"\nstation = "*"\n')


PLAN = text_of(EXPLICIT, IMPLICIT)


def image(size, syntax=EXPLICIT):
    """What a small image has behind the values by which it is routed: a private element, a sequence, an odd text, and so many bytes of pixels."""
    def part(*value):
        return element(*value, syntax)
    nested = struct.pack('<HHI', 0xFFFE, 0xE000, len(part(8, 0x1150, b'UI', CT))) + part(8, 0x1150, b'UI', CT)
    return (part(8, 0x1140, b'SQ', nested) + part(0x10, 0x10, b'PN', b'Muster^Eva')
            + part(0x11, 0x10, b'LO', b'A MAKER') + part(0x11, 0x1001, b'UN', bytes(range(255)))
            + part(0x28, 0x10, b'US', b'\x40\0') + part(0x28, 0x100, b'US', b'\x10\0') + part(0x7FE0, 0x10, b'OW', random.Random(size).randbytes(size)))


# ---- programs of another make

class Site(Room):
    """A room in which dcmtk's programs run too; what its archive takes in stands in the folder `archive`."""

    def __init__(self, text=PLAN):
        super().__init__(text)
        os.mkdir(f'{self.folder}/archive')

    def archive(self, *more):
        """storescp, which writes each data set as it came."""
        process = self.start('storescp', '-aet', 'ARCH', '+B', '-od', 'archive', *more, str(self.ports['ARCH']))
        self.wait_for('ARCH', process)
        return process

    def calls(self, tool, *more, calling='SENDER', called='GATE'):
        """The words by which one of dcmtk's senders calls the node GATE."""
        return (tool, '-aet', calling, '-aec', called, *more[:-1], '127.0.0.1', str(self.ports['GATE']), *more[-1])

    def sends(self, tool, *more, **titles):
        return subprocess.run(self.calls(tool, *more, **titles), cwd=self.folder, capture_output=True, timeout=LIMIT, check=False)

    def archived(self):
        """The data sets that the archive has, by their uids. What it is still writing has no whole meta information, or isn't looked at."""
        found = {}
        for name in os.listdir(f'{self.folder}/archive'):
            with open(f'{self.folder}/archive/{name}', 'rb') as file:
                found[name.partition('.')[2]] = file.read()
        return found

    def wait_until_archived(self, count):
        end = time.monotonic() + LIMIT
        while len(os.listdir(f'{self.folder}/archive')) < count:
            assert time.monotonic() < end, f'{os.listdir(f"{self.folder}/archive")}, not {count}'
            time.sleep(0.02)

    def wait_until_nothing_is_archived(self):
        """What storescp breaks off it takes away, if it isn't killed before."""
        end = time.monotonic() + LIMIT
        while left := os.listdir(f'{self.folder}/archive'):
            assert time.monotonic() < end, left
            time.sleep(0.02)

    def listed(self):
        listing = self.at('list', 'GATE')
        same((listing.returncode, listing.stderr), (0, b''))
        return [tuple(line.split('\t')) for line in lines(listing.stdout)]

    def answers(self, process):
        """GATE still runs, and answers an echo."""
        with Requestor(self.ports['GATE'], 'SENDER', 'GATE') as sender:
            same((sender.answer[0], sender.echo(), sender.release()), (ACCEPTED, 0, RELEASED))
        same(process.poll(), None)

    def ends(self, process):
        """GATE, which serves one association, serves it, makes its last round and reports."""
        with Requestor(self.ports['GATE'], 'SENDER', 'GATE') as sender:
            same(sender.release(), RELEASED)
        return ended(process)


def went_well(run):
    assert run.returncode == 0, run


def uids_of(listing, word):
    return [line[2 if word == 'arrival' else 1] for line in listing if line[0] == word]


# ---- what is tried

def titles():
    """Only callers that the plan names are taken, and only under the node's own name; others don't disturb it."""
    with Site() as site:
        gate = site.serve('GATE', 0)
        site.put('image.dcm', part10(b'1.2.3.4'))
        for tool, file in ('echoscu', []), ('storescu', ['image.dcm']):
            for calling, called, why in (('STRANGER', 'GATE', b'Calling AE Title Not Recognized'), ('SENDER', 'ARCH', b'Called AE Title Not Recognized')):
                run = site.sends(tool, file, calling=calling, called=called)
                assert run.returncode != 0 and why in run.stderr, run
            went_well(site.sends('echoscu', []))
        stop(gate)
        told = [re.sub(r' milliseconds=\d+$', '', event[3]) for event in site.events('GATE') if event[2] == 'association' and not event[3].startswith('comes ')]
        want = []
        for tool in range(2):
            for number, how in enumerate(('rejected session={} why="1 1 3"{}', 'rejected session={} why="1 1 7"{}', 'released session={}{} statuses="0000=1"'), 3 * tool + 1):
                want.append(how.format(number, ' instances=0 refused=0'))
        same(sorted(want[:-1] + told[5:]), sorted(told))   # the last may not be logged yet
        same(site.listed(), [('node', 'GATE'), ('lines', '0')])


def passed_on():
    """What storescu and dcmsend send comes out at storescp byte for byte, in both transfer syntaxes. Of several that are proposed in one
    context, as dcmsend does, the node takes the one that its accept row has first."""
    for first, second in (EXPLICIT, IMPLICIT), (IMPLICIT, EXPLICIT):
        with Site(text_of(first, second)) as site:
            sent = {}
            each = ('storescu', first, 8192), ('dcmsend', first, 100_000), ('storescu', second, 30_000), ('storescu', first, 0)
            for number, (tool, syntax, size) in enumerate(each):
                uid = f'1.2.3.{number}'
                sent[uid] = tool, data_set(uid.encode(), image(size, syntax), syntax)
                site.put(f'{uid}.dcm', part10(uid.encode(), image(size, syntax), syntax))
            archive, gate = site.archive(), site.serve('GATE', len(sent))
            for uid, (tool, _) in sent.items():
                went_well(site.sends(tool, [f'{uid}.dcm']))
            got = ended(gate)
            same([line.split('\t')[1:] for line in got if line.startswith('row')], [[uid, 'ARCH', 'done'] for uid in sent])
            stop(archive)
            same({uid: behind_meta(file) for uid, file in site.archived().items()}, {uid: data for uid, (_, data) in sent.items()})


def not_agreed():
    """A class or a transfer syntax that no accept row has is refused when the association is asked for; nothing of it arrives."""
    with Site() as site:
        gate = site.serve('GATE', 0)
        site.put('other.dcm', part10(b'1.2.3.5', of=MR))
        # dcmsend says so, and ends with the status 0 all the same
        for tool, words in ('storescu', b'No presentation context for'), ('dcmsend', b'No Acceptable Presentation Contexts'):
            run = site.sends(tool, ['other.dcm'])
            assert words in run.stderr, run
        jpeg = context(1, CT, b'1.2.840.10008.1.2.4.70')
        with Requestor(site.ports['GATE'], 'SENDER', 'GATE', jpeg) as sender:
            kind, body = sender.answer
            # behind the titles and the application context: the answer to context 1, result 4 (transfer syntaxes not supported)
            same((kind, body[72 + len(APPLICATION):][:8]), (ACCEPTED, bytes([0x21, 0, 0, 8 + len(IMPLICIT), 1, 0, 4, 0])))
            same(sender.release(), RELEASED)
        site.answers(gate)
        stop(gate)
        same(site.listed(), [('node', 'GATE'), ('lines', '0')])


def archive_away():
    """While the archive isn't there, or refuses or breaks each association, what was acknowledged waits at GATE, which is killed meanwhile;
    it goes on when the archive is back."""
    with Site() as site:
        uids = [f'1.2.3.{number}' for number in range(1, 4)]
        for uid in uids:
            site.put(f'{uid}.dcm', part10(uid.encode(), image(2000)))
        gate = site.serve('GATE', 0)
        went_well(site.sends('dcmsend', [f'{uid}.dcm' for uid in uids]))
        stop(gate)
        rows = [line[1:5] for line in site.listed() if line[0] == 'row']
        same([row[:3] for row in rows], [(uid, 'ARCH', 'waiting') for uid in uids])
        for behaviour in '--refuse', '--abort-after':
            archive, gate = site.archive(behaviour), site.serve('GATE', 1)
            time.sleep(3.2)    # an archive that takes nothing is tried once a second, each time for one row, and there are three
            rows = [line.split('\t')[1:5] for line in site.ends(gate) if line.startswith('row')]
            same([row[:3] for row in rows], [[uid, 'ARCH', 'waiting'] for uid in uids])
            assert any(int(row[3]) > 1 for row in rows), (behaviour, rows)
            site.wait_until_nothing_is_archived()
            stop(archive)
        same(site.archived(), {})
        archive, gate = site.archive(), site.serve('GATE', 1)
        site.wait_until_archived(len(uids))
        same([line for line in site.ends(gate) if line.startswith('row')], [f'row\t{uid}\tARCH\tdone' for uid in uids])
        stop(archive)
        same({uid: behind_meta(file) for uid, file in site.archived().items()}, {uid: data_set(uid.encode(), image(2000)) for uid in uids})


def succeeded(run):
    """The uids that dcmsend, which tells all, was answered success for."""
    reply = rb'C-STORE RSP.*?Affected SOP Instance UID\s+: (\S+).*?DIMSE Status\s+: 0x0000'
    return [uid.decode() for uid in re.findall(reply, run, re.S)]


def killed(rounds):
    """GATE is killed at moments by chance while dcmsend stores. Whatever dcmsend was told success for is in the ledger, nothing is there
    twice, and in the end all that is there has come to the archive."""
    chance = random.Random(20)
    with Site() as site:
        archive = site.archive()
        told_success, span, cut = [], None, 0
        for number in range(rounds + 1):
            uids = [f'1.2.{number + 1}.{one}' for one in range(1, 16)]
            for uid in uids:
                site.put(f'{uid}.dcm', part10(uid.encode(), image(3000)))
            gate = site.serve('GATE', 0)
            begun = time.monotonic()
            sender = site.start(*site.calls('dcmsend', '-d', [f'{uid}.dcm' for uid in uids]))
            if span is not None:
                try:
                    sender.wait(chance.uniform(0, span))
                except subprocess.TimeoutExpired:
                    stop(gate)
            out, err = sender.communicate(timeout=LIMIT)
            # the first round isn't disturbed: it says how long one takes
            span = span or time.monotonic() - begun
            stop(gate)
            this = succeeded(out + err)
            assert number > 0 or len(this) == len(uids), (out, err)
            told_success += this
            cut += 0 < len(this) < len(uids)
            there = uids_of(site.listed(), 'arrival')
            same([uid for uid in told_success if uid not in there], [])
            same(len(there), len(set(there)))
        gate = site.serve('GATE', 0)
        site.wait_until_archived(len(there))
        stop(gate)
        stop(archive)
        listing = site.listed()
        same(sorted(uids_of(listing, 'arrival')), sorted(there))
        same(sorted(uids_of(listing, 'row')), sorted(there))
        same({uid: behind_meta(file) for uid, file in site.archived().items()}, {uid: data_set(uid.encode(), image(3000)) for uid in there})
        print(f'interop: killed {rounds} times, {cut} times between two answers; {len(told_success)} of {15 * (rounds + 1)} were answered, {len(there)} are there')


def many():
    """64 associations one after another, and 16 at once."""
    with Site() as site:
        gate = site.serve('GATE', 0)
        for number in range(64):
            uid = f'1.2.3.{number}'.encode()
            with Requestor(site.ports['GATE'], 'SENDER', 'GATE') as sender:
                same((sender.answer[0], sender.store(uid, data_set(uid)), sender.release()), (ACCEPTED, 0, RELEASED))
        for number in range(16):
            site.put(f'{number}.dcm', part10(f'1.2.4.{number}'.encode(), image(50_000)))
        senders = [site.start(*site.calls('storescu', [f'{number}.dcm'])) for number in range(16)]
        for sender in senders:
            ended(sender)
        site.answers(gate)
        stop(gate)
        wanted = [f'1.2.3.{number}' for number in range(64)] + [f'1.2.4.{number}' for number in range(16)]
        same(sorted(uids_of(site.listed(), 'arrival')), sorted(wanted))


def statuses():
    """What a C-STORE is answered by its cause. The plan is the sample's: it lets in CT images of the station S1 alone."""
    with Site(None) as site:
        gate = site.serve('GATE', 0)
        more = image(1000)
        with Requestor(site.ports['GATE'], 'CT1', 'GATE', context(1, VERIFICATION, IMPLICIT) + context(3, CT, EXPLICIT)) as sender:
            same(sender.store(b'1.2.3.1', data_set(b'1.2.3.1', more)), 0x0000)
            same(sender.store(b'1.2.3.1', data_set(b'1.2.3.1', more)), 0x0000)
            same(sender.store(b'1.2.3.1', data_set(b'1.2.3.1', image(1002))), 0xC0F1)
            same(sender.store(b'1.2.3.2', data_set(b'1.2.3.2', more).replace(b'S1', b'S2')), 0xC0F0)
            same(sender.store(b'1.2.3.2', data_set(b'1.2.3.3', more)), 0xA900)
            same(sender.store(b'1.2.3.2', data_set(b'', more)), 0xA900)
            same(sender.store(b'1.2.3.2', data_set(b'1.2.3.2', more, of=b'')), 0xA900)
            same(sender.store(b'1.2.3.2', more), 0xA900)
            same(sender.store(b'1.2.3.2', data_set(b'1.2.3.2', more)[:-1]), 0xC000)
            same(sender.store(b'1.2.3.2', data_set(b'', more)[:-1]), 0xC000)
            same(sender.store(b'1.2.3.2', data_set(b'1.2.3.2', more), of=MR), 0x0122)
            same(sender.store(b'1.2.3.2', data_set(b'1.2.3.2', more + element(0x7FE1, 0x10, b'OB', bytes(64 << 20)))), 0xA700)
            same(sender.ask(0x0020), 0x0211)
            same((sender.echo(), sender.release()), (0x0000, RELEASED))
        stop(gate)
        listing = site.listed()
        same((uids_of(listing, 'arrival'), uids_of(listing, 'row')), (['1.2.3.1'], ['1.2.3.1']))


def other_syntax():
    """An instance that is there is another one in the other transfer syntax: its bytes differ."""
    with Site() as site:
        gate = site.serve('GATE', 0)
        with Requestor(site.ports['GATE'], 'SENDER', 'GATE') as sender:
            same(sender.store(b'1.2.3.1', data_set(b'1.2.3.1')), 0x0000)
            same(sender.store(b'1.2.3.1', data_set(b'1.2.3.1', syntax=IMPLICIT), IMPLICIT), 0xC0F1)
            same(sender.release(), RELEASED)
        stop(gate)


def next_answers():
    """What becomes of a row by the next node's answer: success and warnings end it, out of resources and associations that break let it
    wait, other statuses hold it for a person."""
    def by(status, announced=0x101, more=b''):
        return lambda uid, number, to: stored(uid, number, to, status, announced) + (values(number, 0, more) if more else b'')
    cases = [
        ('done', by(0x0000)),
        ('done', by(0xB007)),
        ('done', by(0x0000, 1, data_set(b'1.2'))),    # a data set behind the response, which is heard and dropped
        ('waiting', by(0xA7FF)),
        ('waiting', lambda uid, number, to: stored(uid, number, to + 1, 0)),
        ('waiting', lambda *_: ABORT),
        ('waiting', lambda *_: b'GET / HTTP/1.1\r\n'),
        ('held\tA900', by(0xA900)),
        ('held\tC001', by(0xC001)),
        ('held\t0122', by(0x0122)),
        ('held\t0110', by(0x0110)),
    ]
    with Site() as site:
        # each in a ledger of its own, since what waits would go with the next; it may go twice where a second passes meanwhile
        for at, (wanted, answer) in enumerate(cases):
            uid = f'1.2.3.{at}'
            site.put('image.dcm', part10(uid.encode(), image(40_000)))
            with Acceptor(site.ports['GATE'], answer) as gate:
                got = site.at('send', 'SENDER', 'image.dcm', ledger=f'{at}.db')
            same((got.returncode, got.stderr, set(gate.stored)), (0, b'', {uid.encode()}))
            row = next(line for line in lines(got.stdout) if line.startswith('row'))
            assert row.startswith(f'row\t{uid}\tGATE\t{wanted}'), (row, wanted)
        site.put('image.dcm', part10(b'1.2.4'))
        with Acceptor(site.ports['GATE'], None, result=3):
            got = site.at('send', 'SENDER', 'image.dcm')
        assert 'row\t1.2.4\tGATE\theld\tno-context' in lines(got.stdout), got
        # a held row is queued again by a person, and then goes
        same(site.at('requeue', 'SENDER', '1.2.4', 'GATE').stdout, b'requeued\n')
        with Acceptor(site.ports['GATE'], by(0)):
            again = site.at('send', 'SENDER', 'image.dcm')
        same(lines(again.stdout)[0], 'again')
        assert 'row\t1.2.4\tGATE\tdone' in lines(again.stdout), again


def says(site, data, reads=True):
    """A connection that sends these bytes; what comes back up to its end."""
    with socket.create_connection(('127.0.0.1', site.ports['GATE']), timeout=LIMIT) as link:
        link.sendall(data)
        if not reads:
            return b''
        link.shutdown(socket.SHUT_WR)
        got = b''
        while True:
            try:
                piece = link.recv(65536)
            except ConnectionResetError:
                piece = b''
            if not piece:
                return got
            got += piece


def stored_in_part(uid):
    """A C-STORE-RQ, and the first fragment of its data set, behind which others would come."""
    asked = command((2, CT), (0x100, STORE), (0x110, 1), (0x700, 0), (0x800, 1), (0x1000, uid))
    return values(3, 1, asked) + pdu(DATA, struct.pack('>IBB', 1002, 3, 0) + data_set(uid, image(2000))[:1000])


def hostile(silent):
    """Peers that send what is no association, half of one, or nothing. Behind each the node answers an echo."""
    asked = associate(1, 'GATE', 'SENDER', CONTEXTS)
    # before there is an association an abort names no reason (AA-1), in one it names the service provider (AA-8)
    unasked, invalid = (bytes([7, 0, 0, 0, 0, 4, 0, 0, source]) for source in (0, 2))
    large = struct.pack('>BBI', 1, 0, 262_144)
    too_large = struct.pack('>BBI', 1, 0, 262_145)
    with Site() as site:
        gate = site.serve('GATE', 0)
        def then(got, wanted):
            assert got.startswith(wanted), (got, wanted)
            site.answers(gate)
        then(says(site, b'GET / HTTP/1.1\r\nHost: gate\r\n\r\n'), unasked)
        then(says(site, random.Random(1).randbytes(100_000), reads=False), b'')
        then(says(site, asked[:len(asked) // 2], reads=False), b'')
        then(says(site, asked[:len(asked) // 2]), b'')
        then(says(site, large), b'')
        then(says(site, large + 262_144 * b'\0'), unasked)
        then(says(site, too_large), unasked)
        then(says(site, RELEASE_RQ), unasked)
        then(says(site, ABORT), b'')
        # an association that is released, aborted, left or asked for a second time at once
        at_once = ((RELEASE_RQ, RELEASE_RP), (RELEASE_RQ + RELEASE_RQ, RELEASE_RP), (ABORT, None), (b'', None), (asked, invalid + b'\2'),
                   (b'GET / HTTP/1.1\r\n', invalid + b'\1'), (b'\4\0\0\0\0\4\0\0\0\0', invalid + b'\6'))
        for more, wanted in at_once:
            with Requestor(site.ports['GATE'], 'SENDER', 'GATE') as peer:
                same(peer.answer[0], ACCEPTED)
                peer.link.sendall(more)
                if wanted is not None:
                    same(exactly(peer.link, 10), wanted)
            site.answers(gate)
        # an instance that is only begun
        with Requestor(site.ports['GATE'], 'SENDER', 'GATE') as peer:
            peer.link.sendall(stored_in_part(b'1.2.3.4'))
        site.answers(gate)
        # a release within a data set is answered, and the instance isn't there
        with Requestor(site.ports['GATE'], 'SENDER', 'GATE') as peer:
            peer.link.sendall(stored_in_part(b'1.2.3.5') + RELEASE_RQ)
            same(exactly(peer.link, 10), RELEASE_RP)
        site.answers(gate)
        for _ in range(silent):
            socket.create_connection(('127.0.0.1', site.ports['GATE']), timeout=LIMIT).close()
        site.answers(gate)
        # as many as there are workers stay open, and say nothing; others wait for no longer than it takes until these are closed
        quiet = [socket.create_connection(('127.0.0.1', site.ports['GATE']), timeout=LIMIT) for _ in range(32)]
        time.sleep(0.2)
        for link in quiet:
            link.close()
        site.answers(gate)
        stop(gate)


def named(run, *wanted):
    """The run ended with one of these lines, and with the status of a fault of the store; no signal ended it."""
    assert run.returncode == 3 and run.stderr.decode() in [f'dr_router: {line}\n' for line in wanted], run


def spoilt_files():
    """A ledger's file that is no database, or that may not be written, is named; nothing is served."""
    with Site() as site:
        site.put('garbage.db', b'no database at all' * 300)
        named(site.at('serve', 'GATE', '--links', '1', ledger='garbage.db'), 'G3 Store')
        named(site.at('serve', 'GATE', '--links', '1', ledger='.'), 'G3 Store')
        named(site.at('serve', 'GATE', '--links', '1', ledger='none/GATE.db'), 'G3 Store')
        told(site.at('new', 'GATE'), 0, 'made\n', '')
        same(site.listed(), [('node', 'GATE'), ('lines', '0')])
        with open(f'{site.folder}/GATE.db', 'rb') as file:
            whole = file.read()
        site.put('cut.db', whole[:len(whole) // 2])
        cut = site.at('serve', 'GATE', '--links', '1', ledger='cut.db')
        assert cut.returncode in (1, 3) and cut.stderr in (b'dr_router: G3 Store\n', b'dr_router: G6 OtherSite\n'), cut
        # root may write everything: so another user tries
        os.chmod(f'{site.folder}/GATE.db', 0o444)
        os.chmod(site.folder, 0o555)
        other = {'user': NOBODY, 'group': NOBODY, 'extra_groups': []} if os.geteuid() == 0 else {}
        words = [PROGRAM, 'serve', 'plan', 'certificate', 'GATE', 'GATE.db', '--links', '1']
        try:
            reached = subprocess.run([PROGRAM, '--version'], cwd=site.folder, capture_output=True, check=False, **other).returncode == 0
        except OSError:
            reached = False
        if reached:
            named(subprocess.run(words, cwd=site.folder, capture_output=True, timeout=LIMIT, check=False, **other), 'G3 Store')
        os.chmod(site.folder, 0o700)


def full_disk():
    """On a disk that is full a ledger isn't opened; on one that becomes full what comes isn't acknowledged, what was stays, and the node
    goes on when there is room."""
    with Site() as site:
        disk = f'{site.folder}/disk'
        os.mkdir(disk)
        mount = ['mount', '-t', 'tmpfs', '-o', 'size=1m', 'none', disk]
        if os.geteuid() != 0 or subprocess.run(mount, capture_output=True, check=False).returncode != 0:
            print('interop: no disk can be mounted here')
            return
        try:
            fill(f'{disk}/ballast')
            named(site.at('serve', 'GATE', '--links', '1', ledger='disk/GATE.db'), 'G3 Store')
            os.truncate(f'{disk}/ballast', 300_000)
            for name in os.listdir(disk):
                if name != 'ballast':
                    os.remove(f'{disk}/{name}')
            gate = site.serve('GATE', 0, ledger='disk/GATE.db')
            taken = stores_until_refused(site)
            assert 0 < len(taken) < 100, taken
            site.answers(gate)
            os.remove(f'{disk}/ballast')
            with Requestor(site.ports['GATE'], 'SENDER', 'GATE') as sender:
                goes_on = sender.store(b'1.2.4', data_set(b'1.2.4', image(1000)))
            stop(gate)
            listing = site.at('list', 'GATE', ledger='disk/GATE.db')
            same((listing.returncode, listing.stderr), (0, b''))
            there = [line.split('\t')[2] for line in lines(listing.stdout) if line.startswith('arrival')]
            same(sorted(set(taken + ['1.2.4'] * (goes_on == 0))), sorted(there))
            same(goes_on, 0)
        finally:
            for process in site.running:
                stop(process)
            subprocess.run(['umount', disk], check=True)


def fill(path):
    with open(path, 'wb', buffering=0) as file:
        try:
            while True:
                file.write(bytes(4096))
        except OSError:
            pass


def stores_until_refused(site):
    """The uids that were answered success, up to the first that isn't: A700H, or no answer."""
    taken = []
    for number in range(100):
        uid = f'1.2.3.{number}'
        with Requestor(site.ports['GATE'], 'SENDER', 'GATE') as sender:
            try:
                status = sender.store(uid.encode(), data_set(uid.encode(), image(20_000)))
            except (EOFError, AssertionError, ConnectionResetError) as fault:
                print(f'interop: a full disk, no answer: {fault!r}')
                return taken
        if status != 0:
            same(status, 0xA700)
            return taken
        taken.append(uid)
    return taken


# ---- runs

def missing_tools():
    """Those of dcmtk's programs that aren't here."""
    return [tool for tool in TOOLS if not shutil.which(tool)]


def with_number(case, number):
    def run():
        case(number)
    run.__name__ = case.__name__
    return run


def main():
    if not os.path.exists(PROGRAM):
        sys.exit(f'{PROGRAM} is not built')
    missing = missing_tools()
    if missing:
        print(f"interop: skipped: {', '.join(missing)} of dcmtk (Debian's package dcmtk) isn't here")
        return
    rounds = int(sys.argv[1]) if len(sys.argv) > 1 else 5
    silent = int(sys.argv[2]) if len(sys.argv) > 2 else 500
    run_cases('interop', titles, passed_on, not_agreed, archive_away, with_number(killed, rounds), many, statuses, other_syntax, next_answers,
              with_number(hostile, silent), spoilt_files, full_disk)


if __name__ == '__main__':
    main()
