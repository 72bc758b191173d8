#!/usr/bin/env python3
"""Audits the ledgers of the sample plan's nodes, by `audit` of the built program: after nodes were killed, with a
ledger that is lost, older than the others, another one's or changed, and with nodes of other makers. Then nodes that
run, at rest and while images go on.

    tests/audit.py
"""
import json
import os
import shutil
import sqlite3
import sys
import time

sys.dont_write_bytecode = True
from at import Fake, whole
from control import Asked, put_token, storing
from lib.nodes import PLAN, TOP, Room, lines, part10, free_port, run_cases, same, stop, told

NODES = 'CT1', 'GATE', 'ARCH'
# For how many seconds images come at most, while nodes are audited.
MOST_SECONDS = 300
FIRST, SECOND = '1.2.3.4', '1.2.3.5'
# One row of each table changed, and a row more or less, each so that the tables no longer say what the journal's lines make.
CHANGES = (
    "UPDATE site SET node = 'CT1'",
    "UPDATE site SET plan = zeroblob(32)",
    "UPDATE site SET plan = substr(plan, 1, 31)",
    "UPDATE site SET plan = CAST(plan || zeroblob(8) AS BLOB)",
    "UPDATE item SET station = CAST('S2' AS BLOB)",
    "UPDATE item SET body = zeroblob(length(body)) WHERE length(body) > 0",
    "UPDATE print SET sha256 = zeroblob(32)",
    "UPDATE print SET length = length + 2",
    "UPDATE arrival SET caller = 'ARCH' WHERE rowid = 1",
    "DELETE FROM arrival WHERE rowid = 1",
    "UPDATE queue SET state = 0, tries = 0, due = 0 WHERE rowid = 1",
    "UPDATE queue SET state = 3 WHERE rowid = 1",
    "DELETE FROM queue WHERE rowid = 1",
    "UPDATE journal SET uid = '1.2.3.6' WHERE n = 1",
    "UPDATE journal SET sha256 = zeroblob(32) WHERE n = 1",
    "UPDATE journal SET outcome = 42752 WHERE n = 2",
    "UPDATE journal SET kind = 4 WHERE n = 2",
    "DELETE FROM journal WHERE n = 2",
    "DELETE FROM journal WHERE n = (SELECT max(n) FROM journal)",
    "UPDATE target SET dest = 'CT1' WHERE rowid = 1",
    "DELETE FROM target WHERE rowid = 1",
    "INSERT OR IGNORE INTO kept (uid) VALUES ('1.2.3.4')",
)


def audit(room, *more, folder='.'):
    return room.run('audit', *PLAN, folder, *more)


def refused(run, status, fault, node):
    """The fault, and below it the node at which it is."""
    told(run, status, '', f'dr_router: {fault}\n  node {node}\n')


def line(node, arrivals, kept=0, waiting=0, held=0, dropped=0, others=0):
    """How much a node has, as it is printed."""
    numbers = {'arrivals': arrivals, 'kept': kept, 'waiting': waiting, 'held': held, 'dropped': dropped, 'others': others}
    return '\t'.join(['node', node, *(part for word, number in numbers.items() for part in (word, str(number)))])


def holds(run, *nodes):
    told(run, 0, '\n'.join([f'holds\t{len(nodes)}', *nodes, '']), '')


def no(run, *parts):
    told(run, 1, '\t'.join(['no', *parts]) + '\n', '')


def kill(*processes):
    """Without a word, as by a lost power supply."""
    for process in processes:
        process.kill()
        process.wait()


def send(room, uid):
    """An instance enters at CT1, and goes as far as nodes run."""
    room.put('image.dcm', part10(uid.encode()))
    same(room.at('send', 'CT1', 'image.dcm').returncode, 0)


def carry(room, *uids, waiting=()):
    """Brings instances one after another by GATE to ARCH, with those that wait at GATE already, and kills both nodes then. What was tried
    in vain is tried again only after a while, so it may come after what is new."""
    running = [room.serve('ARCH', 0, '--log', 'debug'), room.serve('GATE', 0, '--log', 'debug')]
    for uid in uids:
        send(room, uid)
        room.wait_for_event('GATE', f'done dest="ARCH" uid={uid} ')
    for uid in waiting:
        room.wait_for_event('GATE', f'done dest="ARCH" uid={uid} ')
    kill(*running)


def files_of(node):
    return [f'{node}.db{end}' for end in ('', '-wal')]


def put_away(room, node, name):
    """Moves or copies nothing but what is there."""
    os.makedirs(f'{room.folder}/{name}', exist_ok=True)
    for file in files_of(node):
        if os.path.exists(f'{room.folder}/{file}'):
            shutil.copyfile(f'{room.folder}/{file}', f'{room.folder}/{name}/{file}')


def lose(room, node):
    for file in files_of(node):
        if os.path.exists(f'{room.folder}/{file}'):
            os.remove(f'{room.folder}/{file}')


def put_back(room, node, name):
    lose(room, node)
    for file in files_of(node):
        if os.path.exists(f'{room.folder}/{name}/{file}'):
            shutil.copyfile(f'{room.folder}/{name}/{file}', f'{room.folder}/{file}')


def change(room, node, *statements):
    """Changes a ledger behind the program's back."""
    with sqlite3.connect(f'{room.folder}/{node}.db') as ledger:
        for statement in statements:
            ledger.execute(statement)
    ledger.close()


def books(room):
    """What the nodes have, as `list` prints it."""
    listed = {node: room.at('list', node) for node in NODES}
    same({node: run.returncode for node, run in listed.items()}, dict.fromkeys(NODES, 0))
    return {node: lines(run.stdout) for node, run in listed.items()}


def after_kills():
    """Nodes are killed while an instance waits at GATE, and when all have come to their ends; each time all holds, and nothing is changed."""
    with Room() as room:
        same(room.at('new', 'ARCH').returncode, 0)
        gate = room.serve('GATE', 0)
        send(room, FIRST)
        kill(gate)
        before = books(room)
        holds(audit(room), line('CT1', 1), line('GATE', 1, waiting=1), line('ARCH', 0))
        same(books(room), before)
        carry(room, SECOND, waiting=[FIRST])
        before = books(room)
        holds(audit(room), line('CT1', 2), line('GATE', 2), line('ARCH', 2, kept=2))
        same(books(room), before)


def lost_files():
    """A ledger that isn't there is named, and none is made; an empty one in its place doesn't match."""
    with Room() as room:
        carry(room, FIRST)
        for node in NODES:
            put_away(room, node, 'all')
        for node in reversed(NODES):
            lose(room, node)
            no(audit(room), 'A1 NoFile', node)
            same(os.path.exists(f'{room.folder}/{node}.db'), False)
        for node in NODES:
            put_back(room, node, 'all')
        lose(room, 'GATE')
        same(room.at('new', 'GATE').returncode, 0)
        no(audit(room), 'A6 NoReason', 'ARCH', '1', FIRST, 'GATE')
        put_back(room, 'GATE', 'all')
        lose(room, 'ARCH')
        same(room.at('new', 'ARCH').returncode, 0)
        no(audit(room), 'A5 NoArrival', 'GATE', '2', FIRST, 'ARCH')
        no(audit(room, folder='nowhere'), 'A1 NoFile', 'CT1')


def old_backups():
    """A ledger of which the last lines are lost is told by its neighbour's line."""
    with Room() as room:
        carry(room, FIRST)
        for node in NODES:
            put_away(room, node, 'old')
        carry(room, SECOND)
        for node in NODES:
            put_away(room, node, 'new')
        whole = [line('CT1', 2), line('GATE', 2), line('ARCH', 2, kept=2)]
        holds(audit(room), *whole)
        put_back(room, 'ARCH', 'old')
        no(audit(room), 'A5 NoArrival', 'GATE', '4', SECOND, 'ARCH')
        put_back(room, 'ARCH', 'new')
        put_back(room, 'GATE', 'old')
        no(audit(room), 'A6 NoReason', 'ARCH', '2', SECOND, 'GATE')
        put_back(room, 'GATE', 'new')
        put_back(room, 'CT1', 'old')
        no(audit(room), 'A6 NoReason', 'GATE', '3', SECOND, 'CT1')
        for node in NODES:
            put_back(room, node, 'old')
        holds(audit(room), line('CT1', 1), line('GATE', 1), line('ARCH', 1, kept=1))
        for node in NODES:
            put_back(room, node, 'new')
        holds(audit(room), *whole)


def changed_rows():
    """A ledger of which one row was changed is refused when it is opened, or doesn't match: `holds` is never printed."""
    with Room() as room:
        carry(room, FIRST)
        for node in NODES:
            same(room.at('list', node).returncode, 0)  # what a killed node left beside its file goes into it
            put_away(room, node, 'all')
        for node in 'GATE', 'ARCH':
            for statement in CHANGES:
                put_back(room, node, 'all')
                with sqlite3.connect(f'{room.folder}/{node}.db') as ledger:
                    changed = ledger.execute(statement).rowcount
                ledger.close()
                run = audit(room)
                if changed < 1:
                    same(run.returncode, 0)
                    continue
                same((node, statement, run.returncode in (1, 3), b'holds' in run.stdout), (node, statement, True, False))
                same(run.stdout.startswith(b'no\tA') or run.stderr.endswith(f'\n  node {node}\n'.encode()), True)
            put_back(room, node, 'all')
        # a row and the lines that made it, so that the file is one of GATE's: an arrival that nobody sent
        change(room, 'CT1', "DELETE FROM journal", "DELETE FROM target", "DELETE FROM queue", "DELETE FROM arrival", "DELETE FROM item", "DELETE FROM print")
        no(audit(room), 'A6 NoReason', 'GATE', '1', FIRST, 'CT1')


def other_makers():
    """Nodes of other makers have no ledger here; their answers are counted, and their names are nodes of the plan."""
    with Room() as room:
        carry(room, FIRST)
        holds(audit(room), line('CT1', 1), line('GATE', 1), line('ARCH', 1, kept=1))
        lose(room, 'ARCH')
        holds(audit(room, '--other', 'ARCH'), line('CT1', 1), line('GATE', 1, others=1))
        lose(room, 'CT1')
        holds(audit(room, '--other', 'ARCH', '--other', 'CT1'), line('GATE', 1, others=1))
        holds(room.run('audit', '--other=CT1', '--other', 'ARCH', *PLAN, '.'), line('GATE', 1, others=1))
        no(audit(room, '--other', 'ARCH'), 'A1 NoFile', 'CT1')
        refused(audit(room, '--other', 'HUB'), 1, 'NoNode', 'HUB')
        holds(audit(room, '--other', 'ARCH', '--other', 'CT1', '--other', 'GATE'))
        same(audit(room, '--other').returncode, 2)
        same(room.run('audit', *PLAN).returncode, 2)


def files_of_others():
    """A ledger in use, of another node or of another plan isn't read; nor is one without a plan."""
    with Room() as room:
        carry(room, FIRST)
        gate = room.serve('GATE', 0)
        refused(audit(room), 3, 'G3 Store: in use', 'GATE')
        kill(gate)
        put_away(room, 'ARCH', 'all')
        lose(room, 'ARCH')
        for mine, other in zip(files_of('ARCH'), files_of('GATE')):
            if os.path.exists(f'{room.folder}/{other}'):
                shutil.copyfile(f'{room.folder}/{other}', f'{room.folder}/{mine}')
        refused(audit(room), 1, 'G6 OtherSite', 'ARCH')
        put_back(room, 'ARCH', 'all')
        with open(f'{TOP}/plans/three-nodes-next.toml', encoding='ascii') as file:
            room.put_plan(file.read(), ('next', 'next.certificate'))
        refused(room.run('audit', 'next', 'next.certificate', '.'), 1, 'G6 OtherSite', 'CT1')
        told(room.run('audit', 'plan', 'next.certificate', '.'), 1, '', 'dr_router: C2 OtherPlan\n')
        same(room.run('audit', 'nothing', 'certificate', '.').returncode, 3)
        lose(room, 'ARCH')
        room.put('ARCH.db', b'no database' * 100)
        lose(room, 'CT1')
        no(audit(room), 'A1 NoFile', 'CT1')
        refused(audit(room, '--other', 'CT1'), 3, 'G3 Store', 'ARCH')


def after_a_change_of_plan():
    """What was carried over when a plan was adopted is a reason to send it."""
    with Room() as room:
        same(room.at('new', 'ARCH').returncode, 0)
        gate = room.serve('GATE', 0)
        send(room, FIRST)
        kill(gate)
        with open(f'{TOP}/plans/three-nodes-next.toml', encoding='ascii') as file:
            room.put_plan(file.read(), ('next', 'next.certificate'))
        told(room.run('adopt', *PLAN, 'next', 'next.certificate', '.'), 0, 'adopted\n', '')
        by_next = ('audit', 'next', 'next.certificate', '.')
        no(room.run(*by_next), 'A1 NoFile', 'HUB')
        holds(room.run(*by_next, '--other', 'HUB'), line('CT1', 0), line('GATE', 0, waiting=1), line('ARCH', 0))
        running = [room.serve(node, 0, '--log', 'debug', plan=('next', 'next.certificate')) for node in ('ARCH', 'GATE')]
        room.wait_for_event('GATE', f'done dest="ARCH" uid={FIRST} ')
        kill(*running)
        holds(room.run(*by_next, '--other', 'HUB'), line('CT1', 0), line('GATE', 0), line('ARCH', 1, kept=1))


# The sample plan with a node before the first one: what enters there comes by it, so that all three others can run.
CLASS = 'class = "1.2.840.10008.5.1.4.1.1.2"\nsyntax = ["1.2.840.10008.1.2.1"]\n'
FOUR = (
    '[[node]]\nname = "MOD"\naddress = "127.0.0.1:1"\n'
    '[[node]]\nname = "CT1"\naddress = "127.0.0.1:1"\n[[node.accept]]\nfrom = ["MOD"]\n' + CLASS + '[[node.rule]]\nfrom = "MOD"\nto = ["GATE"]\n'
    '[[node]]\nname = "GATE"\naddress = "127.0.0.1:1"\n[[node.accept]]\nfrom = ["CT1"]\n' + CLASS + '[[node.rule]]\nfrom = "CT1"\nto = ["ARCH"]\n'
    '[[node]]\nname = "ARCH"\naddress = "127.0.0.1:1"\n[[node.accept]]\nfrom = ["GATE"]\n' + CLASS + '[[node.rule]]\nkeep = true\n'
    '[[flow]]\nat = "MOD"\nto = "CT1"\nclass = ["1.2.840.10008.5.1.4.1.1.2"]\nsyntax = ["1.2.840.10008.1.2.1"]\nmodality = ["CT"]\nstation = ["S1"]\n'
)


def at_words(nodes):
    return [word for node, asked in nodes.items() for word in ('--at', f'{node}={asked.at}')]


def audit_at(room, nodes, *more, plan=PLAN):
    return room.run('audit', *plan, '--other', 'MOD', *at_words(nodes), *more)


def at_rest(node):
    """Waits until no row of a node waits."""
    node.wait('/status', lambda told_lines: all(told_line.get('waiting', 0) == 0 for told_line in told_lines))


def figures(told_line):
    parts = told_line.split('\t')
    return parts[1], {parts[at]: int(parts[at + 1]) for at in range(2, len(parts), 2)}


def under_load():
    """Three nodes are audited while images go through them: all holds, what is under way is told as rows that wait, and nothing as missing. At rest
    the audit of the nodes prints what that of their files does."""
    with Room(FOUR) as room:
        nodes = {node: Asked(room, node, 0, token=False) for node in NODES}
        holds(audit_at(room, nodes), *(line(node, 0) for node in NODES))
        counts = []

        def look():
            end = time.monotonic() + MOST_SECONDS
            while (read := nodes['GATE'].read('/status')[0]['lines']) < 1_100 or len(counts) < 5:
                assert time.monotonic() < end, (read, counts)
                run = audit_at(room, nodes)
                same((run.returncode, run.stderr.decode()), (0, ''))
                head, *rest = lines(run.stdout)
                same(head, 'holds\t3')
                found = dict(map(figures, rest))
                # what came to a node and doesn't wait there is at the next one, or on its way into it
                for first, then in ('CT1', 'GATE'), ('GATE', 'ARCH'):
                    assert found[first]['arrivals'] - found[first]['waiting'] <= found[then]['arrivals'] <= found[first]['arrivals'], found
                same(found['ARCH']['kept'], found['ARCH']['arrivals'])
                counts.append(found['ARCH']['arrivals'])
        stored, _ = storing(room, 2, MOST_SECONDS, meanwhile=look, caller='MOD', called='CT1')
        same(counts, sorted(counts))
        for node in 'CT1', 'GATE':
            at_rest(nodes[node])
        running = audit_at(room, nodes)
        for asked in nodes.values():
            stop(asked.process)
        same(lines(running.stdout), lines(audit(room, '--other', 'MOD').stdout))
        holds(running, line('CT1', stored), line('GATE', stored), line('ARCH', stored, kept=stored))


def what_is_lost_at_nodes():
    """A node whose ledger was lost, or is older than its neighbours', is told while all run."""
    with Room(FOUR) as room:
        nodes = {node: Asked(room, node, 0, token=False) for node in NODES}
        storing(room, 1, 0.5, caller='MOD', called='CT1')
        for node in 'CT1', 'GATE':
            at_rest(nodes[node])
        same(audit_at(room, nodes).returncode, 0)
        for node, code in ('ARCH', 'A5 NoArrival'), ('GATE', 'A6 NoReason'), ('CT1', 'A6 NoReason'):
            stop(nodes[node].process)
            put_away(room, node, node)
            lose(room, node)
            lost = {**nodes, node: Asked(room, node, 0, token=False)}
            run = audit_at(room, lost)
            same((node, run.returncode, run.stdout.startswith(f'no\t{code}\t'.encode())), (node, 1, True))
            stop(lost[node].process)
            put_back(room, node, node)
            nodes[node] = Asked(room, node, 0, token=False)
            same(audit_at(room, nodes).returncode, 0)
        for asked in nodes.values():
            stop(asked.process)


def nodes_that_are_not_audited():
    """A node that doesn't answer, is another one, has another plan, wants a token, tells fewer lines than before, or is named in no way or in two."""
    with Room(FOUR) as room:
        nodes = {node: Asked(room, node, 0, token=False) for node in NODES}
        holds(audit_at(room, nodes), *(line(node, 0) for node in NODES))
        refused(audit_at(room, {**nodes, 'GATE': nodes['ARCH']}), 1, 'H4 OtherNode', 'GATE')
        refused(audit_at(room, nodes, '--at', f'GATE={nodes["GATE"].at}'), 1, 'Twice', 'GATE')
        refused(audit_at(room, nodes, '--other', 'ARCH'), 1, 'Twice', 'ARCH')
        refused(audit_at(room, nodes, '--at', f'HUB={nodes["GATE"].at}'), 1, 'NoNode', 'HUB')
        refused(audit_at(room, nodes, '--other', 'HUB'), 1, 'NoNode', 'HUB')
        refused(audit_at(room, nodes, '--at', nodes['GATE'].at), 1, 'NoNode', nodes['GATE'].at)
        no(audit_at(room, {node: nodes[node] for node in ('CT1', 'GATE')}), 'A7 NoAddress', 'ARCH')
        holds(room.run('audit', *PLAN, '--other=MOD', '--other=ARCH', f'--at=GATE={nodes["GATE"].at}', '--at', f'CT1={nodes["CT1"].at}'),
              line('CT1', 0), line('GATE', 0))
        # files are read, or nodes that run
        same(room.run('audit', *PLAN, '.', *at_words(nodes)).returncode, 2)
        # the same nodes by another plan, and one of them that was started with it
        room.put_plan(room.text('plan') + '# another plan\n', ('next', 'next.certificate'))
        refused(audit_at(room, nodes, plan=('next', 'next.certificate')), 1, 'H5 OtherPlan', 'CT1')
        stop(nodes['GATE'].process)
        other = Asked(room, 'GATE', 0, token=False, ledger='other.db', plan=('next', 'next.certificate'))
        refused(audit_at(room, {**nodes, 'GATE': other}), 1, 'H5 OtherPlan', 'GATE')
        stop(other.process)
        guarded = Asked(room, 'GATE', 0, '--control-anyone')
        refused(audit_at(room, {**nodes, 'GATE': guarded}), 1, 'H10 Token', 'GATE')
        holds(audit_at(room, {**nodes, 'GATE': guarded}, '--token', 'token'), *(line(node, 0) for node in NODES))
        put_token(room, 'another', text='another token of sixteen bytes\n')
        refused(audit_at(room, {**nodes, 'GATE': guarded}, '--token', 'another'), 1, 'H10 Token', 'GATE')
        same(audit_at(room, nodes, '--token', 'none').returncode, 3)
        stop(guarded.process)
        refused(audit_at(room, {**nodes, 'GATE': guarded}), 3, 'H1 NoConnection', 'GATE')
        plan = nodes['CT1'].read('/status')[0]['plan']
        head = {'node': 'GATE', 'plan': plan}
        asked = []

        def fewer(link, request):
            asked.append(request)
            link.sendall(whole(json.dumps({**head, 'lines': 3 - len(asked)}) + '\n'))
        fake = Fake(fewer)
        refused(audit_at(room, {**nodes, 'GATE': fake}), 1, 'H12 Shrunk', 'GATE')
        fake.close()
        adoption = {'line': 1, 'kind': 'adoption'}
        for name, told_lines, status, fault in (
            ('fewer lines than it told', [], 1, 'H12 Shrunk'),
            ('another number', [{**adoption, 'line': 2}], 3, 'H3 NoNodesAnswer'),
            ('no kind', [{'line': 1}], 3, 'H3 NoNodesAnswer'),
            ('another kind', [{'line': 1, 'kind': 'magic'}], 3, 'H3 NoNodesAnswer'),
            ('half a line', [{'line': 1, 'kind': 'settling', 'uid': '1.2'}], 3, 'H3 NoNodesAnswer'),
            ('a wide character', [{'line': 1, 'kind': 'forgetting', 'uid': '\u20ac'}], 3, 'H3 NoNodesAnswer'),
        ):
            text = ''.join(json.dumps(told_line) + '\n' for told_line in [{**head, 'lines': 1}, *told_lines])
            fake = Fake(lambda link, request, text=text: link.sendall(whole(text)))
            run = audit_at(room, {**nodes, 'GATE': fake})
            same((name, run.returncode, run.stdout, run.stderr.decode()), (name, status, b'', f'dr_router: {fault}\n  node GATE\n'))
            fake.close()
        # lines that are no history
        text = ''.join(json.dumps(told_line) + '\n' for told_line in [{**head, 'lines': 1}, {'line': 1, 'kind': 'forgetting', 'uid': '1.2'}])
        fake = Fake(lambda link, request: link.sendall(whole(text)))
        no(audit_at(room, {**nodes, 'GATE': fake}), 'A2 NoHistory', 'GATE')
        fake.close()
        nobody = f'127.0.0.1:{free_port()}'
        refused(room.run('audit', *PLAN, '--other', 'MOD', '--other', 'CT1', '--other', 'ARCH', '--at', f'GATE={nobody}'), 3, 'H1 NoConnection', 'GATE')
        for asked_node in nodes.values():
            stop(asked_node.process)


if __name__ == '__main__':
    run_cases('audit', after_kills, lost_files, old_backups, changed_rows, other_makers, files_of_others, after_a_change_of_plan,
              under_load, what_is_lost_at_nodes, nodes_that_are_not_audited)
