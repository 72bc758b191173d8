#!/usr/bin/env python3
"""Brings the ledgers of the sample plan's nodes over to other plans, by `adopt` of the built program. Meanwhile an
instance waits at CT1 and another one at GATE; under the next plan both go on.

    tests/adopting.py
"""
import os
import shutil
import sys

sys.dont_write_bytecode = True
from lib.nodes import PLAN, PROGRAM, TOP, Room, data_set, element, ended, lines, part10, run_cases, same, stop, told

NODES = 'ARCH', 'CT1', 'GATE'
NEXT, OTHER = ('next', 'next.certificate'), ('other', 'other.certificate')
with open(f'{TOP}/plans/three-nodes-next.toml', encoding='ascii') as file:
    NEXT_TEXT = file.read()


def changed(old, new):
    """The next plan, with one place of its text changed."""
    same(NEXT_TEXT.count(old), 1)
    return NEXT_TEXT.replace(old, new)


# GATE sends to HUB alone; CT1 sends past GATE, to ARCH
PAST_ARCH, PAST_GATE = changed('to = ["ARCH", "HUB"]', 'to = ["HUB"]'), changed('to = "GATE"', 'to = "ARCH"')
WITHOUT_ARCH = changed('"ARCH", ', '').replace('name = "ARCH"', 'name = "STORE"')


def prepare(room):
    """No node runs: 1.2.3.4 came by CT1 to GATE, where it waits for ARCH, and 1.2.3.5 waits at CT1 for GATE. ARCH has an empty ledger."""
    room.put_plan(NEXT_TEXT, NEXT)
    room.put('first.dcm', part10(b'1.2.3.4'))
    room.put('second.dcm', part10(b'1.2.3.5'))
    gate = room.serve('GATE', 1)
    same(room.at('send', 'CT1', 'first.dcm').returncode, 0)
    ended(gate)
    same(room.at('send', 'CT1', 'second.dcm').returncode, 0)
    same(cut(book(room, 'CT1')), ['node\tCT1', 'arrival\t-\t1.2.3.4', 'arrival\t-\t1.2.3.5', 'row\t1.2.3.4\tGATE\tdone', 'row\t1.2.3.5\tGATE\twaiting'])
    same(cut(book(room, 'GATE')), ['node\tGATE', 'arrival\tCT1\t1.2.3.4', 'row\t1.2.3.4\tARCH\twaiting'])
    told(room.at('new', 'ARCH'), 0, 'made\n', '')


def adopt(room, old=PLAN, new=NEXT, folder='.', without=()):
    return room.run('adopt', *old, *new, folder, *named(without))


def rehearse(room, old=PLAN, new=NEXT, folder='.', without=()):
    return room.run('adopt', '--dry-run', *old, *new, folder, *named(without))


def named(nodes):
    """The options that name nodes without a ledger."""
    return [word for node in nodes for word in ('--without', node)]


def refused(run, status, fault, node):
    """The fault, and below it the node at which it is."""
    told(run, status, '', f'dr_router: {fault}\n  node {node}\n')


def is_there(room, node):
    return os.path.exists(f'{room.folder}/{node}.db')


def book(room, node, plan=PLAN):
    """What the node has, as `list` prints it."""
    listed = room.at('list', node, plan=plan)
    same((listed.returncode, listed.stderr), (0, b''))
    return lines(listed.stdout)


def books(room, plan=PLAN):
    """What the nodes have that have something."""
    return {node: book(room, node, plan) for node in ('CT1', 'GATE')}


def cut(report):
    """A report without the tries and moments of its rows, and without the number of lines."""
    return [line.partition('\twaiting')[0] + '\twaiting' if '\twaiting' in line else line for line in report[:-1]]


def carried_over(report):
    """What the next plan has of a report: no arrival and no done row; the journal has one line more."""
    word, count = report[-1].split('\t')
    stays = [line for line in report[:-1] if not line.startswith('arrival\t') and not line.endswith('\tdone')]
    return [*stays, f'{word}\t{int(count) + 1}']


def kept(room, node, plan):
    return [line for line in book(room, node, plan) if line.startswith('kept\t')]


def copy(room, source, target):
    """Copies a ledger: its file, and the one beside it, if there is one."""
    for end in '', '-wal':
        source_path, target_path = f'{room.folder}/{source}.db{end}', f'{room.folder}/{target}.db{end}'
        if os.path.exists(source_path):
            shutil.copyfile(source_path, target_path)
        elif os.path.exists(target_path):
            os.remove(target_path)


def sent_once_more(room, plan):
    """What HUB keeps, after the first instance was sent once more from CT1, where it counts as new."""
    hub, gate = room.serve('HUB', 1, plan=plan), room.serve('GATE', 1, plan=plan)
    sent = room.at('send', 'CT1', 'first.dcm', plan=plan)
    same((sent.returncode, lines(sent.stdout)[:1]), (0, ['new']))
    ended(gate)
    return [line for line in ended(hub) if line.startswith('kept\t')]


def next_plan():
    """What waits is carried over, by one line of the journal; adopted twice is adopted once; a file of a third plan is refused."""
    with Room() as room:
        prepare(room)
        before = books(room)
        told(adopt(room), 0, 'adopted\n', '')
        same(is_there(room, 'HUB'), False)
        for node in NODES:
            told(room.at('list', node), 1, '', 'dr_router: G6 OtherSite\n')
        after, at_arch = books(room, NEXT), book(room, 'ARCH', NEXT)
        same(after, {node: carried_over(report) for node, report in before.items()})
        same(at_arch[:-1], ['node\tARCH'])
        told(adopt(room), 0, 'adopted\n', '')
        same((books(room, NEXT), book(room, 'ARCH', NEXT)), (after, at_arch))
        room.put_plan(PAST_ARCH, OTHER)
        refused(adopt(room, PLAN, OTHER), 1, 'G6 OtherSite', 'ARCH')
        same(books(room, NEXT), after)


def two_steps():
    """GATE sends to ARCH, then to HUB too, then to HUB alone: what waited goes on, what is kept stays, and what is sent once more is kept once."""
    size = len(data_set(b'1.2.3.4'))
    both = [f'kept\t1.2.3.4\t{size}', f'kept\t1.2.3.5\t{size}']
    with Room() as room:
        prepare(room)
        told(adopt(room), 0, 'adopted\n', '')
        running = [room.serve(node, 0, '--log', 'debug', plan=NEXT) for node in ('ARCH', 'HUB', 'GATE', 'CT1')]
        room.wait_for_event('CT1', 'done dest="GATE" uid=1.2.3.5 ')
        for done in 'dest="ARCH" uid=1.2.3.4', 'dest="ARCH" uid=1.2.3.5', 'dest="HUB" uid=1.2.3.5':
            room.wait_for_event('GATE', f'done {done} ')
        for process in running:
            stop(process)
        same(kept(room, 'ARCH', NEXT), both)
        same(kept(room, 'HUB', NEXT), both[1:])  # the other one was on its way to ARCH alone
        same(sent_once_more(room, NEXT), both)
        room.put_plan(PAST_ARCH, OTHER)
        told(adopt(room, NEXT, OTHER), 0, 'adopted\n', '')
        same(book(room, 'ARCH', OTHER)[:-1], ['node\tARCH', *both])
        same(book(room, 'HUB', OTHER)[:-1], ['node\tHUB', *both])
        same(book(room, 'GATE', OTHER)[:-1], ['node\tGATE'])
        same(sent_once_more(room, OTHER), both)
        same(kept(room, 'ARCH', OTHER), both)


def unfit_rows():
    """A row with which the next plan doesn't go on is named, the first one by the nodes' names, and no ledger has changed."""
    with Room() as room:
        prepare(room)
        before = books(room)
        room.put_plan(PAST_ARCH, OTHER)
        told(adopt(room, PLAN, OTHER), 1, 'no\tU1 Unfit\tGATE\t1.2.3.4\tARCH\n', '')
        same(books(room), before)
        room.put_plan(PAST_GATE, OTHER)
        told(adopt(room, PLAN, OTHER), 1, 'no\tU1 Unfit\tCT1\t1.2.3.5\tGATE\n', '')
        same(books(room), before)
        same(book(room, 'ARCH'), ['node\tARCH', 'lines\t0'])
        told(adopt(room), 0, 'adopted\n', '')


def held_rows():
    """A row that is held is tested as one that waits, and is carried over as it is; under the next plan it is queued again."""
    with Room() as room:
        room.put_plan(NEXT_TEXT, NEXT)
        room.put_plan(PAST_GATE, OTHER)
        room.put('image.dcm', part10(b'1.2.3.4'))
        room.put('changed.dcm', part10(b'1.2.3.4', element(0x10, 0x10, b'PN', b'Other')))
        told(room.at('new', 'ARCH'), 0, 'made\n', '')
        gate = room.serve('GATE', 2)
        same(room.at('send', 'CT1', 'image.dcm', ledger='first.db').returncode, 0)
        same(room.at('send', 'CT1', 'changed.dcm').returncode, 0)
        ended(gate)
        before = book(room, 'CT1')
        same(before[:-1], ['node\tCT1', 'arrival\t-\t1.2.3.4', 'row\t1.2.3.4\tGATE\theld\tC0F1'])
        told(adopt(room, PLAN, OTHER), 1, 'no\tU1 Unfit\tCT1\t1.2.3.4\tGATE\n', '')
        same(book(room, 'CT1'), before)
        told(adopt(room), 0, 'adopted\n', '')
        same(book(room, 'CT1', NEXT), carried_over(before))
        told(room.at('requeue', 'CT1', '1.2.3.4', 'GATE', plan=NEXT), 0, 'requeued\n', '')


def refused_plans():
    """Plans and certificates that don't fit are refused before a ledger is opened; none is made."""
    with Room() as room:
        prepare(room)
        copy(room, 'none', 'ARCH')
        before = books(room)
        room.put_plan(WITHOUT_ARCH, OTHER)
        refused(adopt(room, PLAN, OTHER), 1, 'NoNode', 'ARCH')
        told(adopt(room, (PLAN[0], NEXT[1]), NEXT), 1, '', 'dr_router: C2 OtherPlan\n')
        told(adopt(room, PLAN, (NEXT[0], PLAN[1])), 1, '', 'dr_router: C2 OtherPlan\n')
        told(adopt(room, PLAN, (NEXT[0], NEXT[0])), 1, '', 'dr_router: C1 Text\n')
        told(adopt(room, PLAN, ('none', NEXT[1])), 3, '', 'dr_router: none: No such file or directory (os error 2)\n')
        room.put('none', b'no plan')
        no_plan = adopt(room, PLAN, ('none', NEXT[1]))
        same((no_plan.returncode, no_plan.stdout, lines(no_plan.stderr)[:1]), (1, b'', ['dr_router: L1 NotToml']))
        same(room.run('adopt', *PLAN, *NEXT).returncode, 2)
        same(room.run('adopt', *PLAN, *NEXT, '.', 'more').returncode, 2)
        same((is_there(room, 'ARCH'), books(room)), (False, before))


def refused_files():
    """A file that is in use, is another node's or is no ledger is refused with its node's name, and no ledger has changed."""
    with Room() as room:
        prepare(room)
        before = books(room)
        gate = room.serve('GATE', 0)
        refused(adopt(room), 3, 'G3 Store: in use', 'GATE')
        stop(gate)
        same(book(room, 'CT1'), before['CT1'])
        before = books(room)  # GATE has tried once more to reach ARCH
        copy(room, 'GATE', 'saved')
        copy(room, 'CT1', 'GATE')
        refused(adopt(room), 1, 'G6 OtherSite', 'GATE')
        copy(room, 'none', 'GATE')
        room.put('GATE.db', b'no database at all' * 300)
        refused(adopt(room), 3, 'G3 Store', 'GATE')
        copy(room, 'saved', 'GATE')
        same(books(room), before)
        told(adopt(room), 0, 'adopted\n', '')


def missing_files():
    """A node without a file is refused by its name, before any ledger is changed, and no file is made."""
    with Room() as room:
        prepare(room)
        before = books(room)
        refused(adopt(room, folder='no/folder'), 3, 'G8 NoLedger', 'ARCH')
        refused(adopt(room, folder='no/folder', without=['ARCH']), 3, 'G8 NoLedger', 'CT1')
        told(rehearse(room, folder='no/folder'), 1, 'missing\tARCH\nmissing\tCT1\nmissing\tGATE\n', '')
        told(rehearse(room, folder='no/folder', without=['ARCH']), 1, 'missing\tCT1\nmissing\tGATE\n', '')
        room.put_plan(PAST_GATE, OTHER)
        copy(room, 'GATE', 'saved')
        copy(room, 'none', 'GATE')
        refused(adopt(room), 3, 'G8 NoLedger', 'GATE')
        told(rehearse(room), 1, 'missing\tGATE\n', '')
        told(adopt(room, PLAN, OTHER), 1, 'no\tU1 Unfit\tCT1\t1.2.3.5\tGATE\n', '')  # it comes before GATE
        told(rehearse(room, PLAN, OTHER), 1, 'no\tU1 Unfit\tCT1\t1.2.3.5\tGATE\nmissing\tGATE\n', '')
        same(is_there(room, 'GATE'), False)
        copy(room, 'saved', 'GATE')
        same(books(room), before)
        told(adopt(room), 0, 'adopted\n', '')


def named_nodes():
    """A node that is named by --without has no ledger, and gets none. One that has a file is refused, and so is a name of no node."""
    with Room() as room:
        prepare(room)
        before = books(room)
        copy(room, 'none', 'ARCH')
        refused(adopt(room), 3, 'G8 NoLedger', 'ARCH')
        for act in adopt, rehearse:
            told(act(room, folder='no/folder', without=NODES), 3, '', 'dr_router: G8 NoLedger\n')  # nobody is left
            refused(act(room, without=NODES[:2] + NODES[:1]), 1, 'G9 IsThere', 'CT1')
            refused(act(room, without=['STORE']), 1, 'NoNode', 'STORE')
            refused(act(room, without=['ARCH', 'HUB']), 1, 'NoNode', 'HUB')  # the next plan alone has it
            refused(act(room, without=['ARCH', 'GATE']), 1, 'G9 IsThere', 'GATE')
            refused(act(room, without=['GATE']), 1, 'G9 IsThere', 'GATE')  # before a ledger is looked for
        room.put_plan(WITHOUT_ARCH, OTHER)
        refused(adopt(room, PLAN, OTHER, without=['ARCH']), 1, 'NoNode', 'ARCH')  # it must be one of the next plan all the same
        room.put_plan(PAST_GATE, OTHER)
        told(adopt(room, PLAN, OTHER, without=['ARCH']), 1, 'no\tU1 Unfit\tCT1\t1.2.3.5\tGATE\n', '')
        same((is_there(room, 'ARCH'), books(room)), (False, before))
        told(rehearse(room, without=['ARCH']), 0, 'fits\n', '')
        told(room.run('adopt', '--without', 'ARCH', *PLAN, *NEXT, '.', '--without=ARCH'), 0, 'adopted\n', '')
        same(is_there(room, 'ARCH'), False)
        same(books(room, NEXT), {node: carried_over(report) for node, report in before.items()})
        told(adopt(room, without=['ARCH']), 0, 'adopted\n', '')
        same(room.run('adopt', *PLAN, *NEXT, '.', '--without').returncode, 2)


def some_files():
    """Where some nodes have the next plan and the others the one before, the same words bring the others over."""
    with Room() as room:
        prepare(room)
        copy(room, 'GATE', 'saved')
        told(adopt(room), 0, 'adopted\n', '')
        after = books(room, NEXT)
        copy(room, 'saved', 'GATE')
        same(cut(book(room, 'GATE'))[1:2], ['arrival\tCT1\t1.2.3.4'])
        told(adopt(room), 0, 'adopted\n', '')
        same(books(room, NEXT), after)


def rehearsals():
    """All rows that are in the way are named, and nothing has changed: no book and no owner."""
    with Room() as room:
        prepare(room)
        before = books(room)
        told(rehearse(room), 0, 'fits\n', '')
        for text, lines_of_rows in (
            (PAST_ARCH, ['no\tU1 Unfit\tGATE\t1.2.3.4\tARCH']),
            (PAST_GATE, ['no\tU1 Unfit\tCT1\t1.2.3.5\tGATE', 'no\tU1 Unfit\tGATE\t1.2.3.4\tARCH']),
        ):
            room.put_plan(text, OTHER)
            told(rehearse(room, PLAN, OTHER), 1, ''.join(f'{line}\n' for line in lines_of_rows), '')
            told(adopt(room, PLAN, OTHER), 1, f'{lines_of_rows[0]}\n', '')
        same(books(room), before)
        gate = room.serve('GATE', 0)
        same(rehearse(room).returncode, 3)
        stop(gate)
        room.put_plan(WITHOUT_ARCH, OTHER)
        refused(rehearse(room, PLAN, OTHER), 1, 'NoNode', 'ARCH')
        told(adopt(room), 0, 'adopted\n', '')
        told(rehearse(room), 0, 'fits\n', '')


def main():
    if not os.path.exists(PROGRAM):
        sys.exit(f'{PROGRAM} is not built')
    run_cases('adopting', next_plan, two_steps, unfit_rows, held_rows, refused_plans, refused_files, missing_files, named_nodes, some_files, rehearsals)


if __name__ == '__main__':
    main()
