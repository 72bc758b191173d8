#!/usr/bin/env python3
"""Opens ledger files from before: their journal's lines have no instances of their own, and they may lack the table of
prints, that of targets, or the index of the rows that are due. Each is made of a file of today by the sqlite3 of
Python, and is opened by the built program, which brings it over; then it is the file of today again, row by row. A file
that is refused stays as it was.

Files of today are opened too whose journal and whose tables don't agree: an instance that was forgotten is no item any
more, one that wasn't is the item that its lines show, and a row that was dropped is just that.

    tests/older.py
"""
import itertools
import os
import sqlite3
import sys

sys.dont_write_bytecode = True
from lib.nodes import PLAN, PROGRAM, Room, data_set, element, ended, part10, run_cases, same, stop, told
from adopting import NEXT, NEXT_TEXT, adopt, book, copy, kept, rehearse

TABLES = {
    'site': 'id', 'item': 'uid', 'print': 'uid', 'arrival': 'caller, uid', 'kept': 'uid', 'queue': 'uid, dest', 'journal': 'n', 'target': 'n, dest',
}
JOURNAL_BEFORE = ('CREATE TABLE journal (n INTEGER PRIMARY KEY, kind INTEGER NOT NULL, caller TEXT, uid TEXT REFERENCES item (uid), '
                  'dest TEXT, outcome INTEGER, moment INTEGER) STRICT')
# What no file from before has, beside the instances of its journal's lines, and what some lack.
LAST, LATER = 'arrival_uid', ('print', 'target', 'queue_due')
LESS = [less for count in range(4) for less in itertools.combinations(LATER, count)]
FIRST, SECOND = b'1.2.3.4', b'1.2.3.5'


def prepare(room):
    """1.2.3.4 went from CT1 by GATE to ARCH, which keeps it; 1.2.3.5 came to GATE, where it waits for ARCH."""
    room.put('first.dcm', part10(FIRST))
    room.put('second.dcm', part10(SECOND))
    arch, gate = room.serve('ARCH', 1), room.serve('GATE', 1)
    same(room.at('send', 'CT1', 'first.dcm').returncode, 0)
    ended(gate)
    ended(arch)
    gate = room.serve('GATE', 1)
    same(room.at('send', 'CT1', 'second.dcm').returncode, 0)
    ended(gate)


def opened(room, name):
    """The file as a database; what stands in the log beside it goes into it."""
    file = sqlite3.connect(f'{room.folder}/{name}.db')
    file.execute('PRAGMA wal_checkpoint(TRUNCATE)')
    return file


def all_of(room, name):
    """All that the file has: its tables and indexes in their order, and the rows of each table."""
    copy(room, name, 'looked-at')
    file = opened(room, 'looked-at')
    schema = file.execute('SELECT type, name, tbl_name, sql FROM sqlite_schema ORDER BY rowid').fetchall()
    there = [name for kind, name, *_ in schema if kind == 'table']
    rows = {table: file.execute(f'SELECT * FROM {table} ORDER BY {key}').fetchall() for table, key in TABLES.items() if table in there}
    file.close()
    return schema, rows


def make_older(room, name, source, less, more=()):
    """A copy of the file with the journal as it was, without some of what came later. Before there were prints each data set stayed in its file. All is
    made again in the order in which it was made then, and VACUUM numbers it without gaps."""
    schema, rows = all_of(room, source)
    copy(room, source, name)
    file = opened(room, name)
    file.execute('PRAGMA foreign_keys = OFF')
    for table in reversed(TABLES):
        file.execute(f'DROP TABLE {table}')
    for _, it, table, text in schema:
        if text and not {it, table} & {LAST, *less}:
            file.execute(JOURNAL_BEFORE if it == 'journal' else text)
    for table in TABLES.keys() - set(less):
        for row in rows[table]:
            row = row[:7] if table == 'journal' else row
            file.execute(f'INSERT INTO {table} VALUES ({", ".join("?" * len(row))})', row)
    if 'print' in less:
        for uid in FIRST, SECOND:
            file.execute('UPDATE item SET body = ? WHERE uid = ?', (data_set(uid), uid.decode()))
    end_with(file, more)


def end_with(file, statements):
    """Runs these, and closes the file, all of it in its place."""
    for statement in statements:
        file.execute(statement)
    file.commit()
    file.execute('VACUUM')
    file.close()


def make_other(room, name, source, statements):
    """A copy of the file in which these were run."""
    copy(room, source, name)
    file = opened(room, name)
    file.execute('PRAGMA foreign_keys = OFF')
    end_with(file, statements)


def listed(room, node, name):
    run = room.at('list', node, ledger=f'{name}.db')
    same((run.returncode, run.stderr), (0, b''))
    return run.stdout


def summed_up(room, node, name):
    run = room.at('list', node, '--summary', ledger=f'{name}.db')
    same((run.returncode, run.stderr), (0, b''))
    return run.stdout


def older_files():
    """Each is brought over as it is opened, and is the file of today then."""
    with Room() as room:
        prepare(room)
        for node in 'CT1', 'GATE', 'ARCH':
            book(room, node)
            today, report, summary = all_of(room, node), listed(room, node, node), summed_up(room, node, node)
            same([name for kind, name, *_ in today[0] if kind == 'table'], list(TABLES))
            for less in LESS:
                make_older(room, 'older', node, less)
                before = [name for _, name, *_ in all_of(room, 'older')[0]]
                same([later in before for later in (*LATER, LAST)], [later not in (*less, LAST) for later in (*LATER, LAST)])
                same(listed(room, node, 'older'), report)
                same(all_of(room, 'older'), today)
                same((listed(room, node, 'older'), summed_up(room, node, 'older')), (report, summary))


def what_is_let_go():
    """The length and the SHA-256 of a data set stay where it isn't needed any more, and it goes; one that is needed stays."""
    with Room() as room:
        prepare(room)
        make_older(room, 'older', 'GATE', tuple(LATER))
        same([row[-1] for row in all_of(room, 'older')[1]['item']], [data_set(FIRST), data_set(SECOND)])
        listed(room, 'GATE', 'older')
        rows = all_of(room, 'older')[1]
        same([(row[0], row[1], row[3]) for row in rows['print']], [('1.2.3.4', len(data_set(FIRST)), 0), ('1.2.3.5', len(data_set(SECOND)), 1)])
        same([row[-1] for row in rows['item']], [b'', data_set(SECOND)])
        same([row[1] for row in rows['target']], ['ARCH', 'ARCH'])


def goes_on():
    """What waits in a file from before goes on."""
    with Room() as room:
        prepare(room)
        make_older(room, 'older', 'GATE', tuple(LATER))
        copy(room, 'older', 'GATE')
        running = [room.serve('ARCH', 0), room.serve('GATE', 0, '--log', 'debug')]
        room.wait_for_event('GATE', 'done dest="ARCH" uid=1.2.3.5 ')
        for process in running:
            stop(process)
        same(kept(room, 'ARCH', PLAN), [f'kept\t{uid.decode()}\t{len(data_set(uid))}' for uid in (FIRST, SECOND)])


def refused_files():
    """A file from before of another node, of another plan, without a data set, with rows that its journal doesn't make, or with an adoption and
    without targets is refused, and stays as it was."""
    with Room() as room:
        prepare(room)
        room.put_plan(NEXT_TEXT, NEXT)
        less = tuple(LATER)
        changes = (
            ('GATE', less, ["UPDATE item SET body = x'00' WHERE uid = '1.2.3.4'"]),
            ('GATE', less, ["UPDATE item SET station = x'5332' WHERE uid = '1.2.3.4'"]),
            ('GATE', less, ["UPDATE queue SET state = 2"]),
            ('GATE', less, ["DELETE FROM arrival WHERE uid = '1.2.3.4'"]),
            ('GATE', less, ["DELETE FROM journal WHERE n = 2"]),
            ('GATE', ('target',), ["UPDATE print SET whole = 1"]),
            ('GATE', ('queue_due',), ["DELETE FROM target WHERE n = 1"]),
            ('GATE', less, ["CREATE TABLE more (id INTEGER PRIMARY KEY)"]),
            ('GATE', (), ["UPDATE journal SET uid = '1.2.3.5' WHERE n = 1"]),
            ('GATE', (), ["INSERT INTO journal SELECT max(n) + 1, 5, NULL, '1.2.3.4', NULL, NULL, NULL FROM journal"]),
            ('GATE', (), ["INSERT INTO journal SELECT max(n) + 1, 6, NULL, '1.2.3.5', 'ARCH', NULL, 6 FROM journal"]),
            ('GATE', (), ["CREATE INDEX arrival_uid ON arrival (uid)"]),
            ('CT1', less, []),
        )
        for node, lacks, more in changes:
            make_older(room, 'older', node, lacks, more)
            refused(room, 'older')
        make_older(room, 'older', 'GATE', less)
        before = all_of(room, 'older')
        told(room.at('list', 'GATE', ledger='older.db', plan=NEXT), 1, '', 'dr_router: G6 OtherSite\n')
        same(all_of(room, 'older'), before)
        told(adopt(room), 0, 'adopted\n', '')
        make_older(room, 'older', 'GATE', ('target',))
        before = all_of(room, 'older')
        told(room.at('list', 'GATE', ledger='older.db', plan=NEXT), 1, '', 'dr_router: G6 OtherSite\n')
        same(all_of(room, 'older'), before)


LEAVE = {table: f"DELETE FROM {table} WHERE uid = '1.2.3.4'" for table in ('queue', 'arrival', 'print', 'item')}
LET_GO = "INSERT INTO journal (n, kind, uid) SELECT max(n) + 1, 5, '1.2.3.4' FROM journal"


def forgotten():
    """1.2.3.4, which GATE has sent on, was forgotten: all but its lines is gone, and the file is a ledger's. When it comes again, it may be another one."""
    with Room() as room:
        prepare(room)
        make_other(room, 'other', 'GATE', [*LEAVE.values(), LET_GO])
        before = all_of(room, 'other')
        same([it for it in listed(room, 'GATE', 'other').decode().splitlines() if '1.2.3.4' in it], [])
        same(all_of(room, 'other'), before)
        copy(room, 'other', 'GATE')
        more = element(0x10, 0x10, b'PN', b'Another')
        room.put('again.dcm', part10(FIRST, more))
        gate = room.serve('GATE', 1)
        same(room.at('send', 'CT1', 'again.dcm', ledger='more.db').returncode, 0)
        ended(gate)
        listed(room, 'GATE', 'GATE')
        rows = all_of(room, 'GATE')[1]
        same([row[11] for row in rows['journal'] if row[1] == 0 and row[3] == '1.2.3.4'], [len(data_set(FIRST)), len(data_set(FIRST, more))])
        same([row[1] for row in rows['print'] if row[0] == '1.2.3.4'], [len(data_set(FIRST, more))])


def not_forgotten():
    """Where something is left of an instance that was forgotten, or something is gone of one that wasn't, or one was forgotten that wasn't over or wasn't
    there, the file is no ledger's. What refers to an item that isn't there can't be read."""
    with Room() as room:
        prepare(room)
        for left in ('queue',), ('arrival',), ('print',), ('item',), ('print', 'item'), tuple(LEAVE):
            make_other(room, 'other', 'GATE', [*(text for table, text in LEAVE.items() if table not in left), LET_GO])
            refused(room, 'other', *(() if 'item' in left else (3, 'G3 Store')))
        for statements in ([*LEAVE.values()], [*LEAVE.values(), LET_GO, LET_GO], [LET_GO.replace('1.2.3.4', '1.2.3.5')]):
            make_other(room, 'other', 'GATE', statements)
            refused(room, 'other')


# What makes of 1.2.3.5, which waits at GATE for ARCH, one that ARCH refused, and that a person gave up then.
REFUSED = "INSERT INTO journal (n, kind, uid, dest, outcome, moment) SELECT max(n) + 1, 2, '1.2.3.5', 'ARCH', 49152, 5 FROM journal"
GIVEN_UP = "INSERT INTO journal (n, kind, uid, dest, moment) SELECT max(n) + 1, 6, '1.2.3.5', 'ARCH', 6 FROM journal"
DROPPED = "UPDATE queue SET state = 3, tries = 0, due = 0, cause = NULL WHERE uid = '1.2.3.5'"
UNNOTED = "DELETE FROM arrival WHERE uid = '1.2.3.5'"
UNNEEDED = "UPDATE print SET whole = 0 WHERE uid = '1.2.3.5'"
BODILESS = "UPDATE item SET body = x'' WHERE uid = '1.2.3.5'"
GIVING_UP = REFUSED, GIVEN_UP, DROPPED, UNNOTED, UNNEEDED, BODILESS


def dropped():
    """1.2.3.5 was given up: its row says so, nobody's arrival of it is noted, and the file is a ledger's. When it comes again it waits anew, and goes on."""
    with Room() as room:
        prepare(room)
        make_other(room, 'other', 'GATE', GIVING_UP)
        before = all_of(room, 'other')
        same([it for it in listed(room, 'GATE', 'other').decode().splitlines() if '1.2.3.5' in it], ['row\t1.2.3.5\tARCH\tdropped'])
        same(all_of(room, 'other'), before)
        copy(room, 'other', 'GATE')
        arch, gate = room.serve('ARCH', 1), room.serve('GATE', 1)
        same(room.at('send', 'CT1', 'second.dcm', ledger='more.db').returncode, 0)
        ended(gate)
        ended(arch)
        rows = all_of(room, 'GATE')[1]
        same([(row[1], row[2]) for row in rows['queue'] if row[0] == '1.2.3.5'], [('ARCH', 2)])
        same(kept(room, 'ARCH', PLAN), [f'kept\t{uid.decode()}\t{len(data_set(uid))}' for uid in (FIRST, SECOND)])


def not_dropped():
    """Where a part of that is missing, or the row says something else, the file is no ledger's."""
    with Room() as room:
        prepare(room)
        for missing in GIVING_UP[:-1]:
            make_other(room, 'other', 'GATE', [it for it in GIVING_UP if it != missing])
            refused(room, 'other')
        for state in 0, 1, 2:
            make_other(room, 'other', 'GATE', [*GIVING_UP, DROPPED.replace('state = 3', f'state = {state}')])
            refused(room, 'other')


def other_lines():
    """A journal whose lines show another instance than the item, or none, is no ledger's, though the item was let go."""
    with Room() as room:
        prepare(room)
        for change in "class = '1.2'", "syntax = 'I'", "modality = x'4D52'", "station = x'5332'", 'length = length + 1', 'sha256 = zeroblob(32)':
            make_other(room, 'other', 'GATE', [f"UPDATE journal SET {change} WHERE n = 1"])
            refused(room, 'other')
        make_other(room, 'other', 'GATE', ["UPDATE journal SET length = NULL WHERE n = 1"])
        same(room.at('list', 'GATE', ledger='other.db').returncode != 0, True)


def refused(room, name, status=1, why='G6 OtherSite'):
    """GATE's ledger in that file isn't opened, and the file stays as it was."""
    before = all_of(room, name)
    told(room.at('list', 'GATE', ledger=f'{name}.db'), status, '', f'dr_router: {why}\n')
    same(all_of(room, name), before)


def rehearsed():
    """A rehearsal of a change of plan names a file from before, and leaves it as it is."""
    with Room() as room:
        prepare(room)
        room.put_plan(NEXT_TEXT, NEXT)
        make_older(room, 'older', 'GATE', LATER)
        copy(room, 'older', 'GATE')
        before = all_of(room, 'GATE')
        told(rehearse(room), 1, 'older\tGATE\n', '')
        same(all_of(room, 'GATE'), before)


def main():
    if not os.path.exists(PROGRAM):
        sys.exit(f'{PROGRAM} is not built')
    run_cases('older', older_files, what_is_let_go, goes_on, refused_files, forgotten, not_forgotten, dropped, not_dropped, other_lines, rehearsed)


if __name__ == '__main__':
    main()
