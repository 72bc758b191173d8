#!/usr/bin/env python3
"""Answers the calls in the `stdin` of tests/played/ledger (ledgers in memory) and of tests/played/tables (ledgers in
tables) by a ledger of its own, written again from crates/dr_ledger/specs (Books, Replies, Adopting, Bodies) and
crates/dr_ledger_views/specs (Views). It compares what it answers with the `stdout` there, with which tests/played.py
compares what the ledgers answer. So the answers that are wanted come from outside the programs. `Memory` is none of
them: with ample memory no call may answer it.

The lines for ledgers in tables begin with those for ledgers in memory, but for `refuse` and `refusals`, and this is
looked at too. Behind them the files are closed, changed, opened again and stopped, and desks are shared. How often a
disk can be stopped in a call is the program's to say; of what it says of those stops, it is looked at that each is
answered as it may be, and that the numbers go together.

    tests/ledger_rows.py              says where they differ; its status is 0 where they don't
    tests/ledger_rows.py --print      prints the answers of ledgers in memory
    tests/ledger_rows.py --lines      prints the lines with which those for ledgers in tables begin
"""
import hashlib
import os
import re
import sys

sys.dont_write_bytecode = True
from lib.plan_model import REST, Model
from lib.plan_reader import EXPLICIT, IMPLICIT, read_text

TOP = os.path.dirname(os.path.dirname(os.path.abspath(__file__)))
MEMORY, TABLES = f'{TOP}/tests/played/ledger', f'{TOP}/tests/played/tables'
COUNTS = re.compile(r'(?:log|database): (\d+) stops(?: \| while opening (\d+)| behind the \d+ of opening)((?: \| [^|]*: \d+)*) \| after, as written (\d+), as synced (\d+)')
# What makes files from before of a ledger's, besides the rows of the journal and of target.
UNMAKE = 'DROP INDEX arrival_uid', 'DROP INDEX queue_due', 'DROP TABLE target', 'DROP TABLE journal'
JOURNAL_BEFORE = ('CREATE TABLE journal (n INTEGER PRIMARY KEY, kind INTEGER NOT NULL, caller TEXT, uid TEXT REFERENCES item (uid), '
                  'dest TEXT, outcome INTEGER, moment INTEGER) STRICT')
TARGET = 'CREATE TABLE target (n INTEGER NOT NULL REFERENCES journal (n), dest TEXT NOT NULL, PRIMARY KEY (n, dest)) STRICT'
QUEUE_DUE = 'CREATE INDEX queue_due ON queue (dest, state, due, uid)'
UNCOUNTED = 'Store, 0 lines, 0 counted, 0 receipts; '
LARGEST = 64 * 1024 * 1024
NAMES = {(0x0008, 0x0016): 'class', (0x0008, 0x0018): 'uid', (0x0008, 0x0060): 'modality', (0x0008, 0x1010): 'station'}


class Refused(Exception):
    """A call that is refused; the argument is the fault."""


# ---- data sets (PS3.5 7.1.2), of short elements alone

def elements(data):
    while data:
        if len(data) < 8 or len(data) < 8 + int.from_bytes(data[6:8], 'little'):
            raise Refused('I1 Data')
        length = int.from_bytes(data[6:8], 'little')
        yield (int.from_bytes(data[:2], 'little'), int.from_bytes(data[2:4], 'little')), data[8:8 + length]
        data = data[8 + length:]


def is_uid(text):
    return 1 <= len(text) <= 64 and all('!' <= it <= '~' for it in text)


def read_item(syntax, data):
    """Its uid, key and data set."""
    if len(data) > LARGEST:
        raise Refused('I3 TooLarge')
    values = {NAMES[tag]: value.decode().rstrip('\0 ') for tag, value in elements(data) if tag in NAMES}
    if not is_uid(values.get('class', '')) or not is_uid(values.get('uid', '')):
        raise Refused('I2 NoUid')
    return values['uid'], (values['class'], syntax, values.get('modality', ''), values.get('station', '')), data


def shown(item):
    uid, (sop_class, syntax, modality, station), data = item
    return f'{uid} {sop_class} {modality} {station} {"Explicit" if syntax == EXPLICIT else "Implicit"} {len(data)}'


# ---- sites

class Site:
    def __init__(self, text, node):
        self.text, self.node, self.model = text, node, Model(*read_text(text))
        self.stops = self.model.reached()

    def is_same(self, other):
        return (self.text, self.node) == (other.text, other.node)

    def stop(self, caller, key):
        parts = self.model.parts
        return caller, self.node, (*key[:2], *(it if it in parts[field] else REST for field, it in zip(('modality', 'station'), key[2:])))

    def goes_on(self, node, key, dest):
        """Whether some walk brings the key from the node to the destination."""
        return (node, dest, Site.stop(self, node, key)[2]) in self.stops


# ---- ledgers; each call gives what is printed of its answer

# outcomes that hold a row without a status, and the names of their causes
NO_ANSWERS = {'no-context': 'NoContext', 'unreadable': 'Unreadable'}


def told(row):
    if row is None:
        return 'None'
    kind, *parts = row
    if kind == 'waiting':
        return f'Some(Waiting {{ tries: {parts[0]}, due: {parts[1]} }})'
    if kind in ('done', 'dropped'):
        return f'Some({kind.title()})'
    return f'Some(Held({NO_ANSWERS.get(parts[0]) or f"Status({parts[0]})"}))'


def shown_rows(rows):
    """Rows of a list, each on a line of its own."""
    return ''.join(f'\n{uid} {dest} {told(row)[5:-1]}' for (uid, dest), row in rows)


def is_queued(row):
    return row[0] in ('waiting', 'held')


class Ledger:
    def __init__(self, site):
        self.site, self.items, self.bodies, self.arrivals, self.kept, self.rows, self.journal = site, {}, set(), set(), set(), {}, []
        self.digests = []
        self.armed, self.made, self.changed, self.unmade = False, 0, False, 0

    def add(self, line, item=None):
        """The line, where the store takes it, and beside it the SHA-256 of its data set."""
        if self.armed:
            self.armed, self.made = False, self.made + 1
            raise Refused('Store')
        self.journal.append(line)
        self.digests.append(f' {hashlib.sha256(item[2]).hexdigest().upper()}' if item else '')

    def let_go(self):
        needed = self.kept | {uid for (uid, dest), row in self.rows.items() if is_queued(row)}
        self.bodies &= needed

    def admits(self, caller, item):
        if self.site.stop(caller, item[1]) not in self.site.stops:
            raise Refused('NoLine')
        if self.items.get(item[0], item) != item:
            raise Refused('Conflict')
        return '()'

    def arrive(self, caller, item):
        self.admits(caller, item)
        uid, key, _ = item
        if (caller, uid) in self.arrivals:
            self.add(f'repeat {caller} {shown(item)}', item)
            return 'Again'
        stop = self.site.stop(caller, key)
        to, keep = self.site.model.sends(stop), self.site.model.keeps(stop)
        self.add(f'arrival {caller} {shown(item)}' + ''.join(f' to {it}' for it in to) + ' keep' * keep, item)
        self.items[uid] = item
        self.arrivals.add((caller, uid))
        if keep:
            self.kept.add(uid)
        for dest in to:
            if self.rows.get((uid, dest), ('dropped',)) == ('dropped',):
                self.rows[uid, dest] = ('waiting', 0, 0)
        self.bodies.add(uid)
        self.let_go()
        return 'New'

    def first_at(self, dest, now):
        due = [(row[2], uid) for (uid, to), row in self.rows.items() if to == dest and row[0] == 'waiting' and row[2] <= int(now)]
        return min(due)[1] if due else None

    def next(self, dest, now):
        uid = self.first_at(dest, now)
        return shown(self.items[uid]) if uid else 'nothing'

    def due(self, dest, now):
        return self.first_at(dest, now) or 'nothing'

    def settle(self, uid, dest, outcome, now):
        row = self.rows.get((uid, dest))
        if row is None or row[0] != 'waiting':
            raise Refused('NotWaiting')
        self.add(f'settling {uid} {dest} {outcome} {now}')
        status = None if outcome == 'broken' or outcome in NO_ANSWERS else int(outcome, 16)
        if status is not None and (status == 0 or 0xB000 <= status <= 0xBFFF):
            row = ('done',)
        elif outcome == 'broken' or status is not None and 0xA700 <= status <= 0xA7FF:
            tries = row[1] + 1
            row = ('waiting', tries, int(now) + 1000 * min(300, 2 ** (tries - 1)))
        else:
            row = ('held', outcome if status is None else status)
        self.rows[uid, dest] = row
        self.let_go()
        return '()'

    def requeue(self, uid, dest):
        if self.rows.get((uid, dest), ('none',))[0] != 'held':
            raise Refused('NotHeld')
        self.add(f'requeuing {uid} {dest}')
        self.rows[uid, dest] = ('waiting', 0, 0)
        return '()'

    def give_up(self, uid, dest, now):
        if self.rows.get((uid, dest), ('none',))[0] != 'held':
            raise Refused('NotHeld')
        self.add(f'dropping {uid} {dest} {now}')
        self.rows[uid, dest] = ('dropped',)
        self.arrivals = {at for at in self.arrivals if at[1] != uid}
        self.let_go()
        return '()'

    def has(self, uid):
        return str(uid in self.items).lower()

    def is_over(self, uid):
        return str(uid in self.items and uid not in self.kept and not any(is_queued(row) for (it, _), row in self.rows.items() if it == uid)).lower()

    def forget(self, uid):
        if self.is_over(uid) == 'false':
            raise Refused('NotOver')
        self.add(f'forgetting {uid}')
        del self.items[uid]
        self.arrivals = {at for at in self.arrivals if at[1] != uid}
        self.rows = {at: row for at, row in self.rows.items() if at[0] != uid}
        return '()'

    def has_body(self, uid):
        return str(uid in self.bodies).lower()

    def progress(self, uid, dest):
        return told(self.rows.get((uid, dest)))

    def report(self):
        def state(row):
            if row[0] == 'held':
                return 'held\t' + (row[1] if row[1] in NO_ANSWERS else f'{row[1]:04X}')
            return '\t'.join(map(str, row))
        rows = [*(f'arrival\t{c}\t{u}' for c, u in sorted(self.arrivals)), *(f'kept\t{u}\t{len(self.items[u][2])}' for u in sorted(self.kept)),
                *(f'row\t{u}\t{d}\t{state(r)}' for (u, d), r in sorted(self.rows.items())), f'lines\t{len(self.journal)}']
        return '\n' + '\n'.join(rows)

    def count_arrivals(self):
        return str(len(self.arrivals))

    def count_kept(self):
        return str(len(self.kept))

    def count_rows(self, dest, stage):
        return str(sum(to == dest and row[0] == stage for (_, to), row in self.rows.items()))

    def first_due(self, dest):
        due = [row[2] for (_, to), row in self.rows.items() if to == dest and row[0] == 'waiting']
        return f'Some({min(due)})' if due else 'None'

    def tally(self, dest):
        stages = 'waiting', 'held', 'done', 'dropped'
        return ', '.join([*(f'{it} {self.count_rows(dest, it)}' for it in stages), f'due {self.first_due(dest)}'])

    def rows_of(self, uid):
        return shown_rows(it for it in sorted(self.rows.items()) if it[0][0] == uid)

    def page(self, dest, stage, after, limit):
        behind = '' if after == '-' else after
        rows = [(at, row) for at, row in sorted(self.rows.items()) if at[1] == dest and at[0] > behind and stage in ('any', row[0])]
        return shown_rows(rows[:int(limit)])

    def callers_of(self, uid):
        return ' '.join(caller for caller, it in sorted(self.arrivals) if it == uid)

    def lines(self):
        return ''.join(f'\n{it}' for it in self.journal)

    def whole_lines(self):
        """The lines, each with the SHA-256 of its data set."""
        return ''.join(f'\n{line}{digest}' for line, digest in zip(self.journal, self.digests))

    def first_unfit(self, following):
        wrong = [at for at, row in self.rows.items() if is_queued(row) and not following.goes_on(self.site.node, self.items[at[0]][1], at[1])]
        return min(wrong, default=None)

    def adopt(self, site, following):
        if not self.site.is_same(site) or self.first_unfit(following):
            return 'false'
        self.add('adoption')
        self.site, self.arrivals = following, set()
        self.rows = {at: row for at, row in self.rows.items() if is_queued(row)}
        return 'true'


# ---- files from before

def cell(value):
    return 'NULL' if value is None else str(value) if isinstance(value, int) else f"'{value}'"


def row_before(number, line):
    """The row of a journal whose lines had no instance of their own."""
    what, *words = line.split()
    if what in ('arrival', 'repeat'):
        kind = int(what == 'repeat')
        return number, kind, *words[:2], None, kind, None
    if what == 'settling':
        uid, dest, outcome, now = words
        return number, 2, None, uid, dest, {'broken': None, 'no-context': -1, 'unreadable': -2}[outcome] if len(outcome) > 4 else int(outcome, 16), int(now)
    return (number, 3, None, *words, None, None) if what == 'requeuing' else (number, 4, *5 * [None])


def targets_before(number, line):
    """Where a first arrival goes on to."""
    words = line.split() if line.startswith('arrival') else []
    return [*([(number, '-')] if words[-1:] == ['keep'] else []), *((number, it) for at, it in zip(words, words[1:]) if at == 'to')]


def added(table, rows):
    return [f'INSERT INTO {table} VALUES ({", ".join(map(cell, row))})' for row in rows]


def steps_back(journal):
    """The statements that make files from before of those of a ledger with this journal, each with whether the files can be opened behind it: without
    targets only where no adoption has been."""
    numbered = [*enumerate(journal, 1)]
    lines = added('journal', (row_before(*it) for it in numbered))
    targets = added('target', (row for it in numbered for row in targets_before(*it)))
    first, second = [*UNMAKE, JOURNAL_BEFORE, *lines], [TARGET, *targets]
    is_known = 'adoption' not in journal
    return [*((it, False) for it in first[:-1]), (first[-1], is_known), *((it, False) for it in second[:-1]), (second[-1], True), (QUEUE_DUE, True)]


# ---- the lines of the input

class Playing:
    def __init__(self):
        self.plans, self.items, self.ledger, self.files, self.last = {}, {}, None, None, None

    def site(self, plan, node):
        return Site(self.plans[plan].encode(), node)

    def item(self, name, letter, data):
        item = read_item({'E': EXPLICIT, 'I': IMPLICIT}[letter], data)
        self.items[name] = item
        return shown(item)

    def call(self, what, words):
        ledger = self.ledger
        if what in ('arrive', 'admits'):
            return getattr(ledger, what)(words[0], self.items[words[1]])
        if what == 'unfit':
            found = ledger.first_unfit(self.site(words[0], ledger.site.node))
            return ' '.join(found) if found else 'nothing'
        if what == 'adopt':
            return ledger.adopt(self.site(words[0], words[1]), self.site(words[2], words[1]))
        if what == 'is_of':
            return str(ledger.site.is_same(self.site(*words))).lower()
        if what == 'journal':
            return ledger.whole_lines()
        if what == 'refusals':
            return f'{str(ledger.armed).lower()} {ledger.made}'
        return str(ledger.made) if what == 'failures' else getattr(ledger, what)(*words)

    def open(self, site):
        """The files have a ledger of this site alone, and none that another connection has changed; one from before is brought over."""
        if self.files is None or self.files.changed or not self.files.site.is_same(site):
            return 'OtherSite'
        if self.files.unmade and not steps_back(self.files.journal)[self.files.unmade - 1][1]:
            return 'OtherSite'
        self.ledger, self.files.unmade = self.files, 0
        return 'opened'

    def change(self, statement):
        """Another connection changes the files, or makes them such as they were before."""
        steps = steps_back(self.files.journal)[self.files.unmade:]
        if steps and statement == steps[0][0]:
            self.files.unmade += 1
        else:
            self.files.changed = True

    def desk(self, is_refused, caller, *items):
        """What a desk answers to each arrival, with what its pass has."""
        ledger, counted, answers = self.ledger, 0, []
        ledger.armed, made = is_refused, ledger.made
        for item in items:
            try:
                answer, added = ledger.arrive(caller, self.items[item]), 1
            except Refused as fault:
                answer, added = str(fault), 0
            counted += added
            answers.append(f'{answer}, {added} lines, {counted} counted, {counted} receipts; ')
        ledger.armed, ledger.made = False, made
        return ''.join(answers) + f'{counted} in all'

    def stopped(self, plan, node, what, words):
        """The answer of a call that isn't stopped at last."""
        if what == 'make':
            self.files = Ledger(self.site(plan, node))
            return 'made'
        if what == 'close':
            return 'closed'
        self.open(self.site(plan, node))
        if what == 'desk':
            return self.desk(False, *words)
        return self.call(what, words)

    def turn(self, line):
        """What is printed for the line, with `*` for what isn't known here."""
        if line.startswith('|'):
            self.plans[self.last] += line[1:] + '\n'
            return ''
        what, *words = line.split() or ['#']
        if what.startswith('#'):
            return ''
        if what == 'plan':
            self.last = words[0]
            self.plans[self.last] = ''
        elif what == 'ledger':
            self.ledger = Ledger(self.site(*words))
        elif what == 'refuse':
            self.ledger.armed = True
        elif what in ('leave', 'close'):
            self.ledger, self.files = None, self.ledger
        elif what == 'blank':
            self.files = None
        elif what == 'sql':
            self.change(' '.join(words))
            return f'{line}: *\n'
        elif what in ('stops', 'late_stops'):
            _, plan, node, _, call, *words = words
            answer = self.stopped(plan, node, call, words)
            return f'{line}: {answer}\nlog: *{answer}\ndatabase: *{answer}\n'
        else:
            try:
                if what == 'item':
                    answer = self.item(*words[:2], bytes.fromhex(words[2]))
                elif what == 'zeros':
                    answer = self.item(*words[:2], bytes(int(words[2])))
                elif what == 'open':
                    answer = self.open(self.site(*words))
                elif what in ('desk', 'refused'):
                    answer = self.desk(what == 'refused', *words[2:])
                else:
                    answer = self.call(what, words)
            except Refused as fault:
                answer = str(fault)
            return f'{line}: {answer}\n'
        return f'{line}\n'


def may_be_stopped(own, other):
    """Whether a stopped call, which answers this else, may answer the other: it is refused and nothing is counted, or it was done."""
    if other in ('Store', 'Store at the beginning') or other.startswith(UNCOUNTED):
        return True
    return other.split('; ')[0] == own.split('; ')[0]


def do_agree(own, line):
    """Whether the numbers of a file's stops go together: each is counted once, and what was acknowledged is there."""
    found = COUNTS.fullmatch(line)
    if not found:
        return False
    answers = [it.rsplit(': ', 1) for it in found[3].split(' | ')[1:]]
    stops, opening, written, synced = (int(found[at] or 0) for at in (1, 2, 4, 5))
    if not all(may_be_stopped(own, answer) for answer, _ in answers):
        return False
    done = sum(int(count) for answer, count in answers if not answer.startswith('Store'))
    if stops != opening + sum(int(count) for _, count in answers):
        return False
    return min(written, synced) >= done


def is_told(own, other):
    """Whether the line that is wanted says what is answered here."""
    if '*' not in own:
        return own == other
    start, answer = own.split('*')
    return other.startswith(start) and (not answer or do_agree(answer, other))


def lines_for_tables(lines):
    """All lines that ask for no refusal; a section that has some is without its heading."""
    sections = [[]]
    for line in lines:
        if line.startswith('#'):
            sections.append([])
        sections[-1].append(line)
    for section in sections:
        words = {line.split()[0] for line in section if line}
        without = [line for line in section if line not in ('refuse', 'refusals')]
        yield from without if 'refuse' not in words else without[1:]


def read(path):
    with open(path) as it:
        return it.read().splitlines()


def compare(folder, case=''):
    playing = Playing()
    answers = ''.join(playing.turn(line) for line in read(f'{folder}/stdin{case}')).splitlines()
    wanted = read(f'{folder}/stdout{case}')
    name = os.path.basename(folder) + case
    for number, (own, other) in enumerate(zip(answers, wanted), 1):
        if not is_told(own, other):
            sys.exit(f'ledger rows: line {number} of what {name} prints is {other!r}, and by the definitions {own!r}')
    if len(answers) != len(wanted):
        sys.exit(f'ledger rows: of {name}, the one goes on where the other ends')
    print(f'ledger rows: {len(answers)} lines of {name} are those of the definitions')


def main():
    lines = read(f'{MEMORY}/stdin')
    if sys.argv[1:] == ['--print']:
        playing = Playing()
        print(''.join(playing.turn(line) for line in lines), end='')
        return
    shared = list(lines_for_tables(lines))
    if sys.argv[1:] == ['--lines']:
        print(*shared, sep='\n')
        return
    if read(f'{TABLES}/stdin')[:len(shared)] != shared:
        sys.exit('ledger rows: the lines for ledgers in tables do not begin with those for ledgers in memory (--lines prints them)')
    compare(MEMORY)
    compare(TABLES)
    compare(TABLES, '.all')


main()
