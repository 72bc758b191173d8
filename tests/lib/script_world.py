"""The nodes of a sound plan, their links and what is on the wires, by what docs/HEADLINE.md, docs/USAGE.md and the
association table of PS3.8 section 9.2 say of the simulator; for simulate.py. A PDU is its kind, what it says and how
many bytes it has: nothing is written and read, so that nothing is shared with the product.
"""
import collections

from lib.plan_model import LOCAL, REST

MOST_OTHERS = 256    # associations that a node takes
ARTIM = 30_000       # milliseconds
PATIENCE = 60_000    # milliseconds in which a requestor awaits an answer
LAST_MOMENT = 2 ** 62
SUCCESS, NO_STORE, NO_LINE, CONFLICT = 0x0000, 0xA700, 0xC0F0, 0xC0F1
IMPLEMENTATION = '2.25.331274590186724905318462075136948210573'
VERSION = 'DR_ROUTER_1'
FOREIGN_LIMIT = 1024  # of a PDU that another maker's product writes: each node takes as much
APPLICATION = '1.2.840.10008.3.1.1.1'
Item = collections.namedtuple('Item', 'uid key body')     # the key is class, transfer syntax, modality, station
Pdu = collections.namedtuple('Pdu', 'kind said size')


# ---- how long PDUs are, in bytes (PS3.8 9.3, PS3.7 9.3)

def user_information():
    return 4 + 8 + 4 + len(IMPLEMENTATION) + 4 + len(VERSION)


def request_size(pairs):
    return 6 + 68 + 4 + len(APPLICATION) + sum(4 + 4 + 4 + len(c) + 4 + len(s) for c, s in pairs) + user_information()


def acceptance_size(pairs):
    return 6 + 68 + 4 + len(APPLICATION) + sum(4 + 4 + 4 + len(s) for c, s in pairs) + user_information()


def even(size):
    return size + size % 2


def command_size(item):
    """Of a C-STORE-RQ and of its response: they have as many elements, and as long ones."""
    return 12 + (8 + even(len(item.key[0]))) + 4 * 10 + (8 + even(len(item.uid)))


def answer_size():
    """Of a response that names neither the class nor the instance."""
    return 12 + 8 + 4 * 10 + 8


def fragments(limit, size):
    """The sizes of the fragments: the largest even one that the other side takes, and what is left."""
    most = (1_048_576 if limit == 0 else limit) - 6
    most -= most % 2
    full, left = divmod(size, most)
    return [most] * full + ([left] if left or not full else [])


def data_pdus(limit, size, kind, said):
    sizes = fragments(limit, size)
    return [Pdu(kind, said if i == len(sizes) - 1 else None, 12 + it) for i, it in enumerate(sizes)]


def part_of(value, parts):
    """The value itself where a plan names it, else the longest of its prefixes with which it begins, else the rest."""
    begins = [it for it in parts if it is not REST and it[-1:] == '*' and value.startswith(it[:-1])]
    return value if value in parts and value[-1:] != '*' else max(begins, key=len, default=REST)


# ---- books

class Book:
    def __init__(self):
        self.items, self.arrivals, self.kept, self.rows, self.lines, self.armed = {}, set(), set(), {}, 0, False
        self.forgotten = {}    # what was last forgotten of each uid

    def report(self, name):
        def progress(row):
            if row[0] == 'waiting':
                return f'waiting\t{row[1]}\t{row[2]}'
            return f'held\t{row[1]:04X}' if row[0] == 'held' else row[0]
        rows = [f'node\t{name}', *(f'arrival\t{c}\t{u}' for c, u in sorted(self.arrivals)),
                *(f'kept\t{u}\t{len(self.items[u].body)}' for u in sorted(self.kept)),
                *(f'row\t{u}\t{d}\t{progress(r)}' for (u, d), r in sorted(self.rows.items())), f'lines\t{self.lines}']
        return ''.join(f'{it}\n' for it in rows)


class End:
    """One end of a link, in a state of the table."""

    def __init__(self, node, peer, is_requestor, now):
        self.node, self.peer, self.is_requestor, self.wire = node, peer, is_requestor, collections.deque()
        self.state, self.since = (5, now) if is_requestor else (2, now)
        self.awaits, self.pending, self.accepted, self.limit, self.command, self.heard = now if is_requestor else None, None, None, 0, None, 0
        # wire: what is on its way to this end; heard: how many bytes of the front PDU came already

    def is_over(self):
        return self.state == 1

    def is_open(self):
        return 6 <= self.state <= 12

    def goes_to(self, state, now):
        self.state, self.since = state, now


# ---- the world

class World:
    wrong = frozenset()

    def __init__(self, model, reached):
        self.time, self.opened, self.links, self.books, self.notes, self.stopped = 0, 0, {}, {}, [], False
        self.others, self.refused = [], []    # the nodes of other makes, and what they were told and did not do
        self.take(model, reached)

    def take(self, model, reached):
        """The plan is in force; its nodes that weren't there have nothing."""
        self.model, self.reached = model, reached
        self.hops = {hop: sorted(pairs) for hop, pairs in model.hops_of(reached).items()}
        for name in model.nodes:
            self.books.setdefault(name, Book())

    def cell(self, key, model=None):
        return (*key[:2], *(part_of(value, (model or self.model).parts[field]) for field, value in zip(('modality', 'station'), key[2:])))

    def report(self):
        def told(name):
            return f'node\t{name}\nforeign\n' if name in self.others and 'other books are told of' not in self.wrong else self.books[name].report(name)
        return ''.join(self.notes + self.refused) + ''.join(told(name) for name in sorted(self.books))

    # calls of books; each gives what it answers
    def store_fails(self, book):
        told, book.armed = book.armed, 'refusals last' in self.wrong and book.armed
        return told

    def arrive(self, name, caller, item):
        book, stop = self.books[name], (caller, name, self.cell(item.key))
        if stop not in self.reached:
            return 'NoLine'
        if book.items.get(item.uid, item) != item:
            return 'Conflict'
        if self.store_fails(book):
            return 'Store'
        book.lines += 1
        if (caller, item.uid) in book.arrivals:
            return 'Again'
        if item.uid in book.forgotten and item.uid not in book.items:
            self.note('new after a forgetting', 'the same' if book.forgotten[item.uid] == item else 'another')
        book.items[item.uid] = item
        book.arrivals.add((caller, item.uid))
        if self.model.keeps(stop):
            book.kept.add(item.uid)
        for to in self.model.sends(stop):
            row = book.rows.get((item.uid, to))
            if row == ('dropped',) and 'what was given up stays so' not in self.wrong:
                self.note('a dropped row met', 'an arrival')
                row = None
            book.rows[item.uid, to] = row or ('waiting', 0, 0)
        return 'New'

    def settle(self, name, uid, dest, outcome):
        book = self.books[name]
        if book.rows.get((uid, dest), ('none',))[0] != 'waiting':
            return 'NotWaiting'
        if self.store_fails(book):
            return 'Store'
        book.lines += 1
        if outcome == SUCCESS:
            book.rows[uid, dest] = ('done',)
        elif outcome in ('Broken', NO_STORE):
            tries = book.rows[uid, dest][1] + 1
            book.rows[uid, dest] = ('waiting', tries, self.time + 1000 * min(300, 2 ** (tries - 1)))
        else:
            book.rows[uid, dest] = ('held', outcome)
        return 'Ok'

    def first_due(self, name, dest):
        rows = self.books[name].rows.items()
        due = [(row[2], uid) for (uid, to), row in rows if to == dest and row[0] == 'waiting' and row[2] <= self.time]
        return self.books[name].items[min(due)[1]] if due else None

    # what ends do
    def other(self, link, end):
        caller, receiver = self.links[link]
        return receiver if end is caller else caller

    def write(self, link, end, pdus):
        self.other(link, end).wire.extend(pdus)

    def abort(self, link, end):
        self.write(link, end, [Pdu('abort', None, 10)])
        end.goes_to(13, self.time)

    def leave(self, end):
        """What is pending is settled as broken."""
        pending, end.pending, end.awaits = end.pending, None, None
        if pending:
            self.settle(end.node, pending.uid, end.peer, 'Broken')

    def ends(self, end):
        """The connection's end is heard (event 17)."""
        end.goes_to(1, self.time)
        self.leave(end)

    def hear(self, link, end, pdu):
        self.note('heard', pdu.kind)
        if end.state == 13:
            if pdu.kind == 'abort':
                end.goes_to(1, self.time)
            elif pdu.kind == 'request':
                self.abort(link, end)
        elif pdu.kind == 'abort':
            self.ends(end)
        else:
            getattr(self, f'hear_{pdu.kind}')(link, end, pdu.said)

    def hear_request(self, link, end, pairs):
        others = sum(r.is_open() for r in (r for c, r in self.links.values()) if r is not end and r.node == end.node)
        if others >= MOST_OTHERS:
            self.write(link, end, [Pdu('rejection', None, 10)])
            end.goes_to(13, self.time)
            return
        end.goes_to(6, self.time)
        end.limit, end.accepted = self.model.nodes[end.peer]['max_pdu'], set()
        taken = [pair for pair in pairs if any(self.model.takes(row, end.peer, (*pair, REST, REST)) for row in self.model.nodes[end.node]['accept'])]
        end.accepted = set(taken)
        # a context that isn't accepted has the implicit syntax in its answer: in a sound plan there is none
        self.write(link, end, [Pdu('acceptance', set(taken), acceptance_size(pairs))])

    def hear_acceptance(self, link, end, pairs):
        end.goes_to(6, self.time)
        end.accepted, end.awaits, end.limit = pairs, None, self.model.nodes[end.peer]['max_pdu']

    def hear_rejection(self, link, end, said):
        item, end.awaits = self.first_due(end.node, end.peer), None
        end.goes_to(1, self.time)
        if item:
            self.settle(end.node, item.uid, end.peer, 'Broken')

    def hear_command(self, link, end, said):
        end.command = said

    def hear_data(self, link, end, item):
        if item is None:
            return
        reply = self.arrive(end.node, end.peer, item)
        status = {'New': SUCCESS, 'Again': SUCCESS, 'NoLine': NO_LINE, 'Conflict': CONFLICT, 'Store': NO_STORE}[reply]
        self.note('status', status)
        self.write(link, end, data_pdus(end.limit, command_size(item), 'response', status))

    def hear_response(self, link, end, status):
        if status is None:
            return
        pending, end.pending, end.awaits = end.pending, None, None
        if self.settle(end.node, pending.uid, end.peer, status) == 'Store':
            self.abort(link, end)

    def hear_release(self, link, end, said):
        self.write(link, end, [Pdu('released', None, 10)])
        end.goes_to(13, self.time)

    def hear_released(self, link, end, said):
        end.goes_to(1, self.time)
        end.awaits = None

    # steps; each gives what became of it
    def submit(self, name, item):
        if name not in self.books:
            return 'no such node'
        return self.arrive(name, LOCAL, item)

    def open(self, name, to):
        pairs = self.hops.get((name, to))
        if not pairs:
            return 'no hop'
        self.opened += 1
        caller, receiver = End(name, to, True, self.time), End(to, name, False, self.time)
        self.links[self.opened] = caller, receiver
        self.write(self.opened, caller, [Pdu('request', pairs, request_size(pairs))])
        return 'done'

    def away(self, name, to):
        if name not in self.books:
            return 'no such node'
        item = self.first_due(name, to)
        if not item:
            return 'nothing is due'
        if 'staying away is no try' in self.wrong:
            return 'done'
        answer = self.settle(name, item.uid, to, 'Broken')
        return 'done' if answer == 'Ok' else answer

    def end_at(self, link, side):
        return self.links[link][side == 'acceptor']

    def push(self, link):
        if link not in self.links:
            return 'no such link'
        end = self.links[link][0]
        if end.state != 6:
            return 'not established'
        if end.pending:
            return 'a store is pending'
        item = self.first_due(end.node, end.peer)
        if not item:
            return 'nothing is due'
        end.pending, end.awaits = item, self.time
        assert item.key[:2] in end.accepted
        self.write(link, end, data_pdus(end.limit, command_size(item), 'command', item) + data_pdus(end.limit, len(item.body), 'data', item))
        return 'done'

    def move(self, link, side, most):
        if link not in self.links:
            return 'no such link'
        end = self.end_at(link, side)
        if end.is_over():
            return 'the reader is over'
        if most == 0:
            return 'no byte'
        if not end.wire:
            if not self.other(link, end).is_over():
                return 'an empty wire'
            self.ends(end)
            return 'the connection ended'
        left = end.wire[0].size - end.heard
        if most < left and 'whole PDUs move' not in self.wrong:
            end.heard += most
            return 'a part of a PDU'
        end.heard = 0
        self.hear(link, end, end.wire.popleft())
        return 'a whole PDU'

    def abort_at(self, link, side):
        if link not in self.links:
            return 'no such link'
        end = self.end_at(link, side)
        if not (end.state == 3 or 5 <= end.state <= 12):
            return 'no cell'
        self.abort(link, end)
        self.leave(end)
        return 'done'

    def release(self, link):
        if link not in self.links:
            return 'no such link'
        end = self.links[link][0]
        if end.pending:
            return 'a store is pending'
        if end.state != 6:
            return 'no cell'
        self.write(link, end, [Pdu('release', None, 10)])
        end.goes_to(7, self.time)
        end.awaits = self.time
        return 'done'

    def close(self, link):
        if link not in self.links:
            return 'no such link'
        caller, receiver = self.links[link]
        if caller.is_over() and receiver.is_over():
            return 'both are over'
        for end in (receiver, caller):
            end.wire.clear()
            end.heard = 0
            if not end.is_over():
                self.ends(end)
        return 'done'

    def late(self, link, side):
        if link not in self.links:
            return 'no such link'
        end = self.end_at(link, side)
        if end.state in (2, 13) and self.time >= end.since + ARTIM:
            self.ends(end)
            return 'ARTIM expired'
        if end.is_requestor and end.awaits is not None and self.time >= end.awaits + PATIENCE:
            self.abort(link, end)
            self.leave(end)
            return 'no answer came'
        return 'not late'

    def restart(self, name):
        if name not in self.books:
            return 'no such node'
        for link in sorted(self.links):
            caller, receiver = self.links[link]
            if name in (caller.node, receiver.node):
                far = caller if receiver.node == name else receiver
                if not far.is_over():
                    self.ends(far)
                del self.links[link]
        if 'a restart forgets rows' in self.wrong:
            self.books[name].rows = {}
        return 'done'

    def requeue(self, name, uid, dest):
        if name not in self.books:
            return 'no such node'
        book = self.books[name]
        if book.rows.get((uid, dest), ('none',))[0] != 'held':
            return 'NotHeld'
        if self.store_fails(book):
            return 'Store'
        book.lines += 1
        book.rows[uid, dest] = ('waiting', 0, 0)
        return 'done'

    def drop(self, name, uid, dest):
        if name not in self.books:
            return 'no such node'
        book = self.books[name]
        if book.rows.get((uid, dest), ('none',))[0] != 'held':
            return 'NotHeld'
        if self.store_fails(book):
            return 'Store'
        book.lines += 1
        book.rows[uid, dest] = ('dropped',)
        if 'arrivals of what was given up stay' not in self.wrong:
            book.arrivals = {at for at in book.arrivals if at[1] != uid}
        return 'done'

    def is_over(self, name, uid):
        book = self.books[name]
        return uid in book.items and uid not in book.kept and all(row[0] in ('done', 'dropped') for (it, _), row in book.rows.items() if it == uid)

    def is_under_way(self, name, uid):
        return any(caller.node == name and caller.pending and caller.pending.uid == uid for caller, receiver in self.links.values())

    def forget(self, name, uid):
        if name not in self.books:
            return 'no such node'
        if self.is_under_way(name, uid) and 'what is under way is forgotten' not in self.wrong:
            return 'over, but under way' if self.is_over(name, uid) else 'under way'
        if not self.is_over(name, uid):
            return 'NotOver'
        book = self.books[name]
        if self.store_fails(book):
            return 'Store'
        book.lines += 1
        if any(row == ('dropped',) for (it, _), row in book.rows.items() if it == uid):
            self.note('a dropped row met', 'a forgetting')
        book.forgotten[uid] = book.items.pop(uid)
        if 'arrivals are not forgotten' not in self.wrong:
            book.arrivals = {at for at in book.arrivals if at[1] != uid}
        book.rows = {at: row for at, row in book.rows.items() if at[0] != uid}
        return 'done'

    def first_unfit(self, model, reached):
        for name, book in sorted(self.books.items()):
            for (uid, dest), row in sorted(book.rows.items()):
                if row[0] in ('waiting', 'held') and (name, dest, self.cell(book.items[uid].key, model)) not in reached:
                    return name, uid, dest
        return None

    def adopt(self, model):
        """All nodes take the plan at once; after a store that fails nothing more is done."""
        if any(not end.is_over() for link in self.links.values() for end in link):
            self.notes.append('Skipped\n')
            return 'an end is on'
        if any(name not in model.nodes for name in self.books):
            self.notes.append('Skipped\n')
            return 'a node is missing'
        reached = model.reached()
        unfit = self.first_unfit(model, reached)
        if unfit and 'rows that are unfit are taken' not in self.wrong:
            self.notes.append('\t'.join(('Unfit', *unfit)) + '\n')
            return 'a row is unfit'
        if any(book.armed for book in self.books.values()):
            self.stopped = True
            return 'Store'
        for book in self.books.values():
            book.lines += 1
            book.rows = {at: row for at, row in book.rows.items() if row[0] in ('waiting', 'held')}
            if 'arrivals stay when a plan is taken' not in self.wrong:
                book.arrivals = set()
        self.links = {}
        self.take(model, reached)
        return 'done'

    # what concerns other makers' products
    def is_others(self, word, *told):
        """Whether that step is one that is not taken for another's node."""
        if 'other nodes act' in self.wrong:
            return False
        if word in ('submit', 'away', 'requeue', 'drop', 'forget', 'refuse'):
            return told[0] in self.others
        if word not in ('push', 'release', 'abort', 'late', 'move') or told[0] not in self.links:
            return False
        return self.end_at(told[0], told[1] if word in ('abort', 'late', 'move') else 'requestor').node in self.others

    def foreign(self, name):
        if name not in self.books:
            return self.refuses('foreign', name, 'no-node')
        self.others.append(name)
        return 'a node'

    def refuses(self, word, at, why):
        self.refused.append(f'Refused\t{word}\t{at}\t{why}\n')
        return why

    def store(self, link, item):
        if link not in self.links:
            return self.refuses('store', link, 'no-link')
        caller, receiver = self.links[link]
        if caller.node not in self.others:
            return self.refuses('store', link, 'not-foreign')
        if receiver.node in self.others:
            return self.refuses('store', link, 'both-foreign')
        if item.key[:2] not in (receiver.accepted or ()):
            return self.refuses('store', link, 'no-context')
        self.write(link, caller, data_pdus(FOREIGN_LIMIT, command_size(item), 'command', item) + data_pdus(FOREIGN_LIMIT, len(item.body), 'data', item))
        return 'done'

    def answer(self, link, status):
        if link not in self.links:
            return self.refuses('answer', link, 'no-link')
        caller, receiver = self.links[link]
        if receiver.node not in self.others:
            return self.refuses('answer', link, 'not-foreign')
        if caller.node in self.others:
            return self.refuses('answer', link, 'both-foreign')
        if not caller.pending:
            return self.refuses('answer', link, 'not-asked')
        self.write(link, receiver, data_pdus(FOREIGN_LIMIT, answer_size(), 'response', status))
        return 'done'

    def tick(self, milliseconds):
        self.time = min(self.time + milliseconds, LAST_MOMENT)
        return 'done'

    def refuse(self, name):
        if name not in self.books:
            return 'no such node'
        self.books[name].armed = True
        return 'done'
