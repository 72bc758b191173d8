#!/usr/bin/env python3
"""Plays random scripts on the built program, over random sound plans, and compares each report with that of a world
written again from the documents (script_world.py), which counts the bytes of PDUs but writes none: requests, stores and
releases in random cuts, with aborts, lost connections, calls that come to no link, late marks, restarts, refused
stores, instances that come twice, held rows that are queued again or given up, instances that are forgotten, changes
of plan, and nodes that become other makers' products, which store and answer.

    tests/simulate.py [RUNS] [SEED]        no report may differ, and each kind of step, of answer and of reason for
                                           which a step is skipped must have come (500 runs: about half a minute; at
                                           least 300)
    tests/simulate.py --wrong [RUNS]       each wrong definition of the world must make some report differ
"""
import collections
import os
import random
import subprocess
import sys
import tempfile

sys.dont_write_bytecode = True
from lib.plan_model import REST, Fault, Model
from lib.plan_reader import EXPLICIT, IMPLICIT, Refused, read_text
from lib.plan_texts import KEEP, flow_of, plan_text, random_plan, taking
from lib.script_world import Item, World

TOP = os.path.dirname(os.path.dirname(os.path.abspath(__file__)))
PROGRAM = f'{TOP}/crates/dr_router/out/dr_router'
WRONG = ('refusals last', 'whole PDUs move', 'a restart forgets rows', 'what is under way is forgotten', 'arrivals are not forgotten',
         'staying away is no try', 'what was given up stays so', 'arrivals of what was given up stay', 'rows that are unfit are taken', 'arrivals stay when a plan is taken',
         'other nodes act', 'other books are told of')
REACHED = {
    'submit': {'New', 'Again', 'NoLine', 'Conflict', 'Store', 'no such node'}, 'open': {'done', 'no hop'}, 'tick': {'done'},
    'away': {'done', 'nothing is due', 'Store', 'no such node'},
    'push': {'done', 'no such link', 'not established', 'a store is pending', 'nothing is due'},
    'move': {'no such link', 'the reader is over', 'an empty wire', 'the connection ended', 'no byte', 'a part of a PDU', 'a whole PDU'},
    'abort': {'done', 'no such link', 'no cell'}, 'release': {'done', 'no such link', 'a store is pending', 'no cell'},
    'close': {'done', 'no such link', 'both are over'}, 'late': {'no such link', 'ARTIM expired', 'no answer came', 'not late'},
    'restart': {'done', 'no such node'}, 'requeue': {'done', 'NotHeld', 'Store', 'no such node'}, 'refuse': {'done', 'no such node'},
    'adopt': {'done', 'an end is on', 'a node is missing', 'a row is unfit', 'Store'},
    'drop': {'done', 'NotHeld', 'Store', 'no such node'}, 'a dropped row met': {'an arrival', 'a forgetting'},
    'forget': {'done', 'NotOver', 'Store', 'under way', 'over, but under way', 'no such node'}, 'new after a forgetting': {'the same', 'another'},
    'heard': {'request', 'acceptance', 'rejection', 'command', 'data', 'response', 'release', 'released', 'abort'},
    'status': {0x0000, 0xA700, 0xC0F1},
    'foreign': {'a node', 'no-node'}, 'not taken': {'submit', 'push', 'move', 'abort', 'release', 'late', 'forget', 'drop', 'requeue', 'away', 'refuse'},
    'links': {'between ours and to others at once'},
    'store': {'done', 'no-link', 'not-foreign', 'both-foreign', 'no-context'}, 'answer': {'done', 'no-link', 'not-foreign', 'both-foreign', 'not-asked'},
}


# ---- data sets

def element(group, number, vr, value, syntax):
    tag = group.to_bytes(2, 'little') + number.to_bytes(2, 'little')
    if syntax == IMPLICIT:
        return tag + len(value).to_bytes(4, 'little') + value
    if vr == 'OB':
        return tag + b'OB\0\0' + len(value).to_bytes(4, 'little') + value
    return tag + vr.encode() + len(value).to_bytes(2, 'little') + value


def padded(text, by):
    value = text.encode()
    return value + by * (len(value) % 2)


def data_set(uid, key, filling):
    sop_class, syntax, modality, station = key
    values = ((0x0008, 0x0016, 'UI', padded(sop_class, b'\0')), (0x0008, 0x0018, 'UI', padded(uid, b'\0')),
              (0x0008, 0x0060, 'CS', padded(modality, b' ')), (0x0008, 0x1010, 'SH', padded(station, b' ')))
    body = b''.join(element(*it, syntax) for it in values)
    return body + (element(0x0009, 0x1010, 'OB', filling, syntax) if filling else b'')


# ---- plans and scripts

def sound_plan(dice):
    while True:
        text = random_plan(dice)
        for node in range(text.count(b'"h:1"')):
            text = text.replace(b'"h:1"', b'"h:2"\nmax_pdu = %d' % dice.choice([0, 1024, 1025, 1030, 16384]), 1)
        try:
            model = Model(*read_text(text))
            certificate, is_yes = model.check()
        except Refused:
            continue
        if is_yes and len(model.reached()) > 2:
            return text, certificate, model


def has_entries(model):
    return any(stop[0] == '-' for stop in model.reached())


def next_plan(dice, text):
    """A sound plan to change to: the same with another text, with a node more, or without its last flow; or any."""
    choice = dice.random()
    if choice < 0.4:
        text = text + b'# again\n'
    elif choice < 0.6:
        text = text + b'[[node]]\nname = "NEW %d"\naddress = "h:1"\n' % len(text)
    elif choice < 0.9 and b'[[flow]]' in text:
        text = text[:text.rindex(b'[[flow]]')]
    else:
        return sound_plan(dice)
    model = Model(*read_text(text))
    certificate, is_yes = model.check()
    return (text, certificate, model) if is_yes and has_entries(model) else sound_plan(dice)


class Play:
    """A script that is made as it is played in the world; the files that it names are made with it."""

    def __init__(self, text, model, dice, happened, wrong):
        self.world, self.dice, self.happened, self.lines = World(model, model.reached()), dice, happened, []
        self.text, self.files, self.has_both = text, {}, False
        self.others_from = 0.16 if dice.random() < 0.4 else 0.09    # in most scripts each node is ours
        self.world.wrong = wrong
        self.world.note = self.note

    def places(self):
        return [(stop[1], stop[2]) for stop in sorted(self.world.reached, key=repr) if stop[0] == '-']

    def note(self, kind, what):
        """What became of a step, or which PDU was heard, or which status was answered."""
        self.happened[kind, what] += 1

    def tell(self, *words):
        self.lines.append('\t'.join(map(str, words)))

    def look_at_links(self):
        """Whether there is a link between two of ours beside one to another maker's node; it's noted once."""
        others = self.world.others
        if others and not self.has_both and {(caller.node in others) + (receiver.node in others) for caller, receiver in self.world.links.values()} >= {0, 1}:
            self.has_both = True
            self.note('links', 'between ours and to others at once')

    def do(self, word, *told):
        """One step: a line of the script, and what becomes of it in the world."""
        if word in ('submit', 'store'):
            at, item = told
            self.tell(word, at, 'IE'[item.key[1] == EXPLICIT], item.body.hex() if self.dice.random() < 0.5 else item.body.hex().upper())
        elif word == 'answer':
            link, status = told
            self.tell(word, link, f'{status:04X}' if self.dice.random() < 0.5 else f'{status:04x}')
        else:
            self.tell(word, *told)
        if self.world.is_others(word, *told):
            self.note('not taken', word)
        else:
            self.note(word, getattr(self.world, {'abort': 'abort_at'}.get(word, word))(*told))
        self.look_at_links()

    def random_item(self):
        dice = self.dice
        name, cell = dice.choice(self.places())
        again = self.rows_that(lambda row: row == ('dropped',))
        if again and dice.random() < 0.3:
            name, uid, dest = dice.choice(again)
            return name, self.world.books[name].items[uid]
        if dice.random() < 0.05:
            name = dice.choice([*sorted(self.world.books), 'NOBODY'])
        key = (*cell[:2], *('none of them' if part is REST else part for part in cell[2:]))
        uid = dice.choice(['1.2.3', '1.2.3.4', '2.25.1', '9'])
        filling = dice.choice([b'', b'', b'', bytes([dice.randrange(256)]) * dice.choice([2, 700, 944, 1018, 2100])]) if dice.random() < 0.6 else b''
        return name, Item(uid, key, data_set(uid, key, filling))

    def random_link(self):
        return self.dice.choice([*self.world.links, self.world.opened + 1]) if self.world.links else 1

    def random_step(self):
        dice, world, choice = self.dice, self.world, self.dice.random()
        names = sorted(world.books)
        if choice < 0.10:
            return 'submit', *self.random_item()
        if choice < 0.20:
            hops = sorted(world.hops)
            return 'open', *(dice.choice(hops) if hops and dice.random() < 0.9 else (dice.choice(names), dice.choice(names)))
        if choice < 0.34:
            return 'push', self.random_link()
        if choice < 0.36:
            return 'abort', self.random_link(), dice.choice(['requestor', 'acceptor'])
        if choice < 0.40:
            return 'release', self.random_link()
        if choice < 0.42:
            return 'close', self.random_link()
        if choice < 0.46:
            return 'late', self.random_link(), dice.choice(['requestor', 'acceptor'])
        if choice < 0.47:
            return 'restart', dice.choice([*names, 'NOBODY'])
        if choice < 0.50:
            return 'requeue', *self.random_row()
        if choice < 0.56:
            return 'tick', dice.choice([0, 1, 999, 1000, 2000, 30_000, 60_000, 300_000])
        if choice < 0.58:
            held = [name for name, uid, dest in self.rows_that(lambda row: row[0] == 'held')]
            return 'refuse', dice.choice(held if held and dice.random() < 0.5 else [*names, 'NOBODY'])
        if choice < 0.62:
            return 'forget', *self.random_uid()
        if choice < 0.67:
            return 'drop', *self.random_row()
        if choice < 0.70:
            return 'away', *self.random_hop()
        return 'move', self.random_link(), dice.choice(['requestor', 'acceptor']), dice.choice([0, 1, 7, 50, 100, 233, 1000, 10 ** 6, 10 ** 6, 10 ** 6])

    def rows_that(self, apt):
        return [(name, *at) for name, book in sorted(self.world.books.items()) for at, row in sorted(book.rows.items()) if apt(row)]

    def random_hop(self):
        """One that a node comes to no link of: most have a row that is due."""
        names = sorted(self.world.books)
        due = [hop for hop in sorted(self.world.hops) if self.world.first_due(*hop)]
        armed = [hop for hop in due if self.world.books[hop[0]].armed] or due
        return self.dice.choice(armed) if due and self.dice.random() < 0.7 else (self.dice.choice([*names, 'NOBODY']), self.dice.choice(names))

    def random_row(self):
        """A row to queue again or to give up: most are held."""
        held = self.rows_that(lambda row: row[0] == 'held')
        rows = held if held and self.dice.random() < 0.7 else self.rows_that(lambda row: True)
        return self.dice.choice(rows) if rows and self.dice.random() < 0.95 else (self.dice.choice([*sorted(self.world.books), 'NOBODY']), '1.2.3', 'NOBODY')

    def random_uid(self):
        """One to forget: most are over, or under way."""
        world, dice = self.world, self.dice
        known = [(name, uid) for name, book in sorted(world.books.items()) for uid in sorted(book.items)]
        apt = [at for at in known if world.is_over(*at) or world.is_under_way(*at) or dice.random() < 0.1]
        return dice.choice(apt) if apt else (dice.choice([*sorted(world.books), 'NOBODY']), '1.2.3')

    def random_status(self):
        return self.dice.choice([0x0000, 0x0000, 0xA700, 0xC0F1, 0xC123])

    def is_answered(self, link):
        """Whether a response is on its way to the requestor: a second one would be answered by an abort."""
        return link in self.world.links and any(pdu.kind == 'response' for pdu in self.world.end_at(link, 'requestor').wire)

    def foreign_deed(self):
        """A node becomes another maker's, or one such stores or answers, or is told to and does not."""
        dice, world = self.dice, self.world
        if dice.random() < 0.2 or not world.others:
            self.do('foreign', dice.choice([*sorted(world.books), 'NOBODY'] if dice.random() < 0.2 else [world.end_at(dice.choice([*world.links]), dice.choice(['requestor', 'acceptor'])).node]
                                           if world.links else sorted(world.books)))
            return
        side = dice.choice(['requestor', 'acceptor'])
        apt = [link for link in world.links if world.end_at(link, side).node in world.others and (side == 'requestor' or world.links[link][0].pending)]
        link = dice.choice(apt) if apt and dice.random() < 0.8 else self.random_link()
        reader = 'acceptor' if side == 'requestor' else 'requestor'
        if side == 'acceptor' and self.is_answered(link):
            return
        if side == 'requestor':
            self.do('store', link, self.random_item()[1])
        else:
            self.do('answer', link, self.random_status())
        for _ in range(dice.choice([0, 1, 2, 4, 8])):
            self.do('move', link, reader, 10 ** 6)

    def deliver(self):
        """A link from its request to a store, in random cuts; most that happens to it happens by steps between."""
        hops = sorted(self.world.hops)
        due = [hop for hop in hops if self.world.first_due(*hop)]
        self.do('open', *self.dice.choice(due or hops))
        link, cut = self.world.opened, self.dice.choice([10 ** 6, 10 ** 6, 300, 101])
        for side, *pushed in (('acceptor',), ('requestor',), ('acceptor', 'push'), ('requestor',), ('acceptor', 'push'), ('requestor',)):
            if pushed:
                self.do('push', link)
            while link in self.world.links and self.world.end_at(link, side).wire and not self.world.end_at(link, side).is_over():
                self.do('move', link, side, cut)
                if self.dice.random() < 0.02:
                    self.do(*self.random_step())

    def change(self):
        """A change of plan, mostly when each link is closed."""
        if self.dice.random() < 0.8:
            for link in sorted(self.world.links):
                self.do('close', link)
        text, certificate, model = next_plan(self.dice, self.text)
        plan, sealed = f'plan{len(self.files)}', f'certificate{len(self.files)}'
        self.files |= {plan: text, sealed: certificate}
        self.tell('adopt', plan, sealed)
        came = self.world.adopt(model)
        self.note('adopt', came)
        if came == 'done':
            self.text = text

    def play(self, steps):
        for _ in range(steps):
            if self.world.stopped:
                break
            choice = self.dice.random()
            if choice < 0.06 and self.world.hops:
                self.deliver()
            elif choice < 0.09:
                self.change()
            elif choice < self.others_from:
                self.foreign_deed()
            else:
                self.do(*self.random_step())
        return self


def run(room, files):
    for name, text in files.items():
        with open(f'{room}/{name}', 'wb') as it:
            it.write(text)
    ended = subprocess.run([PROGRAM, 'simulate', 'plan', 'certificate', 'script'], cwd=room, capture_output=True)
    return ended.stdout, ended.stderr, ended.returncode


def full_node(happened):
    """One association more than a node takes: the last is rejected."""
    text = plan_text([('CT1', [], []), ('ARCH', taking(['1.2']), [KEEP])], [flow_of('CT1', 'ARCH', ['1.2'], ['CT'], ['S1'])])
    model = Model(*read_text(text))
    play = Play(text, model, random.Random(0), happened, frozenset())
    key = ('1.2', EXPLICIT, 'CT', 'S1')
    play.do('submit', 'CT1', Item('9', key, data_set('9', key, b'')))
    for link in range(1, 258):
        play.do('open', 'CT1', 'ARCH')
        play.do('move', link, 'acceptor', 10 ** 6)
    play.do('move', 257, 'requestor', 10 ** 6)
    return text, model.check()[0], play


def tried(room, made):
    """Whether the program's report is the world's."""
    text, certificate, play = made
    script = '\n'.join(['# a script', '', *play.lines]).encode()
    wanted = (b'', b'dr_router: U2 Store\n', 3) if play.world.stopped else (play.world.report().encode(), b'', 0)
    return run(room, {'plan': text, 'certificate': certificate, 'script': script} | play.files) == wanted


def random_play(seed, happened, wrong):
    dice = random.Random(seed)
    text, certificate, model = sound_plan(dice)
    return text, certificate, Play(text, model, dice, happened, wrong).play(dice.randint(10, 150))


def main():
    words = [it for it in sys.argv[1:] if it != '--wrong']
    if not all(it.isdigit() for it in words):
        sys.exit(__doc__)
    runs, seed = int(words[0]) if words else 500, int(words[1]) if len(words) > 1 else 1
    happened = collections.Counter()
    room = tempfile.mkdtemp(prefix='simulate')
    if '--wrong' in sys.argv:
        for name in WRONG:
            seen = next((i for i in range(runs) if not tried(room, random_play(seed * 1_000_003 + i, happened, {name}))), None)
            print(f'{name}: ' + ('NOTHING DIFFERS' if seen is None else f'run {seen} differs'))
            if seen is None:
                sys.exit(1)
        return
    if not tried(room, full_node(happened)):
        sys.exit(f'the report of the full node differs; see {room}')
    for i in range(runs):
        if not tried(room, random_play(seed * 1_000_003 + i, happened, frozenset())):
            sys.exit(f'run {i} differs; see {room}')
    print(f'{runs} scripts, {sum(happened.values())} steps and PDUs, no report differs')
    for kind, wanted in REACHED.items():
        never = sorted(map(str, (it for it in wanted if not happened[kind, it])))
        if never:
            sys.exit(f'{kind}: never {never}')


main()
