#!/usr/bin/env python3
"""Journals that random runs leave match, by the definitions of crates/dr_world_journals/specs written again in Python.
And journals that are changed at random afterwards either fail a clause, or the four claims of docs/HEADLINE.md hold of
what they make.

    tests/journals_match.py [RUNS] [SEED]      no run may leave journals that don't match, no journals that match may
                                               break a claim, and each clause must refuse some journals (1,000 runs:
                                               about half a minute)
    tests/journals_match.py --wrong [RUNS]     without any one of the clauses some journals that pass must break a claim
"""
import collections
import random
import sys
import types

sys.dont_write_bytecode = True
from lib.message_claims import CONFLICT, Claim, NO_LINE, NO_STORE, SUCCESS, is_honest, none_refused, nothing_lost
from lib.message_journals import CLAUSES, failing, replayed, stood
from lib.message_plans import LOCAL
from message_world import Item, play

CHANGES = 30  # how often the journals of one run are changed, each time anew


def broken_claim(plan, journals):
    """The claim that fails of the books that the journals make, or None."""
    books = {name: replayed(lines) for name, lines in journals.items()}
    w = types.SimpleNamespace(plan=plan, books=books, links={}, carried_over={name: stood(lines) for name, lines in journals.items()})
    try:
        none_refused(w)
        is_honest(w)
        nothing_lost(w)
    except Claim as failed:
        return failed.args
    return None


def changed_line(line, names, items, dice):
    """The line, with another caller, item, target or outcome."""
    if line[0] == 'settling':
        return (*line[:3], dice.choice([SUCCESS, SUCCESS, NO_STORE, CONFLICT, NO_LINE, 'NoContext', 'Broken', 'Unreadable']))
    if line[0] in ('arrival', 'repeat'):
        item = dice.choice([line[2], line[2]._replace(body='z'), dice.choice(items)])
        caller = dice.choice([line[1], LOCAL, dice.choice(names)])
        targets = tuple(sorted(dice.sample(names, dice.randint(0, 2)))) if dice.random() < 0.5 else line[3:4] and line[3]
        return (line[0], caller, item) if line[0] == 'repeat' else (line[0], caller, item, targets, dice.choice([line[4], True, False]))
    return line


def changed(plan, journals, items, dice):
    """The journals with one changed: a line gone, changed or put in, or its end lost, as by a restored backup."""
    names = sorted(journals)
    name = dice.choice(names)
    lines = list(journals[name])
    how = dice.random()
    if lines and how < 0.2:
        del lines[dice.randrange(len(lines))]
    elif lines and how < 0.5:
        at = dice.randrange(len(lines))
        lines[at] = changed_line(lines[at], names, items, dice)
    elif lines and how < 0.6:
        del lines[dice.randrange(len(lines)):]
    elif how < 0.9:  # an arrival that nobody sent, or a settling that nobody answered
        caller, item = dice.choice([LOCAL, *names]), dice.choice(items)
        lines.insert(dice.randint(0, len(lines)), ('arrival', caller, item, tuple(sorted(plan.sends(name, caller, item.key))), plan.keeps(name, caller, item.key)))
    else:
        waiting = [at for at, row in replayed(lines).rows.items() if row[0] == 'waiting']
        if waiting:
            lines.append(('settling', *dice.choice(sorted(waiting)), dice.choice([SUCCESS, SUCCESS, NO_LINE, 'NoContext', 'Unreadable'])))
    return {**journals, name: lines}


def try_run(seed, without, told):
    """What is wrong with a run, or None. Without clauses it is the first journals that pass and break a claim."""
    dice, wrong = random.Random(-seed), []

    def ends(w):
        journals = {name: list(book.journal) for name, book in w.books.items()}
        for name, book in w.books.items():
            made = replayed(journals[name])
            rows = {at: row if row[0] == 'held' else row[:1] for at, row in book.rows.items()}
            if (made.items, made.arrivals, made.kept, made.rows) != (book.items, book.arrivals, book.kept, rows) or stood(journals[name]) != w.carried_over[name]:
                wrong.append(('another book', name))
        clause = failing(w.plan, journals)
        told['runs that match'] += clause is None
        if clause:
            wrong.append(('a run fails', clause))
        items = sorted({line[2] for lines in journals.values() for line in lines if line[0] in ('arrival', 'repeat')})
        for _ in range(CHANGES if items else 0):
            others = changed(w.plan, journals, items, dice)
            clause = failing(w.plan, others, without)
            claim = clause is None and others != journals and broken_claim(w.plan, others)
            told['refused', clause] += clause is not None
            told['changed journals that match'] += clause is None and others != journals
            if claim:
                wrong.append(('a claim is broken', *claim))
    failed = play(seed, set(), collections.Counter(), ends)
    return failed or (wrong[0] if wrong else None)


def main():
    words = [a for a in sys.argv[1:] if a != '--wrong']
    if not all(word.isdigit() for word in words):
        sys.exit(__doc__)
    runs, seed = int(words[0]) if words else 1000, int(words[1]) if len(words) > 1 else 1
    if '--wrong' in sys.argv:
        for clause in CLAUSES:
            told = collections.Counter()
            failed = next((f for f in (try_run(seed * 1000003 + i, (clause,), told) for i in range(runs)) if f), None)
            print(f'without {clause}: {" ".join(str(it) for it in failed) if failed else "NOTHING FAILS"}')
            if not failed:
                sys.exit(1)
        return
    told = collections.Counter()
    for i in range(runs):
        failed = try_run(seed * 1000003 + i, (), told)
        if failed:
            print('run', i, 'fails', failed)
            sys.exit(1)
    print(f'{runs} runs,', ', '.join(f'{count} {what if isinstance(what, str) else "refused by " + what[1]}' for what, count in sorted(told.items(), key=str) if count))
    never = [clause for clause in CLAUSES if not told['refused', clause]]
    if never:
        sys.exit(f'never refused by {never}')


main()
