"""What journals say by themselves, by crates/dr_world_journals/specs written again in Python; for journals_match.py."""
from lib.message_claims import CONFLICT, NO_STORE, SUCCESS, acknowledged, is_over
from lib.message_plans import LOCAL

CLAUSES = ('histories', 'stood', 'successes', 'arrivals', 'fair')


class Replayed:
    """What lines make of the empty book; `sound` is false once a line isn't a call. A row is its kind, with the cause where it is held."""

    def __init__(self):
        self.items, self.arrivals, self.kept, self.rows, self.journal, self.sound = {}, set(), set(), {}, [], True

    def same(self, item):
        return self.items.get(item.uid, item) == item

    def move(self, at, kind, row):
        self.sound = self.sound and self.rows.get(at, ('none',))[0] == kind
        self.rows[at] = row

    def tell(self, line):
        # The item of a dropping is the one that the book has then, whatever was changed before it.
        self.journal.append((*line[:3], self.items.get(line[1])) if line[0] == 'dropping' else line)
        getattr(self, line[0])(*line[1:])

    def arrival(self, caller, item, targets, keep):
        self.sound = self.sound and self.same(item) and (caller, item.uid) not in self.arrivals
        self.items.setdefault(item.uid, item)
        self.arrivals.add((caller, item.uid))
        self.kept |= {item.uid} if keep else set()
        for to in targets:
            if self.rows.get((item.uid, to), ('dropped',)) == ('dropped',):
                self.rows[item.uid, to] = ('waiting',)

    def repeat(self, caller, item):
        self.sound = self.sound and self.same(item) and (caller, item.uid) in self.arrivals

    def settling(self, uid, dest, outcome):
        held = ('held', outcome) if outcome not in ('Broken', NO_STORE) else ('waiting',)
        self.move((uid, dest), 'waiting', ('done',) if outcome == SUCCESS else held)

    def requeuing(self, uid, dest):
        self.move((uid, dest), 'held', ('waiting',))

    def dropping(self, uid, dest, item):
        self.move((uid, dest), 'held', ('dropped',))
        self.arrivals = {(c, u) for c, u in self.arrivals if u != uid}

    def forgetting(self, uid):
        over = all(is_over(r) for (u, _), r in self.rows.items() if u == uid)
        self.sound = self.sound and uid in self.items and uid not in self.kept and over
        self.items.pop(uid, None)
        self.arrivals = {(c, u) for c, u in self.arrivals if u != uid}
        self.rows = {at: r for at, r in self.rows.items() if at[0] != uid}

    def adoption(self):
        self.arrivals, self.rows = set(), {at: r for at, r in self.rows.items() if not is_over(r)}


def replayed(lines):
    book = Replayed()
    for line in lines:
        book.tell(line)
    return book


def split(lines):
    """The lines up to the last adoption, and those since then."""
    at = max([i + 1 for i, line in enumerate(lines) if line[0] == 'adoption'], default=0)
    return lines[:at], lines[at:]


def is_history(plan, name, lines):
    """By itself: the lines are calls, and those since the last adoption are what a node of the plan answers."""
    def is_by(line):
        if line[0] not in ('arrival', 'repeat'):
            return True
        targets, keep = tuple(sorted(plan.sends(name, line[1], line[2].key))), plan.keeps(name, line[1], line[2].key)
        return (line[1], name, line[2].key) in plan.ranks and (line[0] == 'repeat' or line[3:] == (targets, keep))
    return replayed(lines).sound and all(is_by(line) for line in split(lines)[1])


def stood(lines):
    """The rows that the last adoption carried over, each with its item."""
    book = replayed(split(lines)[0])
    return {at: book.items[at[0]] for at in book.rows if at[0] in book.items}


def successes(lines):
    """The items that were answered with success since the last adoption, each with its node."""
    past, since = split(lines)
    book, found = replayed(past), set()
    for line in since:
        if line[0] == 'settling' and line[3] == SUCCESS and line[1] in book.items:
            found.add((line[2], book.items[line[1]]))
        book.tell(line)
    return found


def had(lines):
    return acknowledged(split(lines)[1])


def failing(plan, journals, without=()):
    """The first clause that the journals fail, of those that are asked; or None."""
    asked = [clause for clause in CLAUSES if clause not in without]
    for name, lines in sorted(journals.items()):
        if 'histories' in asked and not is_history(plan, name, lines):
            return 'histories'
        if 'stood' in asked and any((name, to, item.key) not in plan.ranks for (_, to), item in stood(lines).items()):
            return 'stood'
        if 'successes' in asked and any((name, item) not in had(journals.get(to, [])) for to, item in successes(lines)):
            return 'successes'
        if 'arrivals' in asked and not all(caller == LOCAL or is_sent_on(plan, journals, caller, item, name) for caller, item in had(lines)):
            return 'arrivals'
        if 'fair' in asked and any(line[0] == 'settling' and line[3] not in ('Broken', 'Unreadable', SUCCESS, NO_STORE, CONFLICT) for line in lines):
            return 'fair'
    return None


def is_sent_on(plan, journals, name, item, to):
    lines = journals.get(name, [])
    return any(i == item and to in plan.sends(name, c, i.key) for c, i in had(lines)) or stood(lines).get((item.uid, to)) == item
