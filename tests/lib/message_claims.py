"""The four claims of docs/HEADLINE.md, and what lasts; for message_world.py."""
from lib.message_plans import LOCAL

SUCCESS, NO_LINE, CONFLICT, NO_STORE = 0x0000, 0xC0F0, 0xC0F1, 0xA700


class Claim(Exception):
    """A claim that fails."""


def claim(holds, *what):
    if not holds:
        raise Claim(*what)


def is_over(row):
    """Done, or dropped."""
    return row[0] in ('done', 'dropped')


def since_adoption(book):
    """The lines since the last adoption."""
    adoptions = [at for at, line in enumerate(book.journal) if line[0] == 'adoption']
    return book.journal[adoptions[-1] + 1:] if adoptions else book.journal


def acknowledged(lines):
    return {(line[1], line[2]) for line in lines if line[0] in ('arrival', 'repeat')}


def had(book):
    """What was acknowledged since the last adoption: callers with items, forgotten or not."""
    return acknowledged(since_adoption(book))


def was_given_up(w, name, item, to):
    """A person dropped this very item for that node, and nobody from whom it goes there was acknowledged since."""
    since = since_adoption(w.books[name])
    drops = [at for at, line in enumerate(since) if line == ('dropping', item.uid, to, item)]
    return bool(drops) and not any(i == item and to in w.plan.sends(name, c, item.key) for c, i in acknowledged(since[drops[-1]:]))


def has_arrival(w, name, caller, item):
    return (caller, item) in had(w.books[name])


def none_refused(w):
    for name, book in w.books.items():
        for line in book.journal:
            claim(line[0] != 'settling' or line[3] in ('Broken', 'Unreadable', SUCCESS, NO_STORE, CONFLICT), 'NoneRefused', name, line)
    for link in w.links.values():
        if link.stage in ('open', 'storing', 'replying'):
            claim(link.accepted >= w.plan.hops[link.caller, link.receiver], 'NoneRefused', 'pairs', link.caller, link.receiver)


def has_source(w, caller, name, item):
    sites = [(LOCAL, s) for s in w.books if has_arrival(w, s, LOCAL, item)]
    sites += [(n, to) for n in w.books for (uid, to), stood in w.carried_over[n].items() if stood == item]
    return any(walk[-1] == (caller, name) and len(walk) - 1 <= w.plan.ranks[first, site, item.key]
               for first, site in sites if (first, site, item.key) in w.plan.ranks for walk in w.plan.walks(first, site, item.key))


def is_honest(w):
    for link in w.links.values():
        claim(link.stage != 'replying' or link.status != SUCCESS or has_arrival(w, link.receiver, link.caller, link.item), 'IsHonest', 'reply', link.item)
    for name, book in w.books.items():
        for (uid, to), row in book.rows.items():
            item = book.items.get(uid)
            claim(item is not None and item.uid == uid, 'IsHonest', 'row without item', name, uid)
            claim(row[0] != 'done' or has_arrival(w, to, name, item), 'IsHonest', 'done', name, uid, to)
            brought = any(to in w.plan.sends(name, c, item.key) for c, i in had(book) if i == item)
            claim(brought or w.carried_over[name].get((uid, to)) == item, 'IsHonest', 'row', name, uid, to)


def is_covered(w, caller, name, item, dest):
    if item.uid in w.books[dest].kept and w.books[dest].items.get(item.uid) == item:
        return True
    for at in {walk[-1][1] for walk in w.plan.walks(caller, name, item.key)}:
        if w.books[at].items.get(item.uid) == item:
            if any(uid == item.uid and not is_over(r) and dest in w.plan.destinations(at, to, item.key) for (uid, to), r in w.books[at].rows.items()):
                return True
    return any(was_given_up(w, at, item, to) for walk in w.plan.walks(caller, name, item.key) for by, at in walk[-1:]
               for to in w.plan.sends(at, by, item.key) if dest in w.plan.destinations(at, to, item.key))


def nothing_lost(w):
    for name, book in w.books.items():
        for caller, uid in book.arrivals:
            claim(uid in book.items, 'HasItems', name, uid)
            claim((caller, book.items[uid]) in had(book), 'HasItems', 'not acknowledged', name, uid)
        for caller, item in sorted(had(book)):
            uid = item.uid
            claim(has_source(w, caller, name, item), 'WithinRank', caller, name, uid)
            dests = w.plan.destinations(caller, name, item.key)
            claim(dests, 'NothingLost', 'no destination', caller, name, uid)
            for dest in dests:
                claim(is_covered(w, caller, name, item, dest), 'NothingLost', caller, name, uid, dest)
        for (uid, to), item in w.carried_over[name].items():
            claim((name, to, item.key) in w.plan.ranks, 'NothingLost', 'a row that stood, and goes nowhere', name, uid, to)
            row = book.rows.get((uid, to)) if book.items.get(uid) == item else None
            dests = w.plan.destinations(name, to, item.key)
            claim(dests, 'NothingLost', 'no destination of a row that stood', name, uid, to)
            for dest in dests:
                queued = row is not None and not is_over(row)
                claim(queued or was_given_up(w, name, item, to) or (has_arrival(w, to, name, item) and is_covered(w, name, to, item, dest)), 'NothingLost', 'stood', name, uid, to)


def seen(w):
    return {n: (dict(b.items), set(b.kept), len(b.journal)) for n, b in w.books.items()}


def lasts(before, w):
    for name, (items, kept, lines) in before.items():
        book = w.books[name]
        claim(all(book.items.get(u) == i for u, i in items.items() if u in kept) and kept <= book.kept and lines <= len(book.journal), 'Lasts', name)
