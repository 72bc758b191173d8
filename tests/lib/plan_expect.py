"""What is expected of a plan: which rows hold, worked out over single instances and not over cells; for plans.py.

Written from the definitions in crates/dr_plan_expect/specs and crates/dr_cert_expect/specs. `WRONG_ROWS` has
definitions that differ in one thing each.
"""
from lib.plan_model import LOCAL
from lib.plan_reader import ANY, SYNTAXES
from lib.plan_texts import CLASSES, MODALITIES, NAMES, PREFIXES, STATIONS, table

OTHER = '\x80'  # a value that no plan and no row names, and what stands behind a prefix
FIELDS = ('class', 'syntax', 'modality', 'station')


def admits(pattern, value):
    return pattern == ANY or pattern == value


def admits_field(pattern, value):
    """The same for modality and station, of which a pattern may be a prefix."""
    return admits(pattern, value) or (pattern[-1:] == ANY and value.startswith(pattern[:-1]))


class Rows:
    """The rows of a file over a plan that was read. An instance is (class, transfer syntax, modality, station), each a value."""

    def __init__(self, model, rows):
        self.model = model
        self.rows = [{it: row.get(it, ANY) for it in ('at', *FIELDS)} | {it: row.get(it, []) for it in ('keep', 'never')} for row in rows]

    def values(self, field):
        """Values of the field, among which there is one for each way in which rules, flows and rows tell values apart."""
        named = self.model.literals(field) | {row[field] for row in self.rows} - {ANY}
        return {it.removesuffix(ANY) for it in named} | {it.removesuffix(ANY) + OTHER for it in named} | {OTHER}

    def instances(self):
        classes = {it for flow in self.model.flows for it in flow['class']}
        return [(it, syntax, modality, station) for it in sorted(classes) for syntax in SYNTAXES
                for modality in sorted(self.values('modality')) for station in sorted(self.values('station'))]

    def speaks(self, row, site, key):
        exactly = all(admits(row[it], value) for it, value in zip(('at', *FIELDS[:2]), (site, *key[:2])))
        return exactly and all(admits_field(row[it], value) for it, value in zip(FIELDS[2:], key[2:]))

    def stops(self, site, key):
        """The stops of all walks."""
        found, left = set(), [(LOCAL, site, key)]
        while left:
            stop = left.pop()
            if stop not in found:
                found.add(stop)
                left += self.model.next_stops(stop)
        return found

    def comes(self, site, key):
        return {node for _, node, _ in self.stops(site, key)}

    def keepers(self, site, key):
        return {stop[1] for stop in self.stops(site, key) if self.model.keeps(stop)}

    def enters(self, site, key):
        return bool(self.model.fitting(site, key))

    def cases(self, row):
        return [(site, key) for site in self.model.nodes for key in self.instances() if self.speaks(row, site, key) and self.enters(site, key)]

    def lacks(self, row, site, key):
        """What the row lacks of one instance."""
        keepers, comes = self.keepers(site, key), self.comes(site, key)
        return {f'keep {it}' for it in row['keep'] if it not in keepers} | {f'never {it}' for it in row['never'] if it in comes}

    def misses(self, row):
        cases = self.cases(row)
        return set().union(*(self.lacks(row, *it) for it in cases)) if cases else {'nothing'}

    def first_miss(self):
        """The number of the first row that doesn't hold, and what it may be said to lack; None where all hold."""
        for number, row in enumerate(self.rows, 1):
            found = self.misses(row)
            if found:
                return number, found
        return None

    def is_shown(self, number, lack, fields):
        """Whether the printed instance shows what the row lacks; its asterisks are values that nobody names."""
        row, (site, *key) = self.rows[number - 1], [it.replace(ANY, OTHER) if place > 2 else it for place, it in enumerate(fields)]
        key = tuple(key)
        return self.speaks(row, site, key) and self.enters(site, key) and lack in self.lacks(row, site, key)

    def fault(self, printed):
        """What is wrong with an answer, on both outputs and its status; None where it is right."""
        output, faults, status = printed
        want = self.first_miss()
        if want is None:
            return None if printed == (b'yes\n', b'', 0) else 'all rows hold'
        number, lacks = want
        words, end = output.decode('latin-1').split('\t'), output[-1:]
        words[-1] = words[-1].rstrip('\n')
        if (faults, status, end, words[:2]) != (b'', 1, b'\n', ['no', str(number)]):
            return f'row {number} lacks {lacks}'
        if words[2] not in lacks or (words[2] == 'nothing') != (len(words) == 3):
            return f'row {number} lacks {lacks}'
        if len(words) not in (3, 8) or (len(words) == 8 and not self.is_shown(number, words[2], words[3:])):
            return f'row {number}: this instance doesn\'t show it'
        return None


def random_rows(dice):
    """One row to four, of the names and values of random plans."""
    values = {'at': NAMES, 'class': CLASSES, 'syntax': SYNTAXES, 'modality': [*MODALITIES, 'US', 'C*', 'Z*'], 'station': [*STATIONS, *PREFIXES, 'S1x', 'S1x*']}
    rows = []
    for _ in range(dice.choice([1, 1, 2, 4])):
        row = {field: dice.choice(of) for field, of in values.items() if dice.random() < (0.15 if field == 'at' else 0.25)}
        row |= {field: dice.sample(NAMES, dice.choice([0, 1, 1, 2])) for field in ('keep', 'never') if dice.random() < 0.5}
        rows.append(row | ({field: ANY for field in values if field not in row and dice.random() < 0.1}))
    return rows


def fitting_rows(dice, model):
    """One row to three that say what is so of some instances, and now and then a little more."""
    plain, rows = Rows(model, [{}]), []
    cases = plain.cases(plain.rows[0])
    for site, key in dice.sample(cases, min(len(cases), dice.choice([1, 2, 3]))):
        row = {'at': site} | {field: value for field, value in zip(FIELDS, key) if OTHER not in value and dice.random() < 0.6}
        others = sorted(set(model.nodes) - plain.comes(site, key))
        keep = sorted(plain.keepers(site, key))[:dice.choice([1, 2])] + dice.sample(others, 1 if others and dice.random() < 0.2 else 0)
        rows.append(row | {'keep': keep, 'never': others[:dice.choice([0, 1, 2])]})
    return rows


def rows_text(rows):
    return ''.join(table('expect', it) for it in rows).encode()


# ---- definitions that are wrong

class OneKeeperIsEnough(Rows):
    def lacks(self, row, site, key):
        found = super().lacks(row, site, key)
        kept = set(row['keep']) & self.keepers(site, key)
        return {it for it in found if not (kept and it.startswith('keep '))}


class NamedValuesAlone(Rows):
    def instances(self):
        return [it for it in super().instances() if not any(OTHER in value for value in it)]


class NothingIsRight(Rows):
    def misses(self, row):
        return super().misses(row) - {'nothing'}


class SitesDontCount(Rows):
    """Where an instance enters is no node to which it comes."""

    def comes(self, site, key):
        return super().comes(site, key) - {site}


class KeepersAlone(Rows):
    """An instance comes to the nodes that keep it alone."""

    def comes(self, site, key):
        return self.keepers(site, key)


class PrefixIsAValue(Rows):
    def speaks(self, row, site, key):
        return super().speaks(row | {it: row[it].removesuffix(ANY) or ANY for it in FIELDS[2:]}, site, key)


class LastMiss(Rows):
    def first_miss(self):
        found = [(number, it) for number, it in enumerate(map(self.misses, self.rows), 1) if it]
        return found[-1] if found else None


WRONG_ROWS = {it.__name__: it for it in (OneKeeperIsEnough, NamedValuesAlone, NothingIsRight, SitesDontCount, KeepersAlone, PrefixIsAValue, LastMiss)}

# Files that aren't read, each with the line that is named, or with None where they are.
FILES = [
    (b'', 1), (b'# nothing\n', 1), (b'expect = []\n', 1), (b'[[expect]]\n', None), (b'[[expect]]\nkeep = ["A"]\nnever = []\n', None), (b'\xff', 1),
    (b'[[expect]]\n[[expect]\n', 2), (b'[[expect]]\nkeep = "A"\n', 1), (b'\n\n[[expect]]\nclass = "CT"\n', 3), (b'[[expect]]\nclass = "1.2"\n', None),
    (b'[[expect]]\n\n  [[expect]]\nsyntax = "1.2"\n[[expect]]\n', 3), (b'[[expect]]\nsyntax = "1.2.840.10008.1.2"\n', None), (b'[[expect]]\nstation = "a*b"\n', 1),
    (b'[[expect]]\nstation = "ab*"\n', None), (b'[[expect]]\nmodality = "C*"\n', None), (b'[[expect]]\nmodality = "**"\n', 1), (b'[[expect]]\nmodality = "*"\nstation = "*"\nat = "*"\n', None),
    (b'[[expect]]\n[[expect]]\nnode = "A"\n', 2), (b'[[expect]]\n[other]\n', 1), (b'[[expect]]\nnever = [1]\n', 1), (b'[expect]\n', 1),
    (b'expect = [{keep = ["A"]}]\n', None), (b'[[expect]]\nat = 1\n', 1), (b'\n[[expect]]\nmodality = "' + 65 * b'x' + b'"\n', 2),
]
