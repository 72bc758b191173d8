"""What changes from one plan to the next, worked out over single instances; for plans.py.

Written from the definitions in crates/dr_cert_diff/specs. `WRONG_DIFFS` has definitions that differ in one thing each.
"""
import re

from lib.plan_expect import OTHER, Rows
from lib.plan_reader import ANY, SYNTAXES


class Diff:
    """Two plans that were read, and the rows that say what changes."""

    def __init__(self, old, new):
        self.old, self.new = Rows(old, [{}]), Rows(new, [{}])

    def named(self, field):
        return self.old.model.literals(field) | self.new.model.literals(field)

    def part(self, field, value):
        """The part of the field in which a value lies, as it is printed."""
        named = self.named(field)
        if value in named:
            return value
        prefixes = [it for it in named if it[-1:] == ANY and value.startswith(it[:-1])]
        return max(prefixes, key=len, default=ANY)

    def values(self, field):
        fronts = {it.removesuffix(ANY) for it in self.named(field)}
        return sorted(fronts | {it + OTHER for it in fronts} | {it + 'x' for it in fronts} | {OTHER})

    def keepers(self, rows, site, key):
        return rows.keepers(site, key) if site in rows.model.nodes and rows.enters(site, key) else set()

    def keys(self):
        classes = {it for rows in (self.old, self.new) for flow in rows.model.flows for it in flow['class']}
        return [(a, b, c, d) for a in sorted(classes) for b in SYNTAXES for c in self.values('modality') for d in self.values('station')]

    def changes(self, site, key):
        before, after = self.keepers(self.old, site, key), self.keepers(self.new, site, key)
        return {'lost': before - after, 'gained': after - before}

    def rows(self):
        """The lines, in no order; instances of one cell have to agree."""
        found = {}
        for site in {*self.old.model.nodes, *self.new.model.nodes}:
            for key in self.keys():
                cell = (site, *key[:2], self.part('modality', key[2]), self.part('station', key[3]))
                changed = {word: tuple(sorted(it)) for word, it in self.changes(site, key).items()}
                assert found.setdefault(cell, changed) == changed, (cell, key)
        return {'\t'.join([word, *cell, *it]) for cell, changed in found.items() for word, it in changed.items() if it}


class LostAlone(Diff):
    def changes(self, site, key):
        return super().changes(site, key) | {'gained': set()}


class TurnedRound(Diff):
    def changes(self, site, key):
        return dict(zip(('gained', 'lost'), super().changes(site, key).values()))


class OldPartsAlone(Diff):
    """The values that the next plan names anew aren't told apart."""

    def named(self, field):
        return self.old.model.literals(field)

    def rows(self):
        try:
            return super().rows()
        except AssertionError:
            return None


WRONG_DIFFS = {it.__name__: it for it in (LostAlone, TurnedRound, OldPartsAlone)}


def changed_plan(dice, text):
    """The plan with a rule or a flow left out, or with another modality or station in one."""
    blocks = re.split(r'(?m)^(?=\[\[)', text.decode())
    movable = [i for i, it in enumerate(blocks) if it.startswith(('[[node.rule]]', '[[flow]]'))]
    for _ in range(dice.choice([1, 1, 2])):
        if movable:
            i = dice.choice(movable)
            if dice.random() < 0.4:
                blocks[i] = ''
            else:
                field = dice.choice(['modality', 'station'])
                value = '["XX"]' if blocks[i].startswith('[[flow]]') else '"XX"'
                blocks[i] = re.sub(rf'(?m)^{field} = .*$', f'{field} = {value}', blocks[i])
    return ''.join(blocks).encode()
