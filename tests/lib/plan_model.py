"""Which plans are sound, their certificates, and the verdict on a certificate; for plans.py.

Written from the definitions in crates/dr_route/specs, dr_plan_model/specs, dr_plan_sound/specs, dr_check/specs and
dr_cert/specs. `WRONG` has definitions that differ in one thing each.
"""
import hashlib
import re

from lib.plan_reader import ANY, SYNTAXES

LOCAL = '-'
REST = None  # the part of a field with the values that the plan doesn't name
MOST_LINES = 65536


class Fault(Exception):
    """The plan isn't sound; the argument is the printed fault."""


def printed(cell):
    return '\t'.join(ANY if it is REST else it for it in cell)


def line_text(stop, rank):
    caller, node, cell = stop
    return f'line\t{caller}\t{node}\t{printed(cell)}\t{rank}'


def certificate_text(version, digest, hops, lines):
    rows = [f'certificate\t{version}', f'plan\t{digest}', *sorted(hops), *sorted(lines), 'end']
    return ''.join(f'{it}\n' for it in rows).encode()


class Model:
    """A plan that was read. A cell is (class, transfer syntax, modality, station), a stop (caller, node, cell). The part of the
    stations that begin with a prefix, and with no longer one, is the prefix with `*` behind it."""

    most_pairs, id_step, hop_order = 128, 2, staticmethod(sorted)

    def __init__(self, text, nodes, flows, form=1):
        self.form, self.digest = form, hashlib.sha256(text).hexdigest()
        self.nodes, self.flows = {it['name']: it for it in nodes}, flows
        self.parts = {field: self.literals(field) | {REST} for field in ('modality', 'station')}

    def literals(self, field):
        rules = {rule[field] for node in self.nodes.values() for rule in node['rule']} - {ANY}
        return rules.union(*(it[field] for it in self.flows if it[field] != ANY), self.excepted(field))

    def excepted(self, field):
        """What rules except."""
        return {it for node in self.nodes.values() for rule in node['rule'] for it in rule.get('except', []) if field == 'station'}

    # ---- what nodes do

    def takes_in(self, named, part):
        """Whether the values of the part are among those that the plan names so: one value, or all that begin alike."""
        return part is not REST and (named == part or (named[-1:] == '*' and part.startswith(named[:-1])))

    def is_listed(self, listed, part):
        return listed == ANY or any(self.takes_in(it, part) for it in listed)

    def fits(self, flow, cell):
        return all(self.is_listed(flow[it], part) for it, part in zip(('class', 'syntax', 'modality', 'station'), cell))

    def holds(self, rule, caller, cell):
        wanted = (('from', caller), ('class', cell[0]), ('modality', cell[2]), ('station', cell[3]))
        excepted = cell[3] is not REST and cell[3] in rule.get('except', [])
        return caller != LOCAL and not excepted and all(rule[it] == ANY or self.takes_in(rule[it], value) for it, value in wanted)

    def held(self, node, caller, cell):
        return [it for it in self.nodes[node]['rule'] if self.holds(it, caller, cell)]

    def fitting(self, node, cell):
        return [it for it in self.flows if it['at'] == node and self.fits(it, cell)]

    def sends(self, stop):
        caller, node, cell = stop
        if caller == LOCAL:
            return sorted({it['to'] for it in self.fitting(node, cell)})
        return sorted({to for it in self.held(node, caller, cell) for to in it['to']})

    def keeps(self, stop):
        caller, node, cell = stop
        return any(it['keep'] for it in self.held(node, caller, cell))

    def takes(self, row, caller, cell):
        return (row['from'] == ANY or caller in row['from']) and row['class'] == cell[0] and cell[1] in row['syntax']

    def accepts(self, stop):
        caller, node, cell = stop
        return caller == LOCAL or any(self.takes(it, caller, cell) for it in self.nodes[node]['accept'])

    def next_stops(self, stop):
        return [(stop[1], to, stop[2]) for to in self.sends(stop)]

    # ---- where instances enter

    def entries(self):
        """The sites and cells, in the byte order of what is printed of them."""
        def parts(flow, field):
            return [it for it in self.parts[field] if self.is_listed(flow[field], it)]
        found = {(it['at'], (sop_class, syntax, modality, station)) for it in self.flows for sop_class in it['class']
                 for syntax in it['syntax'] for modality in parts(it, 'modality') for station in parts(it, 'station')}
        return sorted(found, key=self.entry_order)

    def entry_order(self, entry):
        return entry[0], [ANY if it is REST else it for it in entry[1]]

    # ---- the check

    def look(self, stop, pairs):
        """What is wrong at the stop, behind these pairs of caller and node, in the order in which it is tested."""
        if not self.accepts(stop):
            return 'NoContext'
        if self.pair(stop) in pairs:
            return 'Cycle'
        return None if self.sends(stop) or self.keeps(stop) else 'DeadEnd'

    def pair(self, stop):
        return stop[:2]

    def rank(self, below):
        return max(below, default=-1) + 1

    def visit(self, stop, walk, pairs, ranks):
        """Enters the stop behind a walk, whose pairs these are, and all that follow."""
        walk = [*walk, stop[1]]
        wrong = self.look(stop, pairs)
        if wrong:
            raise Fault('\t'.join([wrong, printed(stop[2]), *walk]))
        if stop in ranks:
            return
        after = self.next_stops(stop)
        for it in after:
            self.visit(it, walk, pairs | {self.pair(stop)}, ranks)
        ranks[stop] = self.rank([ranks[it] for it in after])

    def hops_of(self, stops):
        """The pairs of class and transfer syntax over each hop that the stops show."""
        hops = {}
        for caller, node, cell in stops:
            if caller != LOCAL:
                hops.setdefault((caller, node), set()).add(cell[:2])
        return hops

    def pair_order(self, pair):
        return pair

    def hop_texts(self, stops):
        texts, hops = [], self.hops_of(stops)
        for sender, receiver in self.hop_order(hops):
            pairs = sorted(hops[sender, receiver], key=self.pair_order)
            if len(pairs) > self.most_pairs:
                raise Fault(f'TooManyContexts\t{sender}\t{receiver}')
            texts += [f'hop\t{sender}\t{receiver}\t{self.id_step * i + 1}\t{a}\t{b}' for i, (a, b) in enumerate(pairs)]
        return texts

    def version(self):
        return self.form

    def check(self):
        """What `check` prints, and whether the answer is yes; None for a plan that is too large."""
        ranks = {}
        try:
            for site, cell in self.entries():
                self.visit((LOCAL, site, cell), [], frozenset(), ranks)
                if len(ranks) > MOST_LINES:
                    return None
            lines = [line_text(stop, rank) for stop, rank in ranks.items()]
            return certificate_text(self.version(), self.digest, self.hop_texts(ranks), lines), True
        except Fault as wrong:
            return f'no\t{wrong}\n'.encode(), False

    def all_faults(self):
        """What `check --all` prints where a walk shows a fault: the line of each entry from which one does; else nothing."""
        lines = []
        for site, cell in self.entries():
            try:
                self.visit((LOCAL, site, cell), [], frozenset(), {})
            except Fault as wrong:
                lines.append(f'no\t{wrong}\n')
        return ''.join(lines).encode()

    # ---- the verdict

    def reached(self):
        """The stops to which instances come by sending alone, whether they are accepted or not."""
        found, left = set(), [(LOCAL, site, cell) for site, cell in self.entries()]
        while left:
            stop = left.pop()
            if stop not in found:
                found.add(stop)
                left += self.next_stops(stop)
        return found

    def true_ranks(self, stops):
        """The rank of each stop from which no walk goes on for ever; stops without an entry have none."""
        ranks, before = {}, -1
        while len(ranks) > before:
            before = len(ranks)
            for stop in stops - set(ranks):
                after = self.next_stops(stop)
                if all(it in ranks for it in after):
                    ranks[stop] = self.rank([ranks[it] for it in after])
        return ranks

    def certificate(self):
        """A text with all lines and hops of the plan, sound or not; where there is no rank, with rank 1."""
        stops = self.reached()
        ranks, hops = self.true_ranks(stops), self.hops_of(stops).items()
        texts = [f'hop\t{a}\t{b}\t{2 * i + 1}\t{c}\t{s}' for (a, b), pairs in hops for i, (c, s) in enumerate(sorted(pairs))]
        return certificate_text(self.form, self.digest, texts, [line_text(it, ranks.get(it, 1)) for it in stops])

    def verdict(self, text):
        """The code and name of the certificate's fault, or yes."""
        found = parse_certificate(text)
        if found is None:
            return 'C1 Text'
        version, digest, hops, lines = found
        if (version, digest) != (str(self.form), self.digest):
            return 'C2 OtherPlan'
        if any(a >= b for rows in (lines, hops) for a, b in zip(rows, rows[1:])):
            return 'C8 Order'
        return self.verdict_on_rows(hops, lines)

    def verdict_on_rows(self, hops, lines):
        stops, given = self.reached(), {}
        for line in lines:
            front, _, rank = line.rpartition('\t')
            given.setdefault(front, []).append(int(rank))
        fronts = {line_text(it, '')[:-1]: it for it in stops}
        if any(it not in given for it in fronts):
            return 'C3 MissingLine'
        if not all(map(self.accepts, stops)):
            return 'C5 NoContext'
        if any(not self.sends(it) and not self.keeps(it) for it in stops):
            return 'C6 DeadEnd'
        if any(it not in fronts for it in given):
            return 'C8 Order'
        ranks = self.true_ranks(stops)
        if any(given[front] != [ranks.get(stop)] for front, stop in fronts.items()):
            return 'C4 WrongRank'
        try:
            return 'yes' if sorted(self.hop_texts(stops)) == hops else 'C7 HopList'
        except Fault:
            return 'C7 HopList'


def is_number(text, most):
    return re.fullmatch('0|[1-9][0-9]*', text) is not None and int(text) <= most


def is_hop(fields):
    return len(fields) == 6 and fields[0] == 'hop' and is_number(fields[3], 255) and fields[5] in SYNTAXES


def is_line(fields):
    return len(fields) == 8 and fields[0] == 'line' and fields[4] in SYNTAXES and is_number(fields[7], 2 ** 32 - 1)


def parse_certificate(text):
    """The version, the digest, the rows of the hops and those of the lines; None where the bytes are no certificate's text."""
    front = re.match('certificate\t([123])\nplan\t([0-9a-f]{64})\n', text := text.decode('latin-1'))
    if front is None or not text.endswith('\nend\n'):
        return None
    rows = text[front.end():].split('\n')[:-2]
    hops = [it for it in rows if is_hop(it.split('\t'))]
    lines = [it for it in rows if is_line(it.split('\t'))]
    if rows != hops + lines or len(lines) > MOST_LINES:
        return None
    return front[1], front[2], hops, lines


# ---- definitions that are wrong

class FromOfARowIgnored(Model):
    def takes(self, row, caller, cell):
        return super().takes(row | {'from': ANY}, caller, cell)


class ClassOfARowIgnored(Model):
    def takes(self, row, caller, cell):
        return super().takes(row | {'class': cell[0]}, caller, cell)


class SyntaxOfARowIgnored(Model):
    def takes(self, row, caller, cell):
        return super().takes(row | {'syntax': SYNTAXES}, caller, cell)


def of_a_rule_ignored(field):
    class Wrong(Model):
        def holds(self, rule, caller, cell):
            return super().holds(rule | {field: ANY}, caller, cell)
    return Wrong


def of_a_flow_ignored(field):
    class Wrong(Model):
        def fits(self, flow, cell):
            return super().fits(flow | {field: ANY}, cell)
    return Wrong


class ExceptionsIgnored(Model):
    def holds(self, rule, caller, cell):
        return super().holds(rule | {'except': []}, caller, cell)


class ExceptionsByBeginning(Model):
    """A rule excepts what begins with a station that it excepts, too."""

    def holds(self, rule, caller, cell):
        begins = any(cell[3] is not REST and cell[3].startswith(it) for it in rule.get('except', []))
        return not begins and super().holds(rule, caller, cell)


class ExceptionsUnnamed(Model):
    """What rules except isn't among the plan's stations."""

    def excepted(self, field):
        return set()


class ExceptionsOfFlows(Model):
    """What some rule excepts doesn't enter."""

    def fits(self, flow, cell):
        return cell[3] not in self.excepted('station') and super().fits(flow, cell)


class FirstRuleAlone(Model):
    def held(self, node, caller, cell):
        return super().held(node, caller, cell)[:1]


class FirstFlowAlone(Model):
    def fitting(self, node, cell):
        return super().fitting(node, cell)[:1]


class EachRuleKeeps(Model):
    def keeps(self, stop):
        return stop[0] != LOCAL and any(it['keep'] for it in self.nodes[stop[1]]['rule'])


class KeepingEndsAWalk(Model):
    def sends(self, stop):
        return [] if self.keeps(stop) else super().sends(stop)


class RulesForTheLocalCaller(Model):
    def sends(self, stop):
        caller, node, cell = stop
        rules = [it for it in self.nodes[node]['rule'] if it['from'] == ANY and self.holds(it, node, cell)]
        return sorted({*super().sends(stop), *(to for it in rules for to in it['to'] if caller == LOCAL)})


class LiteralsPooled(Model):
    def literals(self, field):
        return super().literals('modality') | super().literals('station')


class EntriesReversed(Model):
    def entries(self):
        return super().entries()[::-1]


class RestLast(Model):
    def entry_order(self, entry):
        return entry[0], entry[1][:2], [(it is REST, it or '') for it in entry[1][2:]]


class RestFirst(Model):
    def entry_order(self, entry):
        return entry[0], entry[1][:2], [(it is not REST, it or '') for it in entry[1][2:]]


class ExplicitFirst(Model):
    def entry_order(self, entry):
        site, (sop_class, syntax, *rest) = super().entry_order(entry)
        return site, sop_class, -SYNTAXES.index(syntax), rest


class NodesInThePlansOrder(Model):
    def entry_order(self, entry):
        return list(self.nodes).index(entry[0]), super().entry_order(entry)


class TargetsReversed(Model):
    def next_stops(self, stop):
        return super().next_stops(stop)[::-1]


class LastOverfullHop(Model):
    hop_order = staticmethod(lambda hops: sorted(hops, reverse=True))


class PairsBySyntax(Model):
    def pair_order(self, pair):
        return pair[::-1]


class IdsWithoutGaps(Model):
    id_step = 1


class DeadEndFirst(Model):
    def look(self, stop, pairs):
        return super().look(stop, pairs) if self.sends(stop) or self.keeps(stop) else 'DeadEnd'


class CycleByNode(Model):
    def pair(self, stop):
        return stop[1]


class ShortestWalk(Model):
    def rank(self, below):
        return min(below, default=-1) + 1


class NodesCounted(Model):
    def rank(self, below):
        return max(below, default=0) + 1


class EntriesAreAccepted(Model):
    def accepts(self, stop):
        caller, node, cell = stop
        return any(self.takes(it, caller, cell) for it in self.nodes[node]['accept'])


class OnePairMore(Model):
    most_pairs = 129


class OnePairLess(Model):
    most_pairs = 127


class PrefixIsItself(Model):
    """A prefix holds of no other value than itself."""

    def takes_in(self, named, part):
        return part is not REST and part in (named, named.rstrip('*') or named)


class PrefixBeforeALiteral(Model):
    """A literal that begins with a prefix is in the prefix's part."""

    def literals(self, field):
        found = super().literals(field)
        return {it for it in found if it[-1:] == '*' or not any(other[-1:] == '*' and it.startswith(other[:-1]) for other in found)}


class ShortestPrefix(Model):
    """A value is in the part of its shortest prefix."""

    def literals(self, field):
        found = super().literals(field)
        return {it for it in found if it[-1:] != '*' or not any(other != it and other[-1:] == '*' and it.startswith(other[:-1]) for other in found)}


class VersionOne(Model):
    def version(self):
        return 1


class PrefixesWithoutTheirStar(Model):
    """The entries are in the order of what is named, without the `*` behind a prefix."""

    def entry_order(self, entry):
        return entry[0], [ANY if it is REST else it.rstrip('*') for it in entry[1]], super().entry_order(entry)


WRONG = {it.__name__: it for it in (
    FromOfARowIgnored, ClassOfARowIgnored, SyntaxOfARowIgnored, ExceptionsIgnored, ExceptionsByBeginning, ExceptionsUnnamed, ExceptionsOfFlows, FirstRuleAlone, FirstFlowAlone, EachRuleKeeps,
    KeepingEndsAWalk, RulesForTheLocalCaller, LiteralsPooled, EntriesReversed, RestLast, RestFirst, ExplicitFirst,
    NodesInThePlansOrder, TargetsReversed, LastOverfullHop, PairsBySyntax, IdsWithoutGaps, DeadEndFirst,
    CycleByNode, ShortestWalk, NodesCounted, EntriesAreAccepted, OnePairMore, OnePairLess, PrefixIsItself, PrefixBeforeALiteral, ShortestPrefix, VersionOne, PrefixesWithoutTheirStar,
)}
WRONG |= {f'{it} of a rule ignored': of_a_rule_ignored(it) for it in ('from', 'class', 'modality', 'station')}
WRONG |= {f'{it} of a flow ignored': of_a_flow_ignored(it) for it in ('class', 'syntax', 'modality', 'station')}
