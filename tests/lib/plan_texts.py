"""Random texts of plans and certificates; for plans.py. Each is made from its own dice, so a seed gives it again."""
from lib.plan_reader import ANY, EXPLICIT, IMPLICIT, SYNTAXES

NAMES = ['A', 'A B', 'B', 'C-', 'D', 'a', 'CT1', '-x', '*y']
CLASSES = ['1', '1.2', '1.2.3']
MODALITIES = ['CT', 'MR', '', '!', '(', '+', 'Z z']
STATIONS = ['S1', 'S2', '', '#', '~']
MODALITY_PREFIXES = ['C*', 'CT*', 'M*', '!*', 'Z*', '((*']
PREFIXES = ['S*', 'S1*', 'S12*', '#*', 'S 1*', '~~*']
EXCEPTED = ['S12', 'S1', 'S', '']


def quoted(value):
    if isinstance(value, list):
        return '[' + ', '.join(map(quoted, value)) + ']'
    return '"' + value.replace('\\', '\\\\').replace('"', '\\"') + '"'


def table(head, values):
    """The text of a table; a value that isn't text or a list stands as it is written."""
    lines = [f'{k} = {quoted(v) if isinstance(v, (str, list)) else str(v).lower()}' for k, v in values.items()]
    return '\n'.join([f'[[{head}]]', *lines, ''])


def plan_text(nodes, flows, form=1):
    """Nodes are (name, rows of accepts, rules)."""
    text = '' if form == 1 else f'format = {form}\n'
    for name, accepts, rules in nodes:
        text += table('node', {'name': name, 'address': 'h:1'})
        text += ''.join(table('node.accept', it) for it in accepts) + ''.join(table('node.rule', it) for it in rules)
    return (text + ''.join(table('flow', it) for it in flows)).encode()


def some(dice, of, counts):
    return [dice.choice(of) for _ in range(dice.choice(counts))] if of else []


def random_rule(dice, names, targets, classes, modalities, stations, form):
    rule = {
        'from': dice.choice([ANY, ANY, dice.choice(names)]), 'class': dice.choice([ANY, ANY, dice.choice(classes)]),
        'modality': dice.choice([ANY, dice.choice(modalities)]), 'station': dice.choice([ANY, ANY, dice.choice(stations)]),
    }
    rule = {field: it for field, it in rule.items() if it != ANY or dice.random() < 0.2}
    if form == 3 and dice.random() < 0.4:
        rule['except'] = some(dice, [*EXCEPTED, *(it for it in stations if it[-1:] != ANY)], [1, 1, 2])
    return rule | {'to': some(dice, targets, [0, 1, 1, 2]), 'keep': dice.random() < 0.5}


def random_accepts(dice, names, classes, all_taken):
    if all_taken:
        return [{'from': ANY, 'class': it, 'syntax': list(SYNTAXES)} for it in classes]
    return [{'from': dice.choice([ANY, some(dice, names, [0, 1, 2])]), 'class': it,
             'syntax': dice.choice([[IMPLICIT], [EXPLICIT], [EXPLICIT, IMPLICIT]])} for it in classes for _ in range(dice.randrange(4))]


def random_flow(dice, at, to, classes, modalities, stations):
    return {'at': at, 'to': to, 'class': some(dice, classes, [1, 2]), 'syntax': some(dice, SYNTAXES, [1, 2]),
            'modality': dice.choice([ANY, some(dice, modalities, [0, 1, 2])]),
            'station': dice.choice([ANY, some(dice, stations, [1, 1, 2])])}


def random_plan(dice):
    """A plan of two to five nodes; seven in ten have no way back, and so no cycle."""
    names, classes = dice.sample(NAMES, dice.choice([2, 3, 3, 4, 4, 5])), dice.sample(CLASSES, dice.choice([1, 1, 2]))
    modalities, stations = dice.sample(MODALITIES, dice.choice([1, 2, 3])), dice.sample(STATIONS, dice.choice([1, 2]))
    form = dice.choice([1, 1, 2, 3])
    if form != 1:
        stations += dice.sample(PREFIXES, dice.choice([0, 1, 2, 3]))
    if form == 3:
        modalities += dice.sample(MODALITY_PREFIXES, dice.choice([0, 1, 2, 3]))
    forwards, all_taken, nodes, flows = dice.random() < 0.7, dice.random() < 0.75, [], []
    for place, name in enumerate(names):
        targets = [it for i, it in enumerate(names) if (i > place if forwards else i != place)]
        rules = [random_rule(dice, names, targets, classes, modalities, stations, form) for _ in range(dice.randrange(4))]
        rules += [{'keep': True}] if dice.random() < 0.6 else []
        nodes.append((name, random_accepts(dice, names, classes, all_taken), rules))
    for _ in range(dice.randrange(5)):
        at, to = dice.sample(names, 2)
        if forwards and names.index(at) > names.index(to):
            at, to = to, at
        flows.append(random_flow(dice, at, to, classes, modalities, stations))
    dice.shuffle(nodes)
    return plan_text(nodes, flows, form)


# ---- plans with one thing that is large

KEEP = {'keep': True}


def taking(classes):
    return [{'from': ANY, 'class': it, 'syntax': list(SYNTAXES)} for it in classes]


def numbered(front, count):
    return [f'{front}{it}' for it in range(1, count + 1)]


def flow_of(at, to, classes, modalities, stations, syntaxes=SYNTAXES):
    return {'at': at, 'to': to, 'class': classes, 'syntax': list(syntaxes), 'modality': modalities, 'station': stations}


def full_hop(pairs):
    """So many pairs over one hop."""
    classes, odd = numbered('2.25.', pairs // 2), ['2.25.0'][:pairs % 2]
    flows = [flow_of('CT1', 'ARCH', classes, ['CT'], ['S1'])] + [flow_of('CT1', 'ARCH', odd, ['CT'], ['S1'], [EXPLICIT])] * (pairs % 2)
    return plan_text([('CT1', [], []), ('ARCH', taking(classes + odd), [KEEP])], flows)


def overfull_hops():
    """Six hops with 130 pairs each."""
    classes, names = numbered('1.', 65), ['B', 'A', 'A B', 'X', 'Y']
    flows = [flow_of(at, to, classes, ['CT'], ['S']) for at in ('B', 'A B', 'A') for to in ('Y', 'X')]
    return plan_text([(it, taking(classes), [KEEP]) for it in names], flows)


def many_cells(modalities, stations):
    """Two lines for each of so many modalities and stations."""
    flow = flow_of('CT1', 'ARCH', ['1.2'], numbered('M', modalities), numbered('S', stations), [EXPLICIT])
    return plan_text([('CT1', [], []), ('ARCH', taking(['1.2']), [KEEP])], [flow])


def long_walk(nodes=33, hops=1023):
    """One walk that goes over as many hops as rules and flows allow: over each ordered pair of nodes once at most."""
    left, stack, path = {i: [j for j in range(nodes) if j != i] for i in range(nodes)}, [0], []
    while stack:
        if left[stack[-1]]:
            stack.append(left[stack[-1]].pop())
        else:
            path.append(f'N{stack.pop()}')
    path, rules = path[::-1][:hops + 1], {f'N{i}': [] for i in range(nodes)}
    for caller, here, to in zip(path, path[1:], path[2:]):
        rules[here].append({'from': caller, 'to': [to]})
    rules[path[-1]].append({'from': path[-2], 'keep': True})
    flow = flow_of(path[0], path[1], ['1.2'], ['CT'], ['S'], [EXPLICIT])
    return plan_text([(name, taking(['1.2']), it) for name, it in rules.items()], [flow])


LARGE = {
    '127 pairs': full_hop(127), '128 pairs': full_hop(128), '129 pairs': full_hop(129), '130 pairs': full_hop(130),
    'six overfull hops': overfull_hops(), 'a walk of 1,023 hops': long_walk(),
}
LARGEST = {'65,536 lines': many_cells(128, 256), '66,048 lines': many_cells(129, 256)}


# ---- texts that may be no plans: values are as TOML writes them

ODD_NAMES = ['"A"', '"B"', '"C D"', '"-"', '"*"', '""', '" A"', '"A\\\\B"', '"0123456789ABCDEF"', '"0123456789ABCDEFG"', '1', '["A"]', '"ä"',
             '"A\\u007f"', 'true']
ODD_ADDRESSES = ['"h:1"', '"h:65535"', '"h:65536"', '":1"', '"h"', '"h:1:2"', '"h h:1"', '"h:"', '"h:123456"', '"h:00001"', f'"{"x" * 253}:1"',
                 f'"{"x" * 254}:1"', '1', '"ä:1"', '""']
ODD_LIMITS = ['-1', '1', '1023', '1048577', '1024.0', '"0"', '9223372036854775807', '9223372036854775808', '-9223372036854775808', '1_024', '0b1']
ODD_CLASSES = ['"*"', '""', '"1.a"', f'"{"1" * 64}"', f'"{"1" * 65}"', '["1"]', '"."', '1']
ODD_LITERALS = ['"C*"', '"C *"', '" C*"', '"C*C"', f'"{"x" * 64}*"', f'"{"x" * 65}*"', '"*C"', '" "', '"a\\u007f"', '1', '[]', f'"{"x" * 64}"', f'"{"x" * 65}"', '"A B"', '"**"', '"S "']
ODD_SYNTAXES = [f'"{it}"' for it in (*SYNTAXES, '1.2.840.10008.1.2.2', '')]
GOOD_SYNTAXES = [f'["{IMPLICIT}"]', f'["{EXPLICIT}", "{IMPLICIT}"]']


class OddTexts:
    """Writes texts in which each value is odd at some rate, and each table lacks a key at a lower one."""

    def __init__(self, dice):
        self.dice, self.rate = dice, dice.choice([0, 0.02, 0.1, 0.3])
        self.names = dice.sample(['"A"', '"B"', '"C D"'], dice.choice([2, 3, 3, 3]))

    def happens(self, share):
        return self.dice.random() < self.rate * share

    def list_of(self, values):
        return '[' + ','.join(some(self.dice, values, range(4))) + ']'

    def table(self, head, fields, may_lack=False):
        """Fields are (key, good values, odd values)."""
        text = f'[[{head}]]\n'
        for key, good, odd in fields:
            if self.happens(0.2) or (may_lack and self.dice.random() < 0.6):
                continue
            text += f'{key} = {self.dice.choice(odd if self.happens(1) else good)}\n'
        return text + ('colour = 1\n' if self.happens(0.1) else '') + ('keep = true\n' if self.happens(0.1) else '')

    def accept(self):
        return self.table('node.accept', [
            ('from', ['"*"', self.list_of(self.names)], [self.list_of(ODD_NAMES), '"A"', '1']), ('class', ['"1.2"'], ODD_CLASSES),
            ('syntax', GOOD_SYNTAXES, [self.list_of(ODD_SYNTAXES), ODD_SYNTAXES[0], '[1]', f'["{EXPLICIT}","{EXPLICIT}"]']),
        ])

    def rule(self, name):
        targets = ['[]'] + [f'[{it}]' for it in self.names if it != name]
        return self.table('node.rule', [
            ('from', ['"*"', *self.names], ODD_NAMES), ('class', ['"*"', '"1.2"'], ODD_CLASSES), ('modality', ['"*"', '"CT"', '""'], ODD_LITERALS),
            ('station', ['"*"', '"S"'], ODD_LITERALS), ('to', targets, [self.list_of(ODD_NAMES), self.list_of(self.names), '"A"']),
            ('keep', ['true', 'false'], ['1', '"true"']),
        ], may_lack=True) + ('except = ["S"]\n' if self.happens(0.2) else '')

    def node(self, name):
        limits = [('max_pdu', ['0', '1024', '1048576'], ODD_LIMITS)] if self.dice.random() < 0.3 else []
        text = self.table('node', [('name', [name], ODD_NAMES), ('address', ['"h:1"'], ODD_ADDRESSES), *limits])
        return text + ''.join(self.accept() for _ in range(self.dice.randrange(3))) + ''.join(self.rule(name) for _ in range(self.dice.randrange(3)))

    def flow(self):
        at, to = self.dice.sample(self.names, 2)
        values = ['"CT"', '["*"]', '[1]', '["a "]', '1', self.list_of(ODD_LITERALS)]
        return self.table('flow', [
            ('at', [at], ODD_NAMES), ('to', [to], ODD_NAMES), ('class', ['["1.2"]', '["1","1"]'], ['[]', '["*"]', '"1"', '[1]']),
            ('syntax', GOOD_SYNTAXES, ['[]', self.list_of(ODD_SYNTAXES), ODD_SYNTAXES[1]]), ('modality', ['"*"', '["CT"]', '[]', '["",""]'], values),
            ('station', ['"*"', '["S"]'], values),
        ])

    def text(self):
        text = ''
        if self.dice.random() < 0.3:
            text += f'format = {self.dice.choice(["4", "0", "1.0", chr(34) + "1" + chr(34), "true", "0x1", "+1", "0x3"] if self.happens(1) else ["1", "2", "3"])}\n'
        text += ''.join(map(self.node, self.names)) + ''.join(self.flow() for _ in range(self.dice.choice([0, 1, 1, 2])))
        found = bytearray(text.encode())
        if self.happens(0.2):
            found[self.dice.randrange(len(found))] = self.dice.choice([0, 10, 13, 34, 35, 44, 91, 93, 128, 255])
        return bytes(found)


class ShortTexts(OddTexts):
    """Writes texts of format 3 so, with sets, groups, names and lists."""

    def words(self, good, odd):
        """One word, or a list of words."""
        values = odd if self.happens(1) else good
        return self.dice.choice([self.dice.choice(values), '[' + ','.join(some(self.dice, values, [1, 1, 2, 3])) + ']'])

    def classes(self):
        return self.words(['"1.2"', '"1.2"', '"CTImageStorage"', '"MR Image Storage"', '"@ours"', '"@us"'],
                          ['"CT"', '"@none"', '"@"', '"*"', '""', '"@bad"', '1', '"CTImageStorage "', '"ExplicitVRLittleEndian"'])

    def nodes(self, name=None):
        return self.words([it for it in self.names if it != name] + ['"@one"'], [*ODD_NAMES, '"@none"', '"@odd"', '"@twice"', '"@"'])

    def syntaxes(self):
        return self.dice.choice([*GOOD_SYNTAXES, '["ExplicitVRLittleEndian"]', '["Implicit VR Little Endian","1.2.840.10008.1.2.1"]']
                                if not self.happens(1) else ['["JPEGBaseline8Bit"]', '["ExplicitVRLittleEndian","1.2.840.10008.1.2.1"]', '[]', '"ExplicitVRLittleEndian"'])

    def accept(self):
        callers = ['"*"', self.list_of(self.names), '["@one"]', '["@twice"]']
        return self.table('node.accept', [
            ('from', callers, ['["@none"]', '"@one"', self.list_of(ODD_NAMES)]), ('class', [self.classes()], ODD_CLASSES),
            ('syntax', [self.syntaxes()], ['1']),
        ])

    def rule(self, name):
        targets = ['[]'] + [f'[{it}]' for it in self.names if it != name] + ['["@one"]'] * (name != self.names[0])
        return self.table('node.rule', [
            ('from', ['"*"', self.nodes()], ['[]', '1']), ('class', ['"*"', self.classes()], ['[]', '1']), ('modality', ['"*"', '"CT"', '"C*"'], ODD_LITERALS),
            ('station', ['"*"', '"S"', '"S*"'], ODD_LITERALS), ('to', targets, ['["@none"]', '"@one"', self.list_of(ODD_NAMES)]),
            ('except', ['[]', '["S"]', '["S1","","S","S1"]'], ['"S"', '[1]', self.list_of(ODD_LITERALS)]),
            ('keep', ['true', 'false'], ['1', '"true"']),
        ], may_lack=True)

    def flow(self):
        at, to = self.dice.sample(self.names, 2)
        return self.table('flow', [
            ('at', [at, f'[{at}]', self.nodes(to)], ['[]', '1']), ('to', [to, f'[{to}]', self.nodes(at)], ['[]', '1']), ('class', [self.classes()], ['[]', '1']),
            ('syntax', [self.syntaxes()], ['1']), ('modality', ['"*"', '["CT"]', '["C*","CT"]', '[]'], ['"CT"', '["*"]', '[1]']),
            ('station', ['"*"', '["S"]', '["S*","S"]'], ['"S*"', '["*"]', '[1]']),
        ])

    def definitions(self):
        """The tables of sets and of groups, of which a few are odd."""
        sets = ['ours = ["1.2","CTImageStorage"]', 'ours = ["MR Image Storage"]', 'bad = ["CT"]', '"" = ["1.2"]']
        groups = [f'one = [{self.names[0]}]', f'twice = [{self.names[0]},{self.names[0]}]', 'odd = ["@one"]', 'odd = ["A B C"]']
        text = '[set]\n' + sets[self.dice.randrange(2)] + '\n' + (self.dice.choice(sets[2:]) + '\n' if self.happens(1) else '')
        text += '[group]\n' + '\n'.join(groups[:2]) + '\n' + (self.dice.choice(groups[2:]) + '\n' if self.happens(1) else '')
        return text + ('none = []\n' if self.happens(0.1) else '') + ('none = "A"\n' if self.happens(0.1) else '')

    def text(self):
        text = 'format = 3\n' + self.definitions()
        text += ''.join(map(self.node, self.names)) + ''.join(self.flow() for _ in range(self.dice.choice([0, 1, 1, 2])))
        found = bytearray(text.encode())
        if self.happens(0.2):
            found[self.dice.randrange(len(found))] = self.dice.choice([0, 10, 13, 34, 35, 44, 64, 91, 93, 128, 255])
        return bytes(found)


def over_limits():
    """Texts at the limits of nodes, and of rules and flows, and one beyond each."""
    def nodes(count, rules):
        return plan_text([(f'N{it}', [], [KEEP] * rules) for it in range(count)], [])
    flow = table('flow', flow_of('N0', 'N1', ['1'], [], [])).encode()
    return [nodes(64, 16), nodes(65, 1), nodes(64, 16) + flow, nodes(2, 512), nodes(2, 511) + flow * 2, nodes(2, 511) + flow * 3]


# ---- certificates with faults

FIELDS = ['', '*', 'A', 'CT', 'S1', '0', '1', '2', '3', '00', '255', '256', '-', IMPLICIT, EXPLICIT, 'x', '4294967295', '4294967296']


def mutated(dice, text):
    """The text of a certificate with one thing changed."""
    rows = text.decode('latin-1').split('\n')[:-1]
    kind, place = dice.choice(['none', 'drop', 'repeat', 'swap', 'field', 'rank', 'add', 'byte']), dice.randrange(len(rows))
    fields = rows[place].split('\t')
    if kind == 'byte':
        changed = bytearray(text)
        changed[dice.randrange(len(changed))] = dice.choice([0, 9, 10, 13, 32, 42, 48, 49, 65, 97, 255])
        return bytes(changed)
    if kind == 'drop':
        del rows[place]
    elif kind == 'repeat':
        rows.insert(place, rows[place])
    elif kind == 'swap':
        other = dice.randrange(len(rows))
        rows[place], rows[other] = rows[other], rows[place]
    elif kind != 'none' and len(fields) > 1:
        at = len(fields) - 1 if kind == 'rank' else dice.randrange(1, len(fields))
        fields[at] = dice.choice([*FIELDS, dice.choice(rows).split('\t')[-1]])
        rows[place:place + (kind != 'add')] = ['\t'.join(fields)]
    if kind != 'swap' and dice.random() < 0.6:
        kinds = {it: sorted(row for row in rows if row.startswith(it)) for it in ('hop\t', 'line\t')}
        others = [row for row in rows if not row.startswith(tuple(kinds))]
        rows = others[:2] + kinds['hop\t'] + kinds['line\t'] + others[2:]
    return ''.join(f'{it}\n' for it in rows).encode('latin-1')


def hostile(text):
    """Each prefix of the text, and each with one byte set to 0 or to 255."""
    for end in range(len(text)):
        yield text[:end]
        for byte in (0, 255):
            yield text[:end] + bytes([byte]) + text[end + 1:]
