"""Reads the text of a plan: the plan that it writes, or the first of its faults; for plans.py.

Written from the definitions in crates/dr_plan_text/specs, crates/dr_plan_expand/specs, crates/dr_plan/specs and
crates/dr_plan_model/specs/Formed.antt.
"""
import re
import tomllib

from lib.plan_expand import MOST, Unknown, core_of, size_of, text_of

IMPLICIT = '1.2.840.10008.1.2'
EXPLICIT = '1.2.840.10008.1.2.1'
SYNTAXES = (IMPLICIT, EXPLICIT)
ANY = '*'


class Refused(Exception):
    """The text is no plan; the argument is the fault's code and name."""


def need(condition, fault='L2 Field'):
    if not condition:
        raise Refused(fault)


def printable(text, least, apart_from):
    return all(least <= ord(it) <= 0x7E and it not in apart_from for it in text)


def is_name(text):
    return 1 <= len(text) <= 16 and printable(text, 0x20, '\\') and text == text.strip(' ') and text not in ('*', '-')


def is_literal(text):
    return len(text) <= 64 and printable(text, 0x20, '*') and text == text.strip(' ')


# the first format in which a value of the field may be a prefix
PREFIXES_FROM = {'modality': 3, 'station': 2}


def is_value(field, text, form):
    """A literal; in formats that have them a prefix too, which is written as a literal of one byte or more with `*` behind it."""
    has_prefixes = form >= PREFIXES_FROM[field]
    return is_literal(text) or (has_prefixes and text[-1:] == '*' and text != '*' and is_literal(text[:-1]))


def is_class(text):
    return re.fullmatch('[0-9.]{1,64}', text) is not None


def is_address(text):
    parts = re.fullmatch('(.+):([0-9]{1,5})', text)
    return len(text) <= 255 and printable(text, 0x21, '') and parts is not None and int(parts[2]) <= 65535


def is_max_pdu(number):
    return number == 0 or 1024 <= number <= 1048576


def is_list(value, of=str):
    return isinstance(value, list) and all(isinstance(it, of) for it in value)


def too_big(value):
    """Whether some whole number in the value has no 64 bits, which TOML doesn't promise to read."""
    if isinstance(value, dict):
        value = list(value.values())
    if isinstance(value, list):
        return any(map(too_big, value))
    return type(value) is int and not -(2 ** 63) <= value < 2 ** 63


def read_accept(row):
    need(set(row) == {'from', 'class', 'syntax'})
    need(row['from'] == ANY or is_list(row['from']))
    need(isinstance(row['class'], str) and is_class(row['class']))
    need(is_list(row['syntax']) and row['syntax'] and len(set(row['syntax'])) == len(row['syntax']))
    return row


def are_stations(value):
    """A list of single stations, which may be empty."""
    return is_list(value) and all(map(is_literal, value))


def read_rule(rule, form):
    need(set(rule) <= {'from', 'class', 'modality', 'station', 'to', 'keep', 'except'})
    need('except' not in rule or (form == 3 and are_stations(rule['except']) and rule['except']))
    rule = {'from': ANY, 'class': ANY, 'modality': ANY, 'station': ANY, 'except': [], 'to': [], 'keep': False} | rule
    need(all(isinstance(rule[it], str) for it in ('from', 'class', 'modality', 'station')))
    need(rule['class'] == ANY or is_class(rule['class']))
    need(all(rule[it] == ANY or is_value(it, rule[it], form) for it in PREFIXES_FROM))
    need(is_list(rule['to']) and type(rule['keep']) is bool)
    return rule


def read_node(node, form):
    need(set(node) <= {'name', 'address', 'max_pdu', 'accept', 'rule'} and {'name', 'address'} <= set(node))
    node = {'max_pdu': 16384, 'accept': [], 'rule': []} | node
    need(isinstance(node['name'], str) and isinstance(node['address'], str) and is_address(node['address']))
    need(type(node['max_pdu']) is int and is_list(node['accept'], dict) and is_list(node['rule'], dict))
    accepts = [read_accept(it) for it in node['accept']]
    return node | {'accept': accepts, 'rule': [read_rule(it, form) for it in node['rule']]}


def read_flow(flow, form):
    need(set(flow) == {'at', 'to', 'class', 'syntax', 'modality', 'station'})
    need(isinstance(flow['at'], str) and isinstance(flow['to'], str))
    need(is_list(flow['class']) and flow['class'] and all(map(is_class, flow['class'])))
    need(is_list(flow['syntax']) and flow['syntax'])
    need(all(flow[field] == ANY or (is_list(flow[field]) and all(is_value(field, it, form) for it in flow[field])) for field in PREFIXES_FROM))
    return flow


def names_used(nodes, flows):
    for node in nodes:
        yield node['name']
        for row in node['accept']:
            yield from [] if row['from'] == ANY else row['from']
        for rule in node['rule']:
            yield from [] if rule['from'] == ANY else [rule['from']]
            yield from rule['to']
    for flow in flows:
        yield from (flow['at'], flow['to'])


def read_tables(root):
    need(set(root) <= {'format', 'node', 'flow'})
    form = root.get('format', 1)
    need(type(form) is int and form in (1, 2, 3))
    nodes, flows = root.get('node', []), root.get('flow', [])
    need(is_list(nodes, dict) and is_list(flows, dict))
    return [read_node(it, form) for it in nodes], [read_flow(it, form) for it in flows], form


def is_words(value):
    """One word, or a list of one word or more."""
    return isinstance(value, str) or (is_list(value) and value != [])


def need_short(root):
    """Looks at the fields of the tables of format 3."""
    need(set(root) <= {'format', 'set', 'group', 'node', 'flow'})
    for name in ('set', 'group'):
        table = root.get(name, {})
        need(isinstance(table, dict) and all(is_list(it) and it for it in table.values()))
    nodes, flows = root.get('node', []), root.get('flow', [])
    need(is_list(nodes, dict) and is_list(flows, dict))
    for node in nodes:
        need(isinstance(node.get('name'), str) and not node['name'].startswith('@'))
        need(is_list(node.get('accept', []), dict) and is_list(node.get('rule', []), dict))
        for row in node.get('accept', []):
            need(is_words(row.get('class')))
        rules = []
        for rule in node.get('rule', []):
            need(all(is_words(rule.get(it, ANY)) for it in ('from', 'class')))
            need(are_stations(rule.get('except', [])))
            rules.append({key: it for key, it in rule.items() if (key, it) != ('except', [])} | {'from': ANY, 'class': ANY})
        plain = [{**row, 'class': '1'} for row in node.get('accept', [])]
        read_node({**node, 'accept': plain, 'rule': rules}, 3)
    for flow in flows:
        need(all(is_words(flow.get(it)) for it in ('at', 'to', 'class')))
        read_flow({**flow, 'at': 'A', 'to': 'A', 'class': ['1']}, 3)


def expanded(root):
    """The text that is read for a text of format 3, by its root table."""
    need_short(root)
    need(size_of(root) <= MOST, 'L6 Limit')
    try:
        core = text_of(core_of(root))
    except Unknown:
        raise Refused('L4 UnknownName') from None
    try:
        own = tomllib.loads(core)
        need_short(own)
        need(size_of(own) <= MOST)
        need(text_of(core_of(own)) == core)
    except (Unknown, tomllib.TOMLDecodeError):
        raise Refused('L2 Field') from None
    return core


def read_root(text):
    """The root table of a text."""
    try:
        root = tomllib.loads(text.decode())
    except (UnicodeDecodeError, tomllib.TOMLDecodeError, RecursionError):
        raise Refused('L1 NotToml') from None
    need(not too_big(root), 'L1 NotToml')
    return root


def read_text(text):
    """The text that is read for the bytes, with the nodes and flows that it writes, and the format; raises Refused."""
    root = read_root(text)
    if type(root.get('format')) is int and root['format'] == 3:
        text = expanded(root).encode()
        root = tomllib.loads(text.decode())
    return text, *read_plan_of(root)


def read_plan(text):
    """The nodes and flows that are read for the bytes, and the format; raises Refused."""
    return read_text(text)[1:]


def read_plan_of(root):
    """The nodes and flows that a root table says, and the format; raises Refused."""
    nodes, flows, form = read_tables(root)
    lists = [row['syntax'] for node in nodes for row in node['accept']] + [flow['syntax'] for flow in flows]
    need(all(set(it) <= set(SYNTAXES) for it in lists), 'L7 Syntax')
    names, used = [it['name'] for it in nodes], list(names_used(nodes, flows))
    need(all(map(is_name, used)) and len(set(names)) == len(names), 'L3 Name')
    need(len(nodes) <= 64 and sum(len(it['rule']) for it in nodes) + len(flows) <= 1024, 'L6 Limit')
    need(all(is_max_pdu(it['max_pdu']) for it in nodes), 'L6 Limit')
    need(set(used) <= set(names), 'L4 UnknownNode')
    need(all(node['name'] not in rule['to'] for node in nodes for rule in node['rule']), 'L5 SelfRoute')
    need(all(it['at'] != it['to'] for it in flows), 'L5 SelfRoute')
    return nodes, flows, form
