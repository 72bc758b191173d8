"""Expands plans of format 3, written from the definitions in crates/dr_plan_expand/specs; for expansions.py and
plan_reader.py.

The tables of classes, of transfer syntaxes and of sets are those of the crate: tests/classes.py compares the first with
a second copy.
"""
import re
import tomllib

from classes import rows_of


class Unknown(Exception):
    """A set, a group or a class that nobody defines."""


class TooMuch(Exception):
    """The plan stands for more than a plan may."""


MOST = 262144


CLASSES = {word: row[2] for row in reversed(rows_of("classes")) for word in row[:2]}
SYNTAXES = {word: row[2] for row in rows_of("syntaxes") for word in row[:2]}
SETS = rows_of("usual")


def class_of(word):
    """The class of a word."""
    if re.fullmatch(r"[0-9.]{1,64}", word):
        return word
    if word not in CLASSES:
        raise Unknown(word)
    return CLASSES[word]


def classes_of(words, sets):
    """The classes of a list of words, with the sets that the plan defines."""
    found = []
    for word in words:
        if not word.startswith("@"):
            found.append(class_of(word))
        elif word[1:] in sets:
            found += [class_of(it) for it in sets[word[1:]]]
        else:
            usual = [uid for name, uid in SETS if name == word[1:]]
            if not usual:
                raise Unknown(word)
            found += usual
    return found


def nodes_of(words, groups):
    """The nodes of a list of words, with the groups that the plan defines."""
    found = []
    for word in words:
        if not word.startswith("@"):
            found.append(word)
        elif word[1:] in groups:
            found += groups[word[1:]]
        else:
            raise Unknown(word)
    return found


def listed(value):
    """One word, or a list of words, as a list."""
    return [value] if isinstance(value, str) else value


def any_or(value, means):
    """Any value, or what words mean."""
    return ["*"] if value == "*" else means(listed(value))


def as_set(stations):
    """What a rule excepts, in byte order and each once."""
    return sorted(set(stations), key=str.encode)


def core_of(plan):
    """The plan without names, sets, groups and lists."""
    sets, groups = plan.get("set", {}), plan.get("group", {})
    nodes, flows = [], []
    for node in plan.get("node", []):
        rows, rules = [], []
        for row in node.get("accept", []):
            callers = "*" if row["from"] == "*" else nodes_of(row["from"], groups)
            syntaxes = [SYNTAXES.get(it, it) for it in row["syntax"]]
            rows += [{"from": callers, "class": it, "syntax": syntaxes} for it in classes_of(listed(row["class"]), sets)]
        for rule in node.get("rule", []):
            whole = {"modality": "*", "station": "*", "keep": False, **rule, "except": as_set(rule.get("except", [])), "to": nodes_of(rule.get("to", []), groups)}
            rules += [{**whole, "from": caller, "class": it} for caller in any_or(rule.get("from", "*"), lambda w: nodes_of(w, groups))
                      for it in any_or(rule.get("class", "*"), lambda w: classes_of(w, sets))]
        nodes.append({"max_pdu": 16384, **node, "accept": rows, "rule": rules})
    for flow in plan.get("flow", []):
        whole = {**flow, "class": classes_of(listed(flow["class"]), sets), "syntax": [SYNTAXES.get(it, it) for it in flow["syntax"]]}
        flows += [{**whole, "at": at, "to": to} for at in nodes_of(listed(flow["at"]), groups) for to in nodes_of(listed(flow["to"]), groups)]
    return {"node": nodes, "flow": flows}


def number(count):
    """The number of a list: above 1,024 it is more than a plan may stand for."""
    return count if count <= 1024 else MOST + 1


def amount(words, defined, others=()):
    """For how many a list of words stands, with these definitions, and these sets of the product."""
    def of(word):
        if len(word.encode()) > 128:
            return MOST + 1
        if not word.startswith("@"):
            return 1
        usual = number(sum(name == word[1:] for name, _ in others)) if others else 1
        return len(defined[word[1:]]) if word[1:] in defined else usual
    return number(sum(map(of, words)))


def values_in(values):
    """For how many modalities or stations a flow lists these."""
    if values == "*":
        return 1
    prefixes = sum(it.endswith("*") for it in values)
    return number(len(values) - prefixes) + number(prefixes)


def size_of(plan):
    """How much a plan stands for."""
    sets, groups = plan.get("set", {}), plan.get("group", {})
    size = sum(number(len(it)) + sum(amount(words, {}) for words in it.values()) for it in (sets, groups))
    nodes_in, classes_in = (lambda it: amount(listed(it), groups)), (lambda it: amount(listed(it), sets, SETS))
    for node in plan.get("node", []):
        size += 1
        for row in node.get("accept", []):
            callers = 1 if row["from"] == "*" else nodes_in(row["from"])
            size += classes_in(row["class"]) * (1 + callers + amount(row["syntax"], {}))
        for rule in node.get("rule", []):
            callers, classes = rule.get("from", "*"), rule.get("class", "*")
            each = 1 + number(len(as_set(rule.get("except", [])))) + nodes_in(rule.get("to", []))
            size += (1 if callers == "*" else nodes_in(callers)) * (1 if classes == "*" else classes_in(classes)) * each
    for flow in plan.get("flow", []):
        lists = classes_in(flow["class"]) + amount(flow["syntax"], {}) + values_in(flow["modality"]) + values_in(flow["station"])
        size += nodes_in(flow["at"]) * nodes_in(flow["to"]) * (1 + lists)
    return size


def spelled(value):
    """A value as the one spelling has it."""
    if isinstance(value, bool):
        return "true" if value else "false"
    if isinstance(value, int):
        return str(value)
    if isinstance(value, str):
        return '"' + value.replace("\\", "\\\\").replace('"', '\\"') + '"'
    return "[" + ", ".join(spelled(it) for it in value) + "]"


def apart(values):
    """Modalities or stations with the values before the prefixes."""
    if values == "*":
        return values
    return [it for it in values if not it.endswith("*")] + [it for it in values if it.endswith("*")]


def table(head, fields, keys):
    """A table of the spelling."""
    return f"\n[[{head}]]\n" + "".join(f"{key} = {spelled(fields[key])}\n" for key in keys)


def text_of(core):
    """The one spelling of a plan."""
    text = "format = 3\n"
    for node in core["node"]:
        place = [key for key in ("listens", "address", "bind") if node.get(key, True) is not True]
        text += table("node", node, ["name", *place, "max_pdu"])
        text += "".join(table("node.accept", row, ["from", "class", "syntax"]) for row in node["accept"])
        for rule in node["rule"]:
            text += table("node.rule", rule, ["from", "class", "modality", "station", *["except"] * (rule["except"] != []), "to", "keep"])
    for flow in core["flow"]:
        whole = {**flow, "modality": apart(flow["modality"]), "station": apart(flow["station"])}
        text += table("flow", whole, ["at", "to", "class", "syntax", "modality", "station"])
    return text


def expanded(text):
    """What a text of format 3 expands to."""
    plan = tomllib.loads(text)
    if size_of(plan) > MOST:
        raise TooMuch
    return text_of(core_of(plan))
