#!/usr/bin/env python3
"""Breaks an expression of antt's over lines: a small parser of brackets and operators, and what
breaks where.

A line is broken at the outermost operator first, and before it; then inside what still is too
long, arguments last. The kit's formatter gives every line but the first one and the same
indentation, so the operator that a line begins with is what shows the form.
"""
import dataclasses

LIMIT = 100
# How loosely an operator holds its sides: what is lower is broken first.
LEVELS = {";": -9, "|": -8, "↦": -7, ",": -6, "=": -5, ":": -4, "→": -1, "↔": 0, "⊎": 1, "×": 2,
          "≡": 4, "≢": 4, "∙": 30, "||": 30, "&&": 35, "==": 50, "<": 50, "≤": 50, "++": 65,
          "+": 65, "-": 65, "∷": 67, "*": 70, "/": 70, "%": 70, "^": 75}
ORDERED = sorted(set(LEVELS.values()))
TOP, ELSE = ORDERED[0], 5
# The operators of logic, each part of which has a line of its own; those of values fill lines.
LOGIC = range(-1, 5)
# The operators that end a line.
TRAILING = (";", ",", "=", ":", "↦")
OPEN = {"(": ")", "[": "]", "{": "}", "∥": "∥₁"}
# Parts as short as this share a line.
SHORT = 24


@dataclasses.dataclass
class Word:
    """A token, or what may not be broken: its text, and whether a blank stands before it."""

    text: str
    blank: bool


@dataclasses.dataclass
class Node:
    """Words from `first` up to `end`: a `word`; an `app`lication; a `chain` of parts with operators
    of a level between them; a `group` in brackets; a `head`, which is a λ up to its point with what
    it stands before; a `let`, which binds a part before another; or a `choice`, which is an if."""

    kind: str
    first: int
    end: int
    parts: list = dataclasses.field(default_factory=list)
    level: int = 0


class Parser:
    """Reads words as a tree. What it awaits is the words that end a part of a let or of an if."""

    def __init__(self, words):
        self.words, self.at, self.awaited = words, 0, ()

    def text(self):
        """The word that is next, or none."""
        return self.words[self.at].text if self.at < len(self.words) else ""

    def chain(self, level=TOP):
        """What is made by operators that hold no looser than this."""
        own = next((it for it in ORDERED if it >= level), None)
        if own is None:
            return self.app()
        first, parts = self.at, [self.chain(own + 1)]
        while LEVELS.get(self.text()) == own:
            self.at += 1
            parts.append(self.chain(own + 1))
        return parts[0] if len(parts) == 1 else Node("chain", first, self.at, parts, own)

    def app(self):
        """What stands side by side, up to an operator or the end of what is in brackets."""
        first, parts = self.at, []
        ends = {"", *LEVELS, *OPEN.values()}
        while self.text() not in ends and self.text() not in self.awaited:
            parts.append(self.item())
        return parts[0] if len(parts) == 1 else Node("app", first, self.at, parts)

    def item(self):
        """A word, a group, or what begins by a word of its own."""
        first, text = self.at, self.text()
        own = {"λ": self.head, "let": self.let, "if": self.choice}.get(text)
        if own:
            return own()
        self.at += 1
        if text not in OPEN:
            return Node("word", first, self.at)
        inner = self.up_to((), TOP)
        while self.text() and self.text() not in OPEN.values():
            self.at += 1
        self.at += self.text() == OPEN[text]
        while self.text().startswith(".") and not self.words[self.at].blank:
            self.at += 1
        return Node("group", first, self.at, [inner])

    def up_to(self, awaited, level):
        """What stands before one of these words, or in brackets."""
        before, self.awaited = self.awaited, awaited
        found, self.awaited = self.chain(level), before
        return found

    def head(self):
        """A λ up to its point, and what follows as far as it goes."""
        first = self.at
        while self.text() and self.text() != ".":
            self.at += 1
        self.at += 1
        body = self.chain(LEVELS["→"])
        return Node("head", first, self.at, [body])

    def let(self):
        """A let: what it binds, and what stands behind its in."""
        first = self.at
        self.at += 1
        bound = self.up_to(("in",), LEVELS["="])
        self.at += self.text() == "in"
        body = self.chain(LEVELS["→"])
        return Node("let", first, self.at, [bound, body])

    def choice(self):
        """An if, with its three parts."""
        first, parts = self.at, []
        for word, end in (("if", "then"), ("then", "else")):
            if self.text() == word:
                self.at += 1
                parts.append(self.up_to((end,), LEVELS["→"]))
        if self.text() == "else":
            self.at += 1
            parts.append(self.chain(ELSE))
        return Node("choice", first, self.at, parts)


class Layout:
    """Says before which words a line is broken."""

    def __init__(self, words, indent):
        self.words, self.indent, self.breaks = words, indent, set()

    def blank(self, at):
        """The column that the blank before a word takes."""
        return int(at < len(self.words) and self.words[at].blank)

    def width(self, first, end):
        """The columns of some words on one line."""
        columns = sum(len(it.text) + it.blank for it in self.words[first:end])
        return columns - self.blank(first) if first < end else 0

    def whole(self, node):
        """The columns of all of it on one line."""
        return self.width(node.first, node.end)

    def fits(self, node, column, tail):
        """Whether all of it is on this line, with what has to stand behind it."""
        return column + self.whole(node) + tail <= LIMIT

    def newline(self, at, column):
        """Breaks the line before a word, where a blank is; the column that is next."""
        if not self.blank(at):
            return column
        self.breaks.add(at)
        return self.indent

    def lead(self, node):
        """The columns of what has to be on the line where it begins."""
        if node.kind == "word" or not node.parts:
            return self.whole(node)
        first = node.parts[0]
        if self.is_logic(node) and self.indent + self.whole(first) <= LIMIT:
            return self.whole(first)
        return self.width(node.first, first.first) + self.blank(first.first) + self.lead(first)

    def is_function(self, node):
        """Whether it is a λ, in brackets or not."""
        words = [it.text for it in self.words[node.first:node.first + 2]]
        return words[:1] == ["λ"] or node.kind == "group" and words[1:] == ["λ"]

    def is_block(self, node):
        """Whether it is a record's fields or an elim's cases, which have a line each."""
        words = [it.text for it in self.words[node.first:node.end]]
        if node.kind != "group" or OPEN[words[0]] not in words:
            return False
        is_record = words[0] == "{" and words[2:3] == ["="] and self.blank(node.first + 1)
        return is_record or words[0] == "[" and "↦" in words

    def is_logic(self, node):
        """Whether it is a chain of facts."""
        return node.kind == "chain" and node.level in LOGIC

    def put(self, node, column, tail):
        """Lays out what begins at this column; the column after it."""
        if self.fits(node, column, tail) or node.kind == "word" or node.first >= node.end:
            return column + self.whole(node)
        return getattr(self, f"put_{node.kind}")(node, column, tail)

    def begin(self, node, column, tail, is_type=False):
        """Lays out what follows a blank at this column, here or on a new line: there where it is
        one line then, but for a type."""
        here = column + self.blank(node.first)
        if node.first >= node.end or self.fits(node, here, tail):
            return self.put(node, here, tail)
        is_one = self.fits(node, self.indent, tail) and not (is_type and self.is_logic(node))
        is_value = node.kind == "group" and not self.is_function(node)
        if is_one or is_value or here + self.lead(node) > LIMIT:
            here = self.newline(node.first, here)
        return self.put(node, here, tail)

    def put_group(self, node, column, tail):
        """What is in brackets: the one that closes them is on its last line."""
        if self.is_block(node):
            return self.put_block(node)
        inner = node.parts[0]
        after = self.blank(inner.end) + self.width(inner.end, node.end)
        column += len(self.words[node.first].text) + self.blank(inner.first)
        return self.put(inner, column, after + tail) + after

    def put_block(self, node):
        """Fields or cases, a line each; the formatter does the rest."""
        inner = node.parts[0]
        is_list = inner.kind == "chain" and inner.level in (LEVELS[";"], LEVELS["|"])
        for part in inner.parts if is_list else [inner]:
            self.newline(part.first - (self.words[part.first - 1].text == "|"), 0)
            self.put(part, self.indent + 4, 1)
        closing = max(it for it in range(node.first, node.end) if self.words[it].text in "]}")
        self.newline(closing, 0)
        return self.indent + self.width(closing, node.end)

    def put_head(self, node, column, tail):
        """A λ stays where it is, and what it stands before follows."""
        body = node.parts[0]
        return self.begin(body, column + self.width(node.first, body.first), tail)

    def put_let(self, node, column, tail):
        """A let: what follows its in begins a line."""
        bound, body = node.parts
        column = self.put(bound, column + len("let "), len(" in")) + len(" in ")
        return self.put(body, self.newline(body.first, column), tail)

    def put_choice(self, node, column, tail):
        """An if: its then and its else begin lines."""
        for part in node.parts:
            word = part.first - 1
            if part is not node.parts[0]:
                column = self.newline(word, column + 1)
            column += len(self.words[word].text)
            column = self.begin(part, column, tail if part is node.parts[-1] else 0)
        return column

    def is_short(self, node):
        """Whether it may share a line with another part."""
        return self.whole(node) <= SHORT

    def behind(self, part, after):
        """The columns of the operator that has to stand behind a part, and of a short type."""
        operator = self.words[part.end]
        if operator.text not in TRAILING:
            return 0
        has_type = operator.text == ":" and self.is_short(after)
        return len(operator.text) + operator.blank + (1 + self.whole(after)) * has_type

    def put_chain(self, node, column, tail):
        """Parts with operators: these begin lines, but for those that end one."""
        column = self.put(node.parts[0], column, self.behind(*node.parts[:2]))
        for before, part, after in zip(node.parts, node.parts[1:], [*node.parts[2:], None]):
            rest = tail if after is None else self.behind(part, after)
            at = part.first - 1
            operator = self.words[at].text
            if operator in TRAILING:
                column += self.blank(at) + len(operator)
                column = self.after_trailing(operator, part, column, rest)
                continue
            column += 1
            across = len(operator) + self.blank(part.first)
            shares = node.level not in LOGIC or self.is_short(before) and self.is_short(part)
            if not (shares and self.fits(part, column + across, rest)):
                column = self.newline(at, column)
            column = self.put(part, column + across, rest)
        return column

    def after_trailing(self, operator, part, column, tail):
        """What follows an operator that ends a line: a definition of several parts that is too
        long begins a line of its own."""
        is_long = part.kind in ("chain", "choice", "let") and not self.fits(part, column + 1, tail)
        if operator == "=" and is_long and self.indent <= column:
            return self.put(part, self.newline(part.first, column + 1), tail)
        return self.begin(part, column, tail, operator == ":")

    def put_app(self, node, column, tail):
        """Arguments fill lines. A function that is the last and only one begins where it is;
        several have a line each."""
        functions = [it for it in node.parts[1:] if self.is_function(it)]
        column = self.put(node.parts[0], column, 0)
        for part in node.parts[1:]:
            is_last = part is node.parts[-1]
            rest, here = tail if is_last else 0, column + self.blank(part.first)
            stays = is_last and functions == [part] and here + self.lead(part) <= LIMIT
            if stays or self.is_block(part):
                column = self.put(part, here, rest)
            elif part in functions:
                column = self.put(part, self.newline(part.first, here), rest)
            else:
                column = self.begin(part, column, rest)
        return column


def broken(words, column, indent, tail):
    """The places of the words before which the line is broken, where the first word stands at this
    column, later lines at this indentation, and so many columns have to stand behind the last."""
    parser, nodes, layout = Parser(words), [], Layout(words, indent)
    while parser.at < len(words):
        before = parser.at
        nodes.append(parser.chain())
        parser.at += parser.at == before
    for node in nodes:
        rest = tail if node is nodes[-1] else 0
        column = (layout.put if node is nodes[0] else layout.begin)(node, column, rest)
    return layout.breaks
