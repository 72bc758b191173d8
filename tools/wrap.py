#!/usr/bin/env python3
"""Breaks the lines of the sources that are over 100 columns: `tools/wrap.py [FOLDER]`, of this
checkout where no folder is named. With `--check` it changes nothing, lists the lines over 100
columns, and ends with status 1 where there are some.

It takes the `.rt` files of each src/ and the `.antt` files of each specs/, or with `--proofs` those
of each proofs/. A clause or a definition of which a line is too long is laid out anew
(tools/clauses.py); an import of many names becomes several of the same module, since the kit's
formatter would give each name a line; a comment flows on at words. Then the formatter lays out the
file. The kit reads the file before and after: where it finds another token, the file stays as it
was. What has no long line stays as it is. A line that can't be broken is listed, but for a text
that is alone on its line.
"""
import json
import os
import re
import subprocess
import sys

from clauses import LIMIT, Word, broken
from crates import TOP, prover

IMPORT = re.compile(r"(\s*(?:pub |unfoldable )*(?:ghost )?use [^{]*\{)(.*)(\};?)$")
COMMENT = re.compile(r"(\s*(?://[/!]?|--))( |$)(.*)$")
# A comment behind a definition, and a text that is alone on its line.
BEHIND = re.compile(r"(\s*)(?!--)(\S.*?)\s+-- (.*)$")
ALONE = re.compile(r'\s*b?"(?:[^"\\]|\\.)*"[,;)]*$')
# A line that none goes on with: it begins a block, has nothing, or is a comment.
ENDS = re.compile(r"(^|\s)(where|do)$|^\s*(--|$)")
# What a list's item begins with; and what begins a line of comment that no line before flows into.
MARK = re.compile(r" *(?:[-*+] +|\d+[.)] +)?")
OWN_LINE = re.compile(r"([-*+>] |\d+[.)] |#|\||```| |$)")
# The folders of a crate that are looked into, and what their files end in.
PARTS, PROOFS = {"src": ".rt", "specs": ".antt"}, {"proofs": ".antt"}
# After so many rounds nothing has been found to change.
ROUNDS = 6


def sources(top, parts=PARTS):
    """The files that this is about."""
    found = []
    for crate in sorted(os.listdir(f"{top}/crates")):
        for part, ending in parts.items():
            for at, _, files in os.walk(f"{top}/crates/{crate}/{part}"):
                found += [f"{at}/{it}" for it in files if it.endswith(ending)]
    return sorted(found)


def read(path):
    """A file's text."""
    with open(path, encoding="utf-8") as file:
        return file.read()


def write(path, text):
    """Writes a file."""
    with open(path, "w", encoding="utf-8") as file:
        file.write(text)


def kit_says(words, paths):
    """What the kit's formatter prints of files."""
    ran = subprocess.run([prover(), "fmt", *words, *paths], stdin=subprocess.DEVNULL,
                         capture_output=True, text=True)
    if ran.returncode != 0:
        sys.exit(f"wrap: the kit can't read what it was given: {(ran.stdout + ran.stderr)[-400:]}")
    return ran.stdout


def batches(paths):
    """As many files at a time as a command takes."""
    return [paths[at:at + 200] for at in range(0, len(paths), 200)]


def tokens_of(paths):
    """The tokens of each file as the kit reads them: line, first byte and the one behind the last,
    kind, text."""
    found = {}
    for some in batches(paths):
        for line in kit_says(["--tokens"], some).splitlines():
            if line.startswith("file "):
                own = found[some[int(line.split()[1])]] = []
                continue
            number, first, end, kind, text = line.split(" ", 4)
            own.append((int(number), int(first), int(end), kind, json.loads(text)))
    return found


def formatted(paths):
    """Lays the files out as the kit does."""
    for some in batches(paths):
        kit_says(["--write"], some)


def meaning(tokens):
    """The tokens, but for what the formatter puts at a list's end or start, with the words of what
    a macro may read of comments, and with imports apart."""
    texts, said = [(kind, text) for *_, kind, text in tokens], []
    for at, (kind, text) in enumerate(texts):
        after = texts[at + 1][1] if at + 1 < len(texts) else ""
        if text in (",", ";") and after in ("}", ")") or text == "|" and texts[at - 1][1] == "[":
            continue
        is_doc = kind == "Literal" and text.startswith(("///", "//!"))
        said += [("doc", word) for word in text[3:].split()] if is_doc else [(kind, text)]
    return imports_apart(said)


def imports_apart(said):
    """The tokens with each import's names apart, so that one of two names and two of one are the
    same."""
    result, at = [], 0
    while at < len(said):
        end = next((it for it in range(at, min(at + 4, len(said))) if said[it][1] == "{"), at)
        if said[at][1] != "use" or end == at:
            result.append(said[at])
            at += 1
            continue
        close = next(it for it in range(end, len(said)) if said[it][1] == "}")
        head, names = said[at:end], " ".join(text for _, text in said[end + 1:close])
        while result and result[-1][1] in ("ghost", "pub", "unfoldable"):
            head.insert(0, result.pop())
        result += [("import", str(head), name.strip()) for name in names.split(",")]
        at = close + 1 + (said[close + 1:close + 2] == [("Code", ";")])
    return result


def words_of_comments(text):
    """The words of a file's comments."""
    found = [COMMENT.match(line) or BEHIND.match(line) for line in text.split("\n")]
    return [word for it in found if it for word in it[3].split()]


def is_long(line):
    """Whether a line is over the limit."""
    return len(line) > LIMIT


def before_their_lines(lines):
    """The lines with each comment behind a definition before it, where the line is too long."""
    result = []
    for line in lines:
        match = BEHIND.match(line) if is_long(line) else None
        result += [f"{match[1]}-- {match[3]}", match[1] + match[2]] if match else [line]
    return result


def imports(lines):
    """The lines with imports of many names as several."""
    result = []
    for line in lines:
        match = IMPORT.match(line) if is_long(line) else None
        if not match:
            result.append(line)
            continue
        own = []
        for name in match[2].split(", "):
            if own and len(match[1] + ", ".join([*own, name]) + match[3]) > LIMIT:
                result.append(match[1] + ", ".join(own) + match[3])
                own = []
            own.append(name)
        result.append(match[1] + ", ".join(own) + match[3])
    return result


def flowed(prefix, hang, words):
    """Words as lines of comment, all but the first set in. What would begin a line as a list's item
    does stays behind the word before it."""
    chunks = []
    for word in words:
        if chunks and OWN_LINE.match(f"{word} "):
            chunks[-1] += f" {word}"
        else:
            chunks.append(word)
    lines = [f"{prefix} {chunks[0]}"]
    for chunk in chunks[1:]:
        if is_long(f"{lines[-1]} {chunk}"):
            lines.append(f"{prefix} {hang}{chunk}")
        else:
            lines[-1] += f" {chunk}"
    return lines


def comments(lines):
    """The lines with comments that flow on: a paragraph is laid out from its long line on."""
    result, at, is_fenced = [], 0, False
    while at < len(lines):
        match = COMMENT.match(lines[at])
        is_fenced ^= bool(match and match[3].startswith("```"))
        at += 1
        if not match or not is_long(lines[at - 1]) or is_fenced or match[3].startswith(("|", "#")):
            result.append(lines[at - 1])
            continue
        mark = MARK.match(match[3])[0]
        hang, words = " " * len(mark), match[3][len(mark):].split()
        while at < len(lines):
            more = COMMENT.match(lines[at])
            goes_on = more and more[1] == match[1] and more[3].startswith(hang)
            if not goes_on or OWN_LINE.match(more[3][len(hang):]):
                break
            words += more[3].split()
            at += 1
        result += flowed(match[1], hang, [mark + words[0], *words[1:]])
    return result


def words_between(data, tokens):
    """Tokens as words: what ⟦ ⟧ hold is one."""
    words, is_code = [], False
    for before, (line, first, end, _, _) in zip([None, *tokens], tokens):
        text = data[first:end].decode()
        blank = before is not None and first > before[2]
        if blank and line != before[0]:
            last = data[before[1]:before[2]]
            blank = last not in (b"(", b"[") and text not in (")", ",", ";", "]")
        is_part = text.startswith(".") and text != "." and words and words[-1].text.endswith("⟧")
        if words and (is_code or is_part):
            words[-1].text += " " * blank + text
        else:
            words.append(Word(text, blank))
        is_code = text == "⟦" or is_code and text != "⟧"
    return words


def has_comment(data, tokens):
    """Whether anything but blanks stands between tokens."""
    return any(data[a[2]:b[1]].strip() for a, b in zip(tokens, tokens[1:]))


def laid(data, tokens, column, indent, tail):
    """The tokens as text with breaks."""
    words = words_between(data, tokens)
    breaks, text = broken(words, column, indent, tail), ""
    for at, word in enumerate(words):
        text += ("\n" + " " * indent if at in breaks else " " * (word.blank and at > 0)) + word.text
    return text.encode()


def depth(line):
    """The columns before a line's first word."""
    return len(line) - len(line.lstrip())


def regions(tokens):
    """The bodies of clauses and of ghost items: the places in the list of the bracket that opens
    each, and of the one that closes it."""
    opened = None
    for at, (*_, kind, text) in enumerate(tokens):
        if kind == "Head" and text == "{":
            opened = at
        elif kind == "End" and opened is not None:
            yield opened, at
            opened = None


def clauses(data, tokens):
    """The changes of a `.rt` file: first byte, the one behind the last, the new text."""
    lines = data.decode().split("\n")
    for opened, closed in regions(tokens):
        line, own = tokens[opened][0], tokens[opened:closed + 1]
        is_one = len(own) > 2 and not has_comment(data, own)
        if not is_one or not any(is_long(it) for it in lines[line - 1:own[-1][0]]):
            continue
        start = data.rfind(b"\n", 0, own[0][1]) + 1
        column = len(data[start:own[0][2]].decode()) + 1
        behind = len(data[own[-1][1]:].split(b"\n", 1)[0].decode())
        text = laid(data, own[1:-1], column, depth(lines[line - 1]) + 4, behind + 1)
        yield own[0][2], own[-1][1], b" " + text + b" "


def units(lines):
    """The lines of a `.antt` file that belong together: a line, and those behind it that go on with
    it, which are set in by four more. What begins a block ends them, and nothing goes on with a
    blank line or a comment."""
    at = 0
    while at < len(lines):
        end, goes_on = at + 1, re.compile(" " * (depth(lines[at]) + 4) + "(?! |--)")
        while end < len(lines) and goes_on.match(lines[end]) and not ENDS.search(lines[end - 1]):
            end += 1
        yield at, end
        at = end


def definitions(data, tokens):
    """The changes of a `.antt` file."""
    lines, by_line = data.decode().split("\n"), {}
    for token in tokens:
        by_line.setdefault(token[0], []).append(token)
    for first, end in units(lines):
        own = [token for line in range(first + 1, end + 1) for token in by_line.get(line, [])]
        has_long = any(is_long(it) for it in lines[first:end]) and not IMPORT.match(lines[first])
        if not own or not has_long or has_comment(data, own):
            continue
        column, behind = depth(lines[first]), data[own[-1][2]:].split(b"\n", 1)[0]
        if own[0][0] != first + 1 or behind.strip():
            continue
        case = own[0][4] == "|"
        text = laid(data, own[case:], column + 2 * case, column + 4, 0)
        yield own[case][1], own[-1][2], text


def once(path, text, tokens):
    """A file's text with its long lines broken, before the formatter lays it out."""
    data, is_antt = text.encode(), path.endswith(".antt")
    changes = (definitions if is_antt else clauses)(data, tokens)
    for first, end, new in sorted(changes, reverse=True):
        data = data[:first] + new + data[end:]
    lines = data.decode().split("\n")
    return "\n".join(imports(comments(before_their_lines(lines) if is_antt else lines)))


def wrap(paths):
    """Wraps files; those that stay as they were, since the kit reads them otherwise."""
    old = {path: read(path) for path in paths}
    paths = [path for path in paths if any(is_long(line) for line in old[path].split("\n"))]
    before = tokens_of(paths)
    todo, tokens = paths, before
    for _ in range(ROUNDS):
        new = {path: once(path, read(path), tokens[path]) for path in todo}
        todo = [path for path in todo if new[path] != read(path)]
        for path in todo:
            write(path, new[path])
        formatted(todo)
        tokens = tokens_of(todo)
    after = tokens_of(paths)
    kept = [path for path in paths if meaning(before[path]) != meaning(after[path])
            or words_of_comments(old[path]) != words_of_comments(read(path))]
    for path in kept:
        write(path, old[path])
    return kept


def too_long(paths):
    """The lines over the limit, but for a text that is alone on its line: path, line, columns."""
    for path in paths:
        for at, line in enumerate(read(path).split("\n")):
            if is_long(line) and not ALONE.match(line):
                yield path, at + 1, len(line)


def main(words):
    folders = [it for it in words if not it.startswith("--")]
    top = os.path.abspath(folders[0]) if folders else TOP
    paths = sources(top, PROOFS if "--proofs" in words else PARTS)
    for path in [] if "--check" in words else wrap(paths):
        print(f"{os.path.relpath(path, top)}: left, since the kit reads it otherwise when wrapped")
    found = list(too_long(paths))
    for path, line, columns in found:
        print(f"{os.path.relpath(path, top)}:{line}: {columns} columns")
    print(f"wrap: {len(found)} lines over {LIMIT} columns")
    return 1 if found and "--check" in words else 0


if __name__ == "__main__":
    sys.exit(main(sys.argv[1:]))
