#!/usr/bin/env python3
"""Looks at the form of pages: `tools/prose.py [PAGE..]`, all pages where none is named.

No sentence has more than 30 words, and no line more than 120 columns. A text in code style is one word. Blocks of code,
tables and headings aren't looked at, and two things aren't counted: the bold words that begin an item, and references
in parentheses that are code alone. Each example of docs/PROVING.md, which is code with a file in parentheses behind it,
is in that file. README.md has at most 150 lines. What isn't so is printed, and the exit status is 1.
"""
import glob
import os
import re
import sys

from crates import TOP

MOST_WORDS = 30
MOST_COLUMNS = 120
MOST_LINES_OF_README = 150
PAGES = ["*.md", "docs/*.md", "bench/*.md", "tests/*.md"]
# A list's item, behind a quotation's mark or not, and what begins no line of a paragraph.
ITEM = re.compile(r"(?:[-*+]|\d+[.)])\s+(.*)")
NO_TEXT = re.compile(r"$|\||#")
CODE = re.compile(r"`[^`]*`")
REFERENCE = re.compile(r"\(CODE(?:(?:,|;| and| of) CODE)*\)")
LABEL = re.compile(r"\*\*.*?\*\*(?: CODE)*:?")
# An example with its file; what is shorter is a name.
EXAMPLE = re.compile(r"`([^`]+)`(?: of `[^`]+`)? \(`((?:dr_\w+|tests|tools|bench)/[\w./+-]+)`\)")
SHORTEST = 12
# A sentence ends before a capital, a digit or a text in code style.
END = re.compile(r"(?<=[.?!])[\"')*]*\s+(?=[\"'(*]*[A-Z0-9])")


def paragraphs(text):
    """The paragraphs and items of a page, each with the line that it begins in."""
    start, lines, is_code = 0, [], False
    for number, line in enumerate([*text.split("\n"), ""], 1):
        line = re.sub(r"^[> ]+", "", line).strip()
        is_fence, item = line.startswith("```"), ITEM.match(line)
        if is_code or is_fence or item or NO_TEXT.match(line):
            if lines:
                yield start, " ".join(lines)
            lines = []
        if is_fence:
            is_code = not is_code
        elif not is_code and not NO_TEXT.match(line):
            start = start if lines else number
            lines.append(item[1] if item else line)


def sentences(paragraph):
    """The sentences of a paragraph, without what isn't counted."""
    text = REFERENCE.sub("", CODE.sub("CODE", paragraph))
    return END.split(LABEL.sub("", text, 1) if LABEL.match(text) else text)


def long_lines(text):
    """The lines that have too many columns, each with its number."""
    is_code = False
    for number, line in enumerate(text.split("\n"), 1):
        is_code ^= line.lstrip().startswith("```")
        if len(line) > MOST_COLUMNS and not is_code and not line.lstrip().startswith("|"):
            yield number, f"{len(line)} columns"


def long_sentences(text):
    """The sentences that have too many words, each with the line of its paragraph."""
    for number, paragraph in paragraphs(text):
        for it in sentences(paragraph):
            count = sum(1 for word in it.split() if re.search(r"\w", word))
            if count > MOST_WORDS:
                yield number, f"{count} words: {it}"


def is_in(code, path):
    """Whether an example is in a file, blanks and line breaks aside; `..` in it is anything."""
    with open(path, encoding="utf-8") as file:
        text = "".join(file.read().split())
    return re.search(".*?".join(re.escape("".join(part.split())) for part in code.split("..")), text) is not None


def lost_examples(text):
    """The examples that aren't in the files that they name, each with the line of its paragraph."""
    for number, paragraph in paragraphs(text):
        for code, path in EXAMPLE.findall(paragraph):
            path = next((it for it in (f"{TOP}/crates/{path}", f"{TOP}/{path}") if os.path.exists(it)), path)
            if not os.path.exists(path):
                yield number, f"no file {path}"
            elif os.path.isfile(path) and " " in code and len(code) >= SHORTEST and not is_in(code, path):
                yield number, f"{os.path.relpath(path, TOP)} has no `{code}`"


def faults(pages):
    """What is too long in pages, and what is no example any more, a line each."""
    for page in pages:
        with open(f"{TOP}/{page}", encoding="utf-8") as file:
            text = file.read()
        found = [*long_lines(text), *long_sentences(text)]
        if page == "docs/PROVING.md":
            found += lost_examples(text)
        if page == "README.md" and text.count("\n") > MOST_LINES_OF_README:
            found.append((MOST_LINES_OF_README + 1, f"over {MOST_LINES_OF_README} lines"))
        yield from (f"{page}:{number}: {said}" for number, said in found)


def all_pages():
    """All pages, by their paths."""
    return sorted(os.path.relpath(it, TOP) for pattern in PAGES for it in glob.glob(f"{TOP}/{pattern}"))


def main(words):
    said = list(faults(words or all_pages()))
    print("\n".join(said), end="\n" * bool(said))
    print(f"prose: {len(said)} faults")
    return 1 if said else 0


if __name__ == "__main__":
    sys.exit(main(sys.argv[1:]))
