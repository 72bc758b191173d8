#!/usr/bin/env python3
"""Tries wrong bodies and wrong definitions, each of which the prover must refuse: `tools/wrong.py --gate` tries those
that wrong/gate names, `--all` those of all crates, `CRATE..` those of these crates, `--stale` those of crates that docs/STRENGTH.md doesn't tell of as they are now,
`--itself` the tester. With `--table` the rows of these crates in docs/STRENGTH.md are written anew, each as soon as it is known.

wrong/CRATE/NAME.edit changes places of a crate's source: lines 'file: ', 'old: ' (a text that is there once, on a line
or on several) and 'new: '. Each text is on one line of the edit, where a blank stands for any blanks and line breaks;
comments begin with '#', and all else is refused. The edits of a crate that change different functions are applied
together, and these functions alone are checked; an edit is refused only where the prover refuses the function that it
changed. What can't be told apart so is tried alone. An edit of a definition is in no function: a line 'law: ' names the
function of the crate whose contract it breaks, and that one must refuse it; without such a line the crate's laws are
checked, and where they don't refuse it all of the crate. What isn't refused, can't be read or applied or doesn't reach
the prover is told at the end, and makes the exit status 1. The libraries below are those that the gate has made; what
isn't there is proved first.
"""
import concurrent.futures
import dataclasses
import datetime
import hashlib
import os
import re
import subprocess
import sys
import tempfile
import threading
import time

from crates import TOP, copy_sources, lanes, listed, prover, words_of, work_of
from libraries import made_for

LIMITS = re.compile(r"antt ran out of (stack|the (steps|memory))|(outgrew the memory limit|stopped at the step limit) \(")
# A proof that names what an edit took away: such a refusal says little of the contract.
BY_NAME = re.compile(r"(note: )?(\./)?proofs/.*(has no field|is not in scope|has no `|was not admitted)")
# The reason that is told of a function which is fine by itself.
CALLEE = "no proof: it calls "
FUNCTION = re.compile(r"^(\s*)(?:pub(?:\([^)]*\))? )?(?:final )?(?:const )?(?:unsafe )?(?:extern \"C\" )?fn (\w+)")


@dataclasses.dataclass
class Edit:
    """An edit: its path, the texts that it makes of files, the functions that it changes, whether it changes more than those, and the
    function whose contract it breaks, where that is another and it is told."""

    path: str
    texts: dict
    functions: set
    beyond: bool
    law: str

    def name(self):
        """The edit's crate and name."""
        return "/".join(self.path.removesuffix(".edit").split("/")[-2:])


@dataclasses.dataclass
class Answer:
    """What an edit came to: whether it is refused, and what to say."""

    refused: bool
    said: str
    seconds: float = 0.0


class Bad(Exception):
    """An edit that can't be applied."""


def pairs_of(path):
    """The changes of an edit: file, old text and new one."""
    file, old = None, None
    with open(path, encoding="utf-8") as text:
        for line in text.read().split("\n"):
            if line.startswith("file: "):
                file = line.removeprefix("file: ").strip()
            elif line.startswith("old: "):
                old = line.removeprefix("old: ")
            elif line.startswith("new:"):
                if file is None or old is None:
                    raise Bad("a 'new:' line stands before any 'file:' or 'old:' line")
                yield file, old, line.removeprefix("new:").removeprefix(" ")
                old = None
            elif line.strip() and not line.startswith(("#", "law: ")):
                raise Bad(f"a line is no 'file:', 'old:', 'new:' or 'law:' line: {line.strip()}")


def law_of(path):
    """The function that an edit names as the one whose contract it breaks, or nothing."""
    with open(path, encoding="utf-8") as text:
        named = [line.removeprefix("law: ").strip() for line in text if line.startswith("law: ")]
    if len(named) > 1:
        raise Bad("it names more than one law")
    law = "".join(named)
    file = f"{TOP}/crates/{path.split('/')[-2]}/src/{law.rpartition('::')[0].replace('::', '/') or 'lib'}.rt"
    if law and not (os.path.isfile(file) and any(name == law for _, _, name in functions_in(file))):
        raise Bad(f"the crate has no function {law}")
    return law


def places_of(text, old):
    """Where a text stands in a file's, as pairs of first and behind the last. A blank within it is
    any blanks and line breaks, since a clause may be on several lines; before a bracket that closes
    one it is also what the formatter then puts there."""
    ahead, inner = re.match(r"(\s*)(.*)", old).groups()
    words = re.split(r"\s+", inner)
    looked = re.escape(ahead) + re.escape(words[0])
    for word in words[1:]:
        looked += (r"[,;]?\s+" if word[:1] in ("}", ")") else r"\s+") + re.escape(word)
    return [it.span() for it in re.finditer(looked, text)]


def replaced(text, place, new):
    """The text with another in a place of it."""
    return text[:place[0]] + new + text[place[1]:]


def without_generics(text):
    """The text without what stands in angle brackets."""
    before = None
    while before != text:
        before, text = text, re.sub(r"(?<!-)<[^<>]*(?<!-)>", "", text)
    return text


def block_of(header):
    """The name that the prover gives the functions of an `impl` or a trait: its type, and its trait behind it."""
    plain = re.sub(r"\bwhere\b.*", "", without_generics(header)).strip(" {")
    words = plain.split()
    if "trait" in words:
        return words[words.index("trait") + 1].strip(":")
    last = lambda it: re.sub(r"[^\w]", "", it.split("::")[-1])
    if "for" in words:
        trait = last(words[words.index("for") - 1])
        given = re.search(rf"\b{trait}<([^>]*)>\s+for\b", header)
        of_trait = "".join(last(it.split("<")[0]) for it in given[1].split(",")) if given else ""
        return last(words[words.index("for") + 1].lstrip("&")) + trait + of_trait
    return last(words[-1])


def functions_of(path, text):
    """Each function of a source file by its lines: (first, last, name as the prover has it)."""
    module = re.sub(r"^src/|(/mod)?\.rt$", "", path).replace("/", "::")
    module = "" if module in ("lib", "main") else module
    lines, found, block, header = text.split("\n"), [], "", None
    for at, line in enumerate(lines):
        if re.match(r"(unsafe )?impl\b|(pub(\([^)]*\))? )?(unsafe )?trait\b", line):
            header = ""
        if header is not None:
            header += " " + line
            if line.endswith("{"):
                block, header = block_of(header), None
            elif line.endswith(("}", ";")):
                header = None
        elif line == "}":
            block = ""
        match = FUNCTION.match(line)
        if match:
            ends = (f"{match[1]}}}",)
            end = next((it for it in range(at, len(lines)) if lines[it] in ends or (it == at and line.endswith(("}", ";")))), at)
            # A function of a trait that has no body ends in a semicolon.
            open_at = next((it for it in range(at, len(lines)) if lines[it] == f"{match[1]}{{" or lines[it].endswith(" {")), end)
            semicolon = next((it for it in range(at, len(lines)) if lines[it].endswith(";")), end)
            end = min(end, semicolon) if semicolon < open_at else end
            found.append((at, end, "::".join(it for it in (module, block, match[2]) if it)))
    return found


def functions_in(file):
    """The functions of a source file of a crate, by its path."""
    with open(file, encoding="utf-8") as text:
        return functions_of(re.sub(r"^.*?/crates/\w+/", "", file), text.read())


def read_edit(path):
    """Reads and applies an edit."""
    crate = path.split("/")[-2]
    texts, functions, beyond = {}, set(), False
    for file, old, new in pairs_of(path):
        whole = f"{TOP}/crates/{crate}/{file}"
        if not re.match(r"(src|specs|proofs)/", file) or not os.path.isfile(whole):
            raise Bad(f"there is no file {file}")
        if file not in texts:
            with open(whole, encoding="utf-8") as it:
                texts[file] = it.read()
        places = places_of(texts[file], old)
        if len(places) != 1:
            raise Bad(f"an 'old:' text is in {file} {len(places)} times, and not once")
        if old.split() == new.split():
            raise Bad("a 'new:' text is its 'old:' text, so that nothing is wrong")
        line = texts[file][:places[0][0]].count("\n")
        inside = [name for first, last, name in functions_of(file, texts[file]) if file.startswith("src/") and first <= line <= last]
        functions |= set(inside[-1:])
        beyond |= not inside
        texts[file] = replaced(texts[file], places[0], new)
    if not texts:
        raise Bad("it has no 'old:' and 'new:' pair")
    law = law_of(path)
    if law and not beyond:
        raise Bad("it names a law, and changes functions alone")
    return Edit(path, texts, functions, beyond, law)


def fits(edit, group):
    """Whether an edit can be tried together with those of a group: it changes other functions, and the text of each is there once when
    the ones before have made theirs."""
    if edit.beyond or any(it.beyond or not it.functions.isdisjoint(edit.functions) for it in group):
        return False
    return merged([*group, edit]) is not None


def grouped(edits):
    """Puts edits that change different functions into as few groups as can be; each that changes more than functions is alone."""
    groups = []
    for edit in edits:
        place = next((it for it in groups if fits(edit, it)), None)
        if place is None:
            groups.append([edit])
        else:
            place.append(edit)
    return groups


def merged(edits):
    """The texts of all edits of a group: each edit's changes are made in what the ones before left."""
    texts = {}
    for edit in edits:
        for file, old, new in pairs_of(edit.path):
            if file not in texts:
                with open(f"{TOP}/crates/{edit.path.split('/')[-2]}/{file}", encoding="utf-8") as it:
                    texts[file] = it.read()
            places = places_of(texts[file], old)
            if len(places) != 1:
                return None
            texts[file] = replaced(texts[file], places[0], new)
    return texts


# The names by which the prover knows functions, where these aren't the ones that their places give: the name of a method of some instances
# of a type has these in it, as in `step::Assoc+ReleaseAsked::may_send`.
KNOWN = {}


def is_own(name, function):
    """Whether what the prover names is this function, or in it. A method has the module of its type there, and not that of its `impl`."""
    plain, parts = re.sub(r"\+\w+", "", name), function.split("::")
    is_method = len(parts) > 2 and parts[-2][:1].isupper()
    tail = "::".join(parts[-2:])
    return plain == function or plain.startswith(f"{function}::") or is_method and f"::{tail}::" in f"::{plain}::"


def learn(function, crate, said):
    """Learns from the prover's refusal of a name by which names it knows the function; whether it told something new."""
    end = function.split("::")[-1]
    if f"no function `{function}`" in said and (crate, function) not in KNOWN:
        KNOWN[crate, function] = [end]
        return True
    several = re.search(rf"several functions are named `{end}`: help: write one of (.*)", said)
    if several and KNOWN.get((crate, function)) == [end]:
        names = [it.removeprefix(f"{crate}::") for it in re.findall(r"`([^`]+)`", several[1])]
        KNOWN[crate, function] = [it for it in names if is_own(it, function)] or [function.split("::")[0]]
        return True
    return False


def check(crate, texts, functions, kept):
    """Checks the crate with these texts in place of its own, whole or these functions of it; the status and the lines that it said."""
    with tempfile.TemporaryDirectory(prefix="wrong-") as room:
        copy_sources(crate, room)
        for path, text in texts.items():
            with open(f"{room}/{path}", "w", encoding="utf-8") as file:
                file.write(text)
        while True:
            asked = [name for function in sorted(functions) for name in KNOWN.get((crate, function), [function])]
            only = [word for name in asked for word in ("--only", name)]
            ran = subprocess.run([prover(), "check", *words_of(crate), "--incremental", kept, *only], cwd=room,
                                 stdin=subprocess.DEVNULL, stdout=subprocess.PIPE, stderr=subprocess.STDOUT, text=True, errors="replace")
            if ran.returncode != 2 or not any([learn(it, crate, ran.stdout) for it in functions]):
                return ran.returncode, ran.stdout.rstrip("\n").split("\n")


def is_unread(line, texts):
    """Whether the prover couldn't read a text of the crate, where an edit that only makes a statement false reads well."""
    at = re.match(r"(?:\./)?(\S+?):\d+:\d+: error: (?:(`[^`]*`): )?(.*)", line)
    if not at or (at[1] not in texts and not at[1].startswith(("src/", "specs/"))):
        return False
    said = re.sub(r"`[^`]*`", "", at[3])
    words = r"is not in scope|has no field|is no name|operand is missing|expected the end|cannot continue"
    return not at[2] or bool(re.search(words, said))


def is_judged(status, lines):
    """Whether the prover came to a judgment of what was asked."""
    return status in (0, 1, 3) and bool(re.match(r"only=\d+ proved=\d+|logic=", lines[-1]))


def refused_among(lines, crate):
    """The functions that weren't proved, by what the prover said of each."""
    found = {}
    for line in lines:
        match = re.match(rf"fn {crate}::(\S+): (?!proved$|no holes$)(.*)", line)
        if match:
            found[match[1]] = match[2]
    return found


def said_of(name, crate, lines):
    """What the prover said of a function: the lines between its own and that of the function before it, and of its own proof files."""
    at = next((it for it, line in enumerate(lines) if line.startswith(f"fn {crate}::{name}: ")), 0)
    before = next((it for it in range(at - 1, -1, -1) if lines[it].startswith("fn ")), -1)
    return lines[before + 1:at] + [it for it in lines if it.startswith(f"./proofs/{name.replace('::', '/')}/")]


def reason(lines):
    """The first thing that was said against a statement, or else the first against a proof's names."""
    told = [it for it in lines if re.match(r"(note: )?(\./)?(src|specs|proofs)/\S+:\d+:\d+:", it)]
    first = next((it for it in told if not BY_NAME.match(it)), None)
    return first[:160] if first else f"only because a proof names what the edit took away: {told[0][:120]}" if told else ""


def judge(edit, status, lines, crate):
    """What a check came to for an edit of functions."""
    refused = refused_among(lines, crate)
    # What isn't proved for what it calls alone says nothing of the edit: another one may have changed that.
    own = {
        name: why for name, why in refused.items()
        if any(is_own(name, it) for it in edit.functions) and not why.startswith(CALLEE)
    }
    if own:
        name, why = next(iter(own.items()))
        by_limit = "by a limit of the prover, " if status == 3 and any(LIMITS.search(it) for it in lines) else ""
        return Answer(True, f"{by_limit}{name}: {reason(said_of(name, crate, lines)) or why[:120]}")
    if refused:
        return Answer(False, f"its own function is still proved, and {next(iter(refused))} isn't")
    return Answer(False, "the function is still proved (an edit that means the same as before can't be refused: remove it)")


def try_definition(edit, crate, kept):
    """Tries an edit of a definition, of a type or of a proof: by the law that it names, or else by all laws of the crate, and then by
    all of the crate."""
    laws = {"laws"} if any(os.path.exists(f"{TOP}/crates/{crate}/src/laws{it}") for it in (".rt", "")) else set()
    for functions in [{edit.law}] if edit.law else [laws] * bool(laws) + [set()]:
        status, lines = check(crate, edit.texts, functions, kept)
        bad = next((it for it in lines if is_unread(it, edit.texts)), None)
        if bad and status == 1:
            return Answer(False, f"the prover can't read the edited text, so no contract was tried: {bad[:160]}")
        if not is_judged(status, lines):
            return Answer(False, f"it didn't reach the prover: {' / '.join(lines[:3])[:300]}")
        refused = refused_among(lines, crate)
        if refused or status == 1:
            return Answer(True, f"{next(iter(refused), 'the crate')}: {reason(lines)}")
    return Answer(False, f"{edit.law} is still proved: name the law that it breaks" if edit.law else "the crate is still proved")


def try_alone(edit, crate, kept):
    """Tries one edit alone."""
    if edit.beyond or not edit.functions:
        return try_definition(edit, crate, kept)
    status, lines = check(crate, edit.texts, edit.functions, kept)
    bad = next((it for it in lines if is_unread(it, edit.texts)), None)
    if bad and status == 1:
        return Answer(False, f"the prover can't read the edited text, so no contract was tried: {bad[:160]}")
    if not is_judged(status, lines):
        return Answer(False, f"it didn't reach the prover: {' / '.join(lines[:3])[:300]}")
    return judge(edit, status, lines, crate)


def try_group(edits, crate, kept):
    """Tries edits that change different functions, together where that tells them apart; an answer for each."""
    texts = merged(edits) if len(edits) > 1 else None
    answers = {}
    if texts is not None:
        status, lines = check(crate, texts, set().union(*(it.functions for it in edits)), kept)
        if is_judged(status, lines) and not any(is_unread(it, texts) for it in lines):
            answers = {it.path: judge(it, status, lines, crate) for it in edits}
    return {it.path: answers[it.path] if it.path in answers and answers[it.path].refused else try_alone(it, crate, kept) for it in edits}


def try_crate(crate, paths):
    """Tries a crate's edits; the edits by name with what each came to."""
    results, edits = {}, []
    for path in paths:
        try:
            edits.append(read_edit(path))
        except (Bad, OSError, UnicodeDecodeError) as error:
            results[path] = Answer(False, f"it can't be applied: {error}")
    with tempfile.TemporaryDirectory(prefix="wrong-kept-") as kept:
        for group in grouped(edits):
            began = time.monotonic()
            answers = try_group(group, crate, kept)
            for path, answer in answers.items():
                answer.seconds = (time.monotonic() - began) / len(group)
                results[path] = answer
                word = "refused" if answer.refused else "NOT REFUSED"
                print(f"wrong {crate}/{os.path.basename(path)}: {word}: {answer.said}", flush=True)
    return results


def chosen(words):
    """The edits that the words ask for, crate by crate."""
    every = sorted(f"{at}/{it}" for at, _, files in os.walk(f"{TOP}/wrong") for it in files if it.endswith(".edit"))
    if words == ["--gate"]:
        with open(f"{TOP}/wrong/gate", encoding="utf-8") as file:
            names = [line.split()[0] for line in file if line.strip() and not line.startswith("#")]
        every = [f"{TOP}/wrong/{name}.edit" for name in names]
    elif words == ["--stale"]:
        rows = rows_told()
        every = [it for it in every if rows.get(it.split("/")[-2], [""])[-1] != files_of(it.split("/")[-2])]
    elif words != ["--all"]:
        unknown = [it for it in words if not os.path.isdir(f"{TOP}/wrong/{it}")]
        if unknown or not words:
            sys.exit(f"wrong: give --gate, --all or names of crates that wrong/ has{': not ' + unknown[0] if unknown else ''}")
        every = [it for it in every if it.split("/")[-2] in words]
    found = {}
    for path in every:
        found.setdefault(path.split("/")[-2], []).append(path)
    return found


def try_all(edits, tell=lambda crate, results: None):
    """Tries the edits of these crates, side by side; what each came to. Each crate's results are told as soon as they are known."""
    unknown = [it for it in edits if it not in listed()]
    results = {path: Answer(False, "crates.txt has no such crate") for it in unknown for path in edits[it]}
    crates = sorted((it for it in edits if it not in unknown), key=lambda it: -work_of(it) * (2 + len(edits[it])))
    with tempfile.TemporaryFile("w+", encoding="utf-8") as log:
        if not made_for(crates, log):
            sys.exit("wrong: a library isn't proved, so nothing was tried")
    with concurrent.futures.ThreadPoolExecutor(lanes()) as pool:
        def one(crate):
            found = try_crate(crate, edits[crate])
            tell(crate, [found[it] for it in edits[crate]])
            return found
        for found in pool.map(one, crates):
            results.update(found)
    return results


def try_itself():
    """Whether the tester sees what it must: an edit that means the same, one that breaks another function than its own, one that doesn't
    compile, one that can't be applied, two that can't be read (a text on two lines, a text that stays), and one that is refused; and one
    that calls what that one changes, tried together with it. Of a definition one that the law refuses that it names, and one that
    another law refuses; one that names no law that is there; and a body's edit that names one."""
    paths = sorted(f"{TOP}/tests/tester/dr_base/{it}" for it in os.listdir(f"{TOP}/tests/tester/dr_base"))
    results = try_all({"dr_base": paths})
    together = [it for it in paths if it.endswith(("/proved_for_it_calls_a_refused_one.edit", "/refused_tab_is_padding.edit"))]
    results |= try_all({"dr_base": together})
    wanted = {path: os.path.basename(path).startswith("refused_") for path in paths}
    wrong = [it for it in paths if results[it].refused != wanted[it]]
    for path in wrong:
        print(f"wrong: the tester says of {os.path.basename(path)}: {results[path].said}")
    return not wrong


PAGE = f"{TOP}/docs/STRENGTH.md"
ROW = re.compile(r"\| `(\w+)` \| (\d+) \| (\d+) \| (\d+) \| ([0-9-]+) \| `(\w+)` \|")
WRITING = threading.Lock()


def files_of(crate):
    """The digest of a crate's own files and of its edits."""
    digest = hashlib.sha256()
    for top in (f"{TOP}/crates/{crate}", f"{TOP}/wrong/{crate}"):
        for folder, inner, names in os.walk(top):
            # What is made from them differs from clone to clone.
            inner[:] = sorted(it for it in inner if it != "out")
            for name in sorted(names):
                path = os.path.join(folder, name)
                with open(path, "rb") as file:
                    digest.update(os.path.relpath(path, TOP).encode() + b"\0" + hashlib.sha256(file.read()).digest())
    return digest.hexdigest()[:12]


def rows_told():
    """What the page tells of each crate: how many edits were refused, how many tried, the seconds, the day, and the digest of the files."""
    try:
        with open(PAGE, encoding="utf-8") as file:
            return {row[1]: list(row.groups()[1:]) for row in map(ROW.match, file) if row}
    except FileNotFoundError:
        return {}


def tell_page(crate, results):
    """Writes a crate's row anew, and the sums."""
    refused = sum(it.refused for it in results)
    row = [str(refused), str(len(results)), f"{sum(it.seconds for it in results):.0f}", datetime.date.today().isoformat(), files_of(crate)]
    with WRITING:
        rows = rows_told() | {crate: row}
        with open(PAGE, encoding="utf-8") as file:
            text = file.read()
        lines = [f"| `{name}` | {' | '.join(its[:4])} | `{its[4]}` |" for name, its in sorted(rows.items())]
        sums = [sum(int(its[at]) for its in rows.values()) for at in range(3)]
        head = text.partition("| crate |")[0]
        table = ["| crate | refused | tried | seconds | day | files |", "|---|---|---|---|---|---|", *lines,
                 f"| all | {sums[0]} | {sums[1]} | {sums[2]} | | |"]
        with open(PAGE, "w", encoding="utf-8") as file:
            file.write(head + "\n".join(table) + "\n")


def main(words):
    began = time.monotonic()
    if words == ["--itself"]:
        return 0 if try_itself() else 1
    is_shown = "--table" in words
    edits = chosen([it for it in words if it != "--table"])
    results = try_all(edits, tell_page) if is_shown else try_all(edits)
    missed = {path: answer for path, answer in results.items() if not answer.refused}
    for path, answer in sorted(missed.items()):
        print(f"NOT REFUSED: {'/'.join(path.split('/')[-2:])}: {answer.said}")
    print(f"wrong bodies: {len(results) - len(missed)} refused, {len(missed)} not, in {(time.monotonic() - began) / 60:.0f} minutes")
    return 1 if missed else 0


if __name__ == "__main__":
    sys.exit(main(sys.argv[1:]))
