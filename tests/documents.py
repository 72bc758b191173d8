#!/usr/bin/env python3
"""Runs the commands that the documents show, and compares what they print.

    tests/documents.py            compares
    tests/documents.py --write    puts what is printed into the documents

In a document, a block ```toml NAME is written to the file NAME. In a block ```console each line that begins with '$ '
is a command; what follows, up to the next command, is what it prints: standard output, then standard error, then its
exit status in brackets where that isn't 0. Each document's commands run in one folder of its own, beside the folder
plans/. A command may end in '> FILE' or '< FILE'; 'dr_router' is the built program.
"""
import html
import os
import re
import subprocess
import sys
import tempfile

TOP = os.path.dirname(os.path.dirname(os.path.abspath(__file__)))
PROGRAM = f"{TOP}/crates/dr_router/out/dr_router"
DOCUMENTS = ["docs/PLANS.md", "docs/USAGE.md", "docs/NIGHT.md"]


def blocks_of(text):
    """Each fenced block: the words behind its fence, and where its text begins and ends."""
    for block in re.finditer(r"^```([^\n]*)\n(.*?)^```$", text, re.MULTILINE | re.DOTALL):
        yield block.group(1).split(), block.start(2), block.end(2)


def run(command, folder):
    """All that a command prints."""
    front, mark, target = command.partition(" > ")
    front, _, source = front.partition(" < ")
    words = front.split()
    if words[0] == "dr_router":
        words[0] = PROGRAM
    with open(f"{folder}/{source}" if source else os.devnull, "rb") as given:
        ended = subprocess.run(words, cwd=folder, stdin=given, stdout=subprocess.PIPE, stderr=subprocess.PIPE, timeout=60)
    output = ended.stdout.decode()
    if mark:
        with open(f"{folder}/{target}", "w") as it:
            it.write(output)
        output = ""
    status = f"(exit status {ended.returncode})\n" if ended.returncode else ""
    return output + ended.stderr.decode() + status


def played(block, folder):
    """The block with what its commands print."""
    commands = [line for line in block.split("\n") if line.startswith("$ ")]
    return "".join(f"{line}\n{run(line[2:], folder)}" for line in commands)


def play(path):
    """The document with what its commands print, and how many commands it has."""
    with open(f"{TOP}/{path}") as it:
        text = it.read()
    parts, done, count = [], 0, 0
    with tempfile.TemporaryDirectory(prefix="documents-") as folder:
        os.symlink(f"{TOP}/plans", f"{folder}/plans")
        for words, start, end in blocks_of(text):
            if words[:1] == ["toml"] and len(words) == 2:
                with open(f"{folder}/{words[1]}", "w") as it:
                    it.write(text[start:end])
            if words[:1] == ["console"]:
                printed = played(text[start:end], folder)
                count += printed.count("\n$ ") + printed.startswith("$ ")
                parts += [text[done:start], printed]
                done = end
    return text, "".join(parts) + text[done:], count


def compare_picture(name, text):
    """The picture of a sample plan has the nodes and the arrows of its graph, which a text shows."""
    graph = re.search(r"^digraph network {\n(.*?)^}$", text, re.MULTILINE | re.DOTALL).group(1)
    with open(f"{TOP}/docs/{name}.svg") as it:
        drawn = [html.unescape(title) for title in re.findall(r"<title>(.*?)</title>", it.read())]
    wanted = re.findall(r'^  "(\w+)" \[', graph, re.MULTILINE) + ["->".join(ends) for ends in re.findall(r'^  "(\w+)" -> "(\w+)"', graph, re.MULTILINE)]
    if sorted(drawn) != sorted(wanted + ["network"]):
        sys.exit(f"the picture of {name} has {drawn}, and the graph {wanted}")


def compare_hospital():
    """The picture of the hospital is of its plan."""
    with tempfile.TemporaryDirectory(prefix="documents-") as folder:
        os.symlink(f"{TOP}/plans", f"{folder}/plans")
        run("dr_router check plans/hospital.toml > certificate", folder)
        compare_picture("hospital", run("dr_router graph plans/hospital.toml certificate", folder))


def main():
    with open(f"{TOP}/docs/USAGE.md") as it:
        compare_picture("three-nodes", it.read())
    if subprocess.run([f"{TOP}/dr_router", "simulate", "--help"], stdout=subprocess.DEVNULL).returncode != 0:
        sys.exit("the program is not built")
    compare_hospital()
    total = 0
    for path in DOCUMENTS:
        text, new, count = play(path)
        total += count
        if text == new:
            continue
        if sys.argv[1:] == ["--write"]:
            with open(f"{TOP}/{path}", "w") as it:
                it.write(new)
            continue
        old_lines, new_lines = text.split("\n"), new.split("\n")
        at = next((n for n, pair in enumerate(zip(old_lines, new_lines)) if pair[0] != pair[1]), 0)
        sys.exit(f"{path}:{at + 1}: the document has\n  {old_lines[at]}\nand the program prints\n  {new_lines[at]}")
    print(f"documents: {total} commands print what the documents show")


if __name__ == "__main__":
    main()
