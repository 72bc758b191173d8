#!/usr/bin/env python3
"""Refuses each growth of memory in turn, one in each run of a built program, and looks for an answer that is another
one then.

    tests/by-hand/growths.py ledger [FIRST]     calls on a ledger in memory (tests/played/ledger)
    tests/by-hand/growths.py desk [FIRST]       two sessions on one shared desk (tests/played/workers)
    tests/by-hand/growths.py world [FIRST]      an instance on its way over three nodes in the simulator
                                                (tests/played/world)

A small library that is loaded before the program (LD_PRELOAD) counts its calls for memory and refuses the one whose
number it is told; the numbers go up, from the FIRST on, until a run meets no refusal. A run is as it is to be where it
ends by itself and has printed what a run without refusals prints, or the first lines of it and then, on standard error,
that it has no memory. One that hangs, dies, prints another line or ends so without having met a refusal is named, and
the status is 1. Of worlds a line may say that there is no memory, and the report at the end is to show the instance
kept at the archive or waiting on its way, or no arrival at all. It needs `cc`, and takes some twenty minutes, so it is
no part of ./test.
"""
import concurrent.futures
import os
import re
import shutil
import subprocess
import sys
import tempfile

sys.dont_write_bytecode = True
HERE = os.path.dirname(os.path.abspath(__file__))
sys.path.insert(0, f"{os.path.dirname(os.path.dirname(HERE))}/tools")
from crates import TOP, below, listed
from played import PLAYED, below as played_below, words_of

# The endings of sources, which the gate reads where they end so, and of what they are here.
ENDINGS = {"rattle": "rt", "proof": "antt"}

SHIM = r"""
#define _GNU_SOURCE
#include <dlfcn.h>
#include <stdatomic.h>
#include <stddef.h>
#include <errno.h>
#include <fcntl.h>
#include <stdlib.h>
#include <unistd.h>

static atomic_long calls;
static long refused = -1;

__attribute__((constructor)) static void told(void) {
    const char *number = getenv("REFUSED_GROWTH");
    calls = 0;
    refused = number ? atol(number) : -1;
}

/* the file tells that the run has met its refusal */
static int refuses(void) {
    if (refused < 0 || ++calls != refused) return 0;
    int note = open(getenv("REFUSAL_NOTE"), O_WRONLY | O_CREAT, 0600);
    if (note >= 0) close(note);
    errno = ENOMEM;
    return 1;
}

#define NEXT(name) static __typeof__(&name) next; if (!next) next = (__typeof__(&name))dlsym(RTLD_NEXT, #name)

void *malloc(size_t size) { NEXT(malloc); return refuses() ? NULL : next(size); }
void *realloc(void *old, size_t size) { NEXT(realloc); return refuses() ? NULL : next(old, size); }
void *aligned_alloc(size_t align, size_t size) { NEXT(aligned_alloc); return refuses() ? NULL : next(align, size); }
int posix_memalign(void **out, size_t align, size_t size) { NEXT(posix_memalign); return refuses() ? ENOMEM : next(out, align, size); }
"""

PLAYING = """//! Plays what tests/played plays.
#![tactic(auto)]

fn main(rt: HostRuntime) -> Result<(), anyhow::Error> {
    played_%s::play(&rt)
}
"""

SHARING = """//! Says whether the journal has as many lines as the passes count.
#![tactic(auto)]

use played_kinds::InMemory;
use played_workers::{Open, serve_archive};
use std::test::Fail;

fn main(rt: HostRuntime) -> Result<(), Fail> {
    let outcomes = serve_archive(&rt, rt.alloc(), &InMemory, 2, 2, &Open)?;
    let are_as_many = outcomes.lines == outcomes.sum;
    println!(rt; "as many lines as the passes count: {are_as_many}")?;
    Ok(())
}
"""

# What stands before the answer of a call that was made again, since a growth was refused (tests/played/rows).
MADE_AGAIN = "Memory, then "

# of each sweep: what of tests/played it stands on, and its `main`
MAINS = {"ledger": ("ledger", PLAYING % "ledger"), "desk": ("workers", SHARING), "world": ("world", PLAYING % "world")}


def put_crate(room, name, libraries):
    """What is played as a crate of a room, with what it takes to prove it."""
    folder = f"{PLAYED}/{name}"
    for at, _, files in os.walk(folder):
        to = f"{room}/crates/played_{name}{at[len(folder):]}"
        for file in files:
            stem, dot, ending = file.rpartition(".")
            if ending in ENDINGS:
                os.makedirs(to, exist_ok=True)
                shutil.copy(f"{at}/{file}", f"{to}/{stem}{dot}{ENDINGS[ending]}")
    with open(f"{room}/crates.txt", "a", encoding="utf-8") as it:
        print(f"played_{name}:", *libraries, file=it)


def put_program(room, what):
    """The program of a sweep, over copies of the crates below with what earlier checks left in their out/."""
    name, main = MAINS[what]
    used = {it: words_of(f"{PLAYED}/{it}/libraries") for it in played_below([name])}
    needed = dict.fromkeys(crate for uses in used.values() for it in uses if it in listed() for crate in (*below(it), it))
    for crate in needed:
        shutil.copytree(f"{TOP}/crates/{crate}", f"{room}/crates/{crate}")
    with open(f"{room}/crates.txt", "w", encoding="utf-8") as it:
        for crate in needed:
            own, of_kit = listed()[crate]
            print(f"{crate}:", *own, *of_kit, file=it)
        print(f"{what}_growths:", *(f"played_{at}" for at in used if f"played_{at}::" in main), "anyhow", file=it)
    for it, libraries in used.items():
        put_crate(room, it, libraries)
    shutil.copy(f"{TOP}/HANDLES", room)
    folder = f"{room}/crates/{what}_growths"
    os.makedirs(f"{folder}/src")
    with open(f"{folder}/src/main.rt", "w", encoding="utf-8") as it:
        it.write(main)
    return folder


def build(folder):
    """Proves and builds the program, and returns its path."""
    ran = subprocess.run(["rt", "run"], cwd=folder, stdin=subprocess.DEVNULL, stdout=subprocess.PIPE, stderr=subprocess.STDOUT, text=True)
    path = f"{folder}/out/{os.path.basename(folder)}"
    if not os.path.exists(path):
        sys.exit(f"{ran.stdout}\nnot built")
    return path


def ledger_rows():
    """The rows, but for the data set that is too large: its growth is met as any other is."""
    with open(f"{PLAYED}/ledger/stdin") as it:
        return "".join(line for line in it if not line.startswith("zeros "))


def world_rows():
    """The worlds that begin or don't, and the way of one instance."""
    with open(f"{PLAYED}/world/stdin") as it:
        return it.read().partition("# another data set")[0]


def is_safe(report):
    """Whether the instance that entered is kept at the archive, or waits on its way there; or none has come to any node."""
    nodes = {part.split("|")[0]: part for part in report.split("node ")[1:]}
    kept = "|kept 1.2.3.4 70|" in nodes["ARCH"]
    waits = "|row 1.2.3.4 ARCH waiting" in nodes["GATE"] or "|row 1.2.3.4 GATE waiting" in nodes["CT1"]
    return kept or waits or "|arrival" not in report


def is_right_of_worlds(whole, said):
    """Whether these lines may be printed of worlds: one that doesn't begin for want of memory says so, and whatever is refused later, nothing
    that came is lost."""
    for wanted, line in zip(whole.splitlines(), said.splitlines()):
        asked, _, answer = line.partition(": ")
        if asked.startswith("world") and line not in (wanted, f"{asked}: Memory"):
            return False
        if asked == "report" and not is_safe(answer):
            return False
    return len(said.splitlines()) <= len(whole.splitlines())


class Sweep:
    def __init__(self, room, program, text, is_right=str.startswith):
        self.room, self.program, self.text, self.is_right = room, program, text, is_right
        with open(f"{room}/shim.c", "w") as it:
            it.write(SHIM)
        subprocess.run(["cc", "-shared", "-fPIC", "-O1", "-o", f"{room}/shim.so", f"{room}/shim.c", "-ldl"], check=True)
        self.whole = self.run(0)[1]

    def run(self, number):
        """Whether the refusal was met, what was printed, and what is wrong with the run, if anything is."""
        note = f"{self.room}/note-{number}"
        environment = {**os.environ, "LD_PRELOAD": f"{self.room}/shim.so", "REFUSED_GROWTH": str(number), "REFUSAL_NOTE": note}
        try:
            ran = subprocess.run([self.program], input=self.text, env=environment, stdout=subprocess.PIPE, stderr=subprocess.PIPE, text=True, timeout=60)
        except subprocess.TimeoutExpired:
            return True, "", "it hangs"
        met = os.path.exists(note)
        if met:
            os.remove(note)
        elif MADE_AGAIN in ran.stdout:
            return met, ran.stdout, "a call was made again, though no growth was refused"
        ran.stdout = ran.stdout.replace(MADE_AGAIN, "")
        return met, ran.stdout, self.wrong(number, met, ran)

    def wrong(self, number, met, ran):
        if number == 0:
            return None if ran.returncode == 0 and not met else "it fails without a refusal"
        if ran.returncode < 0 or not (met or ran.returncode == 0):
            return f"it ends with {ran.returncode}"
        if not self.is_right(self.whole, ran.stdout):
            return "it prints something else"
        if ran.returncode == 0 or ran.stdout.endswith(": Memory\n"):
            return None if self.is_right is not str.startswith or ran.stdout == self.whole else "it prints too little"
        # where no world has begun for want of memory, there is none to play in
        return None if re.search("(?i)memory|alloc|no world", ran.stderr) else f"it ends without saying why: {ran.stderr.strip()[:200]}"


def main():
    if len(sys.argv) not in (2, 3) or sys.argv[1] not in ("ledger", "desk", "world"):
        sys.exit(__doc__)
    first = int(sys.argv[2]) if len(sys.argv) == 3 else 1
    with tempfile.TemporaryDirectory(prefix="growths-") as room:
        program = build(put_program(room, sys.argv[1]))
        if sys.argv[1] == "desk":
            sweep = Sweep(room, program, "")
        else:
            rows = {"ledger": ledger_rows, "world": world_rows}[sys.argv[1]]
            is_right = is_right_of_worlds if sys.argv[1] == "world" else str.startswith
            sweep = Sweep(room, program, rows(), is_right)
        number, found, ended = first, 0, 0
        with concurrent.futures.ThreadPoolExecutor(os.cpu_count()) as pool:
            while True:
                results = list(pool.map(sweep.run, range(number, number + 64)))
                for at, (met, said, wrong) in enumerate(results, number):
                    ended += met and said != sweep.whole
                    if wrong:
                        found += 1
                        print(f"growth {at}: {wrong}", flush=True)
                number += 64
                if not all(met for met, said, wrong in results):
                    break
        met = number - 64 + sum(met for met, said, wrong in results) - first
        print(f"{met} growths refused, each in a run of its own; {ended} runs ended early for want of memory; {found} wrong")
    sys.exit(1 if found else 0)


main()
