#!/usr/bin/env python3
"""Runs `rt ci`, and says what each crate cost: CPU seconds of its proof and of its tests, and of all processes
together.

The lines of `rt ci` go to standard output as they come, but for the last one, 'N passed, M failed', which stays the
last: the table comes before it. With --quiet only the lines that say how a crate or a program came out are shown, each
with the minutes since the start, how many crates are proved, and the minutes that are left, as far as the sizes of the
crates tell; the whole log is in the file that the first line names, and its end is shown where the run fails. The exit
status is that of `rt ci`. A crate's seconds are sampled from /proc, so a process that lives for less than the pause is
counted in the last line alone, with rt itself, compilers and linkers.

Kit 13b proves each crate from nothing, and its `rt ci` takes no names. With kit 13f names of crates are passed on (then
these and those below them are proved, which is not the gate), and what an earlier run on this machine passed isn't
proved again, and costs nothing.

`rt ci` guesses a check's memory at twice what it takes, and leaves processors idle: where RT_JOBS isn't set and at
least 3.5 GB are free for each processor, it is set to the number of processors, which asks no guess.
"""
import collections
import os
import re
import resource
import subprocess
import sys
import tempfile
import threading
import time

PAUSE = 0.5
TICKS = os.sysconf("SC_CLK_TCK")


def children_of(root):
    """The process and all below it, by their numbers."""
    parents = {}
    for name in os.listdir("/proc"):
        if name.isdigit():
            try:
                with open(f"/proc/{name}/stat") as it:
                    fields = it.read().rpartition(")")[2].split()
                parents.setdefault(int(fields[1]), []).append(int(name))
            except OSError:
                pass
    found, left = [], [root]
    while left:
        process = left.pop()
        found.append(process)
        left += parents.get(process, [])
    return found


def look(process):
    """The crate that a process of the prover works at, what for, and its CPU seconds so far; None of any other process."""
    try:
        with open(f"/proc/{process}/cmdline", "rb") as it:
            words = it.read().decode(errors="replace").split("\0")
        if "--crate-name" not in words or not words[0].endswith("rattle"):
            return None
        with open(f"/proc/{process}/stat") as it:
            fields = it.read().rpartition(")")[2].split()
    except OSError:
        return None
    crate = words[words.index("--crate-name") + 1]
    return crate, "tests" if "--test" in words else "proof", (int(fields[11]) + int(fields[12])) / TICKS


def sample(root, spent, ended):
    """Notes the CPU seconds of each process of the prover, until the run has ended."""
    while not ended.wait(PAUSE):
        for process in children_of(root):
            seen = look(process)
            if seen:
                spent[(process,) + seen[:2]] = seen[2]


def table(spent):
    """The costs of each crate, dearest first, and their sum."""
    costs = collections.defaultdict(lambda: {"proof": 0.0, "tests": 0.0})
    for (_, crate, kind), seconds in spent.items():
        costs[crate][kind] += seconds
    rows = sorted(costs.items(), key=lambda it: -sum(it[1].values()))
    lines = [f"{'crate':<22}{'proof':>8}{'tests':>8}   CPU seconds"]
    for crate, cost in rows:
        lines.append(f"{crate:<22}{cost['proof']:>8.0f}{cost['tests']:>8.0f}")
    total = {kind: sum(cost[kind] for cost in costs.values()) for kind in ("proof", "tests")}
    lines.append(f"{'sum':<22}{total['proof']:>8.0f}{total['tests']:>8.0f}"
                 f"   {sum(total.values()) / 60:.0f} CPU minutes")
    return lines


class Progress:
    """How far a run is, by the bytes of the sources of the crates that are proved."""

    def __init__(self):
        self.start = time.time()
        self.work = {name: work_of(name) for name in os.listdir("crates")}
        self.proved = set()

    def note(self, line):
        """Takes in what a line of the run says."""
        found = re.match(r"rt: (\w+) (?:proved|is kept)", line)
        if found and found[1] in self.work:
            self.proved.add(found[1])

    def stand(self):
        """The minutes since the start, the crates that are proved, and the minutes that are left, once a tenth of the work is done."""
        minutes = (time.time() - self.start) / 60
        done, all_work = sum(self.work[name] for name in self.proved), sum(self.work.values())
        left = f", about {minutes * (all_work - done) / done:.0f} left" if 10 * done > all_work > done else ""
        return f"[{minutes:3.0f} min{left}; {len(self.proved)} of {len(self.work)} crates]"


def ruled_by_processors():
    """The environment of `rt ci`: a lane for each processor, where memory holds them."""
    processors = len(os.sched_getaffinity(0))
    with open("/proc/meminfo", encoding="ascii") as file:
        free = 1024 * int(re.search(r"MemAvailable:\s+(\d+)", file.read())[1])
    return {"RT_JOBS": str(processors), **os.environ} if free >= 3_500_000_000 * processors else dict(os.environ)


def spent_by_all():
    """CPU minutes of all processes that this one has waited for, and of all below them."""
    used = resource.getrusage(resource.RUSAGE_CHILDREN)
    return (used.ru_utime + used.ru_stime) / 60


def work_of(crate):
    """A crate's work, by the bytes of its sources."""
    return sum(
        os.path.getsize(f"{at}/{name}")
        for part in ("src", "specs", "proofs")
        for at, _, files in os.walk(f"crates/{crate}/{part}")
        for name in files
    )


def main():
    quiet, names = "--quiet" in sys.argv[1:], [it for it in sys.argv[1:] if it != "--quiet"]
    progress = Progress()
    log = tempfile.NamedTemporaryFile("w", prefix="gate-", suffix=".log", delete=False)
    print(f"the whole log of rt ci: {log.name}", flush=True)
    gate = subprocess.Popen(["rt", "ci", *names], stdout=subprocess.PIPE, stderr=subprocess.STDOUT, text=True, errors="replace",
                            env=ruled_by_processors())
    spent, ended = {}, threading.Event()
    watcher = threading.Thread(target=sample, args=(gate.pid, spent, ended))
    watcher.start()
    last = ""
    shown = re.compile(r"^(rt: |\S+ (ran|proved|NOT)|.*tests (passed|FAILED))")
    for line in gate.stdout:
        log.write(line)
        if last and (not quiet or shown.match(last)):
            print(f"{progress.stand()} {last}" if quiet else last, end="", flush=True)
        progress.note(line)
        last = line
    status = gate.wait()
    ended.set()
    watcher.join()
    log.close()
    if quiet and status != 0:
        with open(log.name, encoding="utf-8") as file:
            print("".join(file.readlines()[-300:]), end="")
    print("\n".join(table(spent)))
    print(f"all processes: {spent_by_all():.0f} CPU minutes, {(time.time() - progress.start) / 60:.0f} minutes on the clock")
    print(last, end="")
    return status


sys.exit(main())
