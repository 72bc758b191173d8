"""Proves the libraries below a crate side by side, each over the statements of those below it: `build_libraries`.

The kit's prover is called directly, as the gate calls it, and not by `rt lib`: a library is read without its proofs
then, which takes half the time. What is made is in the crate's `out/rlib`; `rt check` and `rt run` don't take it, and
prove these libraries for themselves. A library that the gate has made is taken as it is. What was made from other
sources is made anew.

Beside a library its `sources` has the digest of all that it was made from: the kit, and the sources and the lines of
`crates.txt` of it and of those below it. With DR_PROVED=FOLDER, which is for whoever works in several clones, each
library that is proved goes there under its digest, and one that is there isn't proved again; what another clone is
proving is waited for. The gate never looks there.
"""
import functools
import hashlib
import os
import shutil
import subprocess
import sys
import tempfile
import time

from crates import TOP, below, copy_sources, kit, lanes, listed, prover, rlib_of, sources_of, work_of, words_of

# The bytes of sources for which one more process pays.
PIECE = 20_000


@functools.cache
def digest_of(name):
    """The digest of all that a library is made from."""
    found = hashlib.sha256()
    own, of_kit = listed()[name]
    with open(f"{kit()}/KIT-ID", "rb") as file:
        found.update(file.read())
    found.update(" ".join([name, *own, "/", *of_kit]).encode())
    for path in sources_of(name):
        with open(path, "rb") as file:
            found.update(os.path.relpath(path, TOP).encode() + b"\0" + hashlib.sha256(file.read()).digest())
    for library in own:
        found.update(digest_of(library).encode())
    return found.hexdigest()


def made_from(name):
    """The file beside a library that says what it was made from."""
    return f"{os.path.dirname(rlib_of(name))}/sources"


def is_newer(name):
    """Whether the library that the gate made is newer than each source of it and of those below it. A file that gets a second name, or
    is written, has its time of change renewed; so what the gate puts there is newer, too."""
    made = os.stat(f"{rlib_of(name)}/format").st_ctime
    sources = [file for crate in (*below(name), name) for file in sources_of(crate)]
    return made >= max(os.stat(file).st_mtime for file in sources)


def is_fresh(name):
    """Whether the library is there, made from these sources: here, by the gate, or in another clone."""
    try:
        with open(made_from(name), encoding="ascii") as file:
            return file.read() == digest_of(name) or is_taken(name)
    except OSError:
        pass
    return os.path.isfile(f"{rlib_of(name)}/format") and is_newer(name) or is_taken(name)


def copy_library(source, to):
    """Puts a library with its digest into a place, whole or not at all, as second names of the same files."""
    os.makedirs(os.path.dirname(to), exist_ok=True)
    room = tempfile.mkdtemp(prefix="copying-", dir=os.path.dirname(to))
    shutil.copytree(source, f"{room}/made", copy_function=os.link)
    shutil.rmtree(to, ignore_errors=True)
    try:
        os.rename(f"{room}/made", to)
    except OSError:
        pass  # Another clone was faster.
    shutil.rmtree(room, ignore_errors=True)


def is_taken(name):
    """Takes a library that another clone has proved from the same sources; whether there is one."""
    place = os.environ.get("DR_PROVED")
    if not place or not os.path.isdir(f"{place}/{digest_of(name)}"):
        return False
    copy_library(f"{place}/{digest_of(name)}", os.path.dirname(rlib_of(name)))
    return True


def keep(name):
    """Notes what a library was made from, and lends it to other clones."""
    with open(made_from(name), "w", encoding="ascii") as file:
        file.write(digest_of(name))
    place = os.environ.get("DR_PROVED")
    if place and not os.path.isdir(f"{place}/{digest_of(name)}"):
        copy_library(os.path.dirname(rlib_of(name)), f"{place}/{digest_of(name)}")


def stale_of(libraries):
    """Those of the libraries, lowest first, that have to be made, and with each those above it."""
    stale = []
    for name in libraries:
        if not is_fresh(name) or any(it in stale for it in below(name)):
            stale.append(name)
    return stale


def is_claimed(name):
    """Whether another clone is proving a library from the same sources."""
    place = os.environ.get("DR_PROVED")
    try:
        with open(f"{place}/{digest_of(name)}.busy", encoding="ascii") as file:
            os.kill(int(file.read()), 0)
    except (OSError, ValueError):
        return False
    return True


def claim(name):
    """Tells other clones that this one proves the library."""
    place = os.environ.get("DR_PROVED")
    if place:
        with open(f"{place}/{digest_of(name)}.busy", "w", encoding="ascii") as file:
            file.write(str(os.getpid()))


class Library:
    """A library that is being proved."""

    def __init__(self, name, jobs):
        self.name, self.jobs, self.began = name, jobs, time.monotonic()
        claim(name)
        out = os.path.dirname(rlib_of(name))
        os.makedirs(out, exist_ok=True)
        self.room = tempfile.mkdtemp(prefix="proving-", dir=os.path.dirname(out))
        copy_sources(name, self.room)
        self.log = open(f"{self.room}/log", "w+", encoding="utf-8", errors="replace")
        self.process = subprocess.Popen(
            [prover(), "build", *words_of(name, jobs), "--statements", "-o", f"{self.room}/made.rlib"],
            cwd=self.room, stdin=subprocess.DEVNULL, stdout=self.log, stderr=subprocess.STDOUT,
        )

    def end(self, log):
        """Puts the library into its place, and what was said into the log; whether it is proved."""
        self.log.seek(0)
        log.write(f"== {self.name}\n{self.log.read()}")
        log.flush()
        self.log.close()
        if self.process.returncode == 0:
            # Without the stamp of a library that `rt check` made, rt makes its own again.
            shutil.rmtree(os.path.dirname(rlib_of(self.name)), ignore_errors=True)
            os.makedirs(os.path.dirname(rlib_of(self.name)))
            os.rename(f"{self.room}/made.rlib", rlib_of(self.name))
            keep(self.name)
        shutil.rmtree(self.room, ignore_errors=True)
        return self.process.returncode == 0


def tell(done, count, name, began):
    """Says that a crate is proved, and how many are."""
    print(f"[{done:2}/{count}] {name} .. proved in {time.monotonic() - began:.0f} s", file=sys.stderr, flush=True)


def begin(ready, idle):
    """Begins with as many of the ready libraries as there are idle processors; what is left over is shared, first by the one that
    most work waits for, so none of two runs on one processor beside one on three. A small crate takes fewer, since each process
    loads what is below it anew."""
    begun = []
    for at, name in enumerate(ready[:idle]):
        jobs = max(1, min(-(-idle // (len(ready) - at)), 1 + work_of(name) // PIECE))
        begun.append(Library(name, min(jobs, idle)))
        idle -= begun[-1].jobs
        if idle <= 0:
            break
    return begun


def build_libraries(libraries, log, above=0):
    """Proves those of these libraries (each after those that it uses) that aren't made, first those with the longest chain of others
    above them; whether all are proved. `above`: how many crates the caller will prove over them, for the count that is shown."""
    left = stale_of(libraries)
    # Where several clones work side by side each leaves the others their share.
    cores = min(lanes(), 2) if os.environ.get("DR_PROVED") else lanes()
    count, running, failed = len(left) + above, [], False
    waiting = set(left)
    chain = {it: work_of(it) for it in libraries}
    for name in reversed(libraries):
        for library in listed()[name][0]:
            chain[library] = max(chain[library], work_of(library) + chain[name])
    while running or (left and not failed):
        ready = [it for it in left if waiting.isdisjoint(below(it))]
        for name in [it for it in ready if is_taken(it)]:
            left.remove(name)
            waiting.discard(name)
        ready = sorted((it for it in ready if it in left and not is_claimed(it)), key=lambda it: -chain[it])
        # After a failure nothing more is begun, but what is running ends, so that its work is kept.
        begun = [] if failed else begin(ready, cores - sum(it.jobs for it in running))
        left = [it for it in left if it not in [library.name for library in begun]]
        running += begun
        time.sleep(0.1 if running else 1)
        for library in [it for it in running if it.process.poll() is not None]:
            running.remove(library)
            if library.end(log):
                waiting.discard(library.name)
                tell(count - above - len(waiting), count, library.name, library.began)
            else:
                failed = True
                print(f"{library.name} .. NOT proved", file=sys.stderr, flush=True)
    return not failed


def made_for(names, log):
    """Makes all libraries below these crates; whether all are proved."""
    libraries = list(dict.fromkeys(library for name in names for library in below(name)))
    return build_libraries(libraries, log)
