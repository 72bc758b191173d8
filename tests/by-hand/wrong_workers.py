#!/usr/bin/env python3
"""Tries wrong bodies of the shared desk and of its workers of which no contract speaks: the test tests/played/workers
must fail.

    tests/by-hand/wrong_workers.py [NAME..]

Each is tried in a copy of the crates, without a proof (`tests/played.py`). It takes two or three minutes each, so it is
no part of ./test: run it where you have changed those crates. The last line is 'N passed, M failed'.
"""
import os
import shutil
import sys
import tempfile

sys.dont_write_bytecode = True
sys.path.insert(0, os.path.dirname(os.path.dirname(os.path.abspath(__file__))))
from played import TOP, play

SERVING, BOUNDS = "dr_desk_workers/src/serving.rt", "dr_desk_workers/src/bounds.rt"

# of each wrong body: the file, a text that stands in it once, and what takes its place
WRONG = {
    "sessions_in_turn": [
        (SERVING, "if !bounds.staff.admit(workshop.rt) {", "if begun > 0 || !bounds.staff.admit(workshop.rt) {"),
    ],
    "one_lock_over_a_whole_session": [
        (BOUNDS, "    pub staff: Staff,\n}", "    pub staff: Staff,\n    pub whole: Mutex<u64>,\n}"),
        (BOUNDS, "            staff: Staff::new(),", "            staff: Staff::new(),\n            whole: Mutex::new(0),"),
        (SERVING, "    workshop.gate.at(session, Point::Taken);",
         "    let _whole = bounds.whole.lock(workshop.rt);\n    workshop.gate.at(session, Point::Taken);"),
    ],
    "each_second_connection_dropped": [
        (SERVING, "        guest = serve(workshop, bounds, connection, guest, pass);",
         "        if connection.session % 2 == 1 {\n            guest = serve(workshop, bounds, connection, guest, pass);\n        }"),
    ],
}


def is_seen(edits):
    """Whether the tests fail with these bodies."""
    with tempfile.TemporaryDirectory(prefix="wrong-") as room:
        shutil.copytree(f"{TOP}/crates", f"{room}/crates", ignore=shutil.ignore_patterns("out"))
        for name in ("crates.txt", "HANDLES"):
            shutil.copy(f"{TOP}/{name}", room)
        for path, old, new in edits:
            with open(f"{room}/crates/{path}") as it:
                text = it.read()
            if text.count(old) != 1:
                sys.exit(f"{path}: the text to be changed doesn't stand there once")
            with open(f"{room}/crates/{path}", "w") as it:
                it.write(text.replace(old, new))
        came, said = play(["workers"], f"{room}/crates")
    if "workers" not in came:
        print(said)
        return False
    is_so, said = came["workers"]
    print(said, end="")
    return not is_so


def main():
    names = sys.argv[1:] or list(WRONG)
    passed = 0
    for name in names:
        seen = is_seen(WRONG[name])
        passed += seen
        print(f"{name}: {'seen' if seen else 'NOT SEEN'}", flush=True)
    print(f"{passed} passed, {len(names) - passed} failed")
    sys.exit(0 if passed == len(names) else 1)


main()
