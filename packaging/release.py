"""A release of the checkout: its package for Debian, its archive, and the statement that says what they were made from.

What goes into both is the program, the unit, the manual page, the words that bash offers, the pages for whoever runs
nodes, and the sample plans. Their bytes are determined by these files, the statement and the moment of the last commit;
so two builds give the same.
"""
import hashlib
import os
import re
import subprocess

from archives import ar, packed, tar

TOP = os.path.dirname(os.path.dirname(os.path.realpath(__file__)))
NAME = "bitrusset"
PAGES = ["README.md", "CHANGELOG.md"]
GUIDE = ["PLANS.md", "USAGE.md", "RUNNING.md", "NIGHT.md", "HEADLINE.md", "PROVED.md", "three-nodes.svg", "hospital.svg", "page.png"]
CLOSING = re.compile(r"[1-9][0-9]* passed, 0 failed")
# The keys of a statement, in the order of its lines.
KEYS = ("name", "version", "sources", "kit", "gate", "program")


class Refused(Exception):
    """No release is made; the words say why."""


def content(path):
    with open(path, "rb") as file:
        return file.read()


def digest(text):
    return hashlib.sha256(text).hexdigest()


def printed(*words):
    """What a command prints, in one line."""
    return subprocess.run(words, cwd=TOP, check=True, stdout=subprocess.PIPE, text=True).stdout.strip()


def version():
    return printed(f"{TOP}/tools/version.py")


def moment():
    """The moment of the last commit, in seconds since 1970; SOURCE_DATE_EPOCH where there is no repository."""
    given = os.environ.get("SOURCE_DATE_EPOCH")
    try:
        return int(given or printed("git", "log", "-1", "--format=%ct"))
    except (OSError, ValueError, subprocess.CalledProcessError) as fault:
        raise Refused("X6 NoMoment: git tells no last commit, and SOURCE_DATE_EPOCH isn't set") from fault


def told(text):
    """The keys of a text with lines 'key: value'."""
    return dict(re.findall(r"^(\w+): (.*)$", text, re.MULTILINE))


def gate_of(log):
    """What the log of a gate says: its sources, its kit, its program's digest, and its closing line."""
    if not os.path.isfile(log):
        raise Refused(f"X1 NoGate: {log} isn't there; ./test leaves it when it has passed")
    text = content(log).decode(errors="replace").rstrip("\n")
    found, last = told(text), text.rpartition("\n")[2]
    if not CLOSING.fullmatch(last):
        raise Refused(f"X1 NoGate: {log} doesn't end in 'N passed, 0 failed'")
    if not all(key in found for key in ("sources", "kit", "program")):
        raise Refused(f"X1 NoGate: {log} doesn't name its sources, its kit and its program")
    return {**found, "gate": last}


def statement_of(gate, number):
    """The text of a statement, by what a gate's log says."""
    says = {**gate, "name": NAME, "version": number}
    return "".join(f"{key}: {says[key]}\n" for key in KEYS).encode()


def statement(program, log):
    """What a release is made from, as text; refused where the gate of the log was another one's."""
    gate = gate_of(log)
    if gate["sources"] != printed("tools/sources"):
        raise Refused("X2 OtherSources: the gate has passed for other sources than the checkout's")
    if gate["program"] != digest(program):
        raise Refused("X3 OtherProgram: the gate has built another program")
    return statement_of(gate, version())


def libc_of(program):
    """The version of the C library that the program asks for at least."""
    if program[:4] != b"\x7fELF" or program[18:20] != b"\x3e\x00":
        raise Refused("X4 NoProgram: the program isn't one for x86-64")
    wanted = re.findall(rb"GLIBC_(\d+)\.(\d+)", program)
    return max(((int(major), int(minor)) for major, minor in wanted), default=(2, 31))


def guide():
    """The pages for whoever runs nodes, and the sample plans, by their paths."""
    pages = [*PAGES, *(f"docs/{it}" for it in GUIDE), *(f"plans/{it}" for it in os.listdir(f"{TOP}/plans"))]
    there = [it for it in pages if os.path.isfile(f"{TOP}/{it}")]
    return {it: (content(f"{TOP}/{it}"), 0o755 if os.access(f"{TOP}/{it}", os.X_OK) else 0o644) for it in there}


def part(name):
    return content(f"{TOP}/packaging/{name}")


def manual(number):
    """The manual page with the version, which its source leaves out."""
    text = part("dr_router.1")
    if text.count(b'"dr_router"') != 1:
        raise Refused("X7 Manual: the manual page doesn't name the program once")
    return text.replace(b'"dr_router"', f'"dr_router {number}"'.encode())


def archive(program, says, at):
    """The archive: the program with its statement beside it, and all that goes with it."""
    number = told(says.decode())["version"]
    files = {
        "dr_router": (program, 0o755),
        "STATEMENT": (says, 0o644),
        "dr_router-backup": (part("dr_router-backup"), 0o755),
        "dr_router.1": (manual(number), 0o644),
        **{it: (part(it), 0o644) for it in ("dr_router@.service", "dr_router.bash", "alerts.yml")},
        **guide(),
    }
    front = f"{NAME}-{number}"
    return packed(tar({f"{front}/{path}": it for path, it in files.items()}, at))


def unit():
    """The unit with the program where the package puts it."""
    text = part("dr_router@.service")
    if text.count(b"/usr/local/bin/dr_router") != 4:
        raise Refused("X5 Unit: the unit doesn't name the program in four places")
    return text.replace(b"/usr/local/bin/dr_router", b"/usr/bin/dr_router")


def installed(program, says):
    """What the package puts where."""
    number = told(says.decode())["version"]
    files = {
        "usr/bin/dr_router": (program, 0o755),
        "usr/bin/dr_router-backup": (part("dr_router-backup"), 0o755),
        "usr/lib/systemd/system/dr_router@.service": (unit(), 0o644),
        "usr/share/man/man1/dr_router.1.gz": (packed(manual(number)), 0o644),
        "usr/share/bash-completion/completions/dr_router": (part("dr_router.bash"), 0o644),
        f"usr/share/doc/{NAME}/STATEMENT": (says, 0o644),
        f"usr/share/doc/{NAME}/alerts.yml": (part("alerts.yml"), 0o644),
        **{f"usr/share/doc/{NAME}/{path}": it for path, it in guide().items()},
    }
    return {f"./{path}": it for path, it in files.items()}


def package(program, says, at):
    """The package for Debian."""
    files = installed(program, says)
    major, minor = libc_of(program)
    control = part("debian/control").decode().format(
        version=told(says.decode())["version"], libc=f"{major}.{minor}", size=sum(len(it[0]) for it in files.values()) // 1024 + 1
    )
    sums = "".join(f"{hashlib.md5(it[0]).hexdigest()}  {path[2:]}\n" for path, it in sorted(files.items()))
    about = {
        "./control": (control.encode(), 0o644),
        "./md5sums": (sums.encode(), 0o644),
        **{f"./{it}": (part(f"debian/{it}"), 0o755) for it in ("postinst", "prerm", "postrm")},
    }
    members = [
        ("debian-binary", b"2.0\n"),
        ("control.tar.gz", packed(tar(about, at))),
        ("data.tar.gz", packed(tar(files, at, ["./etc/dr_router"]))),
    ]
    return ar(members, at)


def release(program, says):
    """The files of a release, by their names."""
    at, number = moment(), told(says.decode())["version"]
    made = {
        f"{NAME}_{number}_amd64.deb": package(program, says, at),
        f"{NAME}-{number}.tar.gz": archive(program, says, at),
        "STATEMENT": says,
    }
    sums = "".join(f"{digest(text)}  {name}\n" for name, text in sorted(made.items()))
    return {**made, "SHA256SUMS": sums.encode()}
