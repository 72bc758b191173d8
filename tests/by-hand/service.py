#!/usr/bin/env python3
"""Runs a node under systemd by the unit of packaging/, and stops it in each way.

    tests/by-hand/service.py [PROGRAM]

A systemd of its own runs as the first process of a new namespace, over this machine's files, of which it changes only
a copy (overlayfs). It needs root, `unshare`, `nsenter` and systemd. The ports are this machine's. PROGRAM is the one
that the repository builds, where no other is named.
"""
import os
import re
import shutil
import subprocess
import sys
import tempfile
import time

sys.dont_write_bytecode = True
HERE = os.path.dirname(os.path.abspath(__file__))
TOP = os.path.dirname(os.path.dirname(HERE))
sys.path.insert(0, f"{TOP}/tests")
from lib.nodes import LIMIT, PROGRAM, SAMPLE, data_set, free_port, same
from lib.requestor import Requestor

TOKEN = "a token of more than sixteen bytes\n"
# Nothing of this machine is started with it, and what a node logs is in a file.
ALONE = """[Unit]
DefaultDependencies=no
[Service]
StandardOutput=append:/var/log/dr_router.out
StandardError=append:/var/log/dr_router.log
"""
BOOT = """set -e
mount --make-rprivate /
mount -t overlay overlay -o lowerdir=/,upperdir={0}/upper,workdir={0}/work {0}/root
mount -t proc proc {0}/root/proc
mount -t tmpfs tmpfs {0}/root/run
mount -t tmpfs tmpfs {0}/root/tmp
mount --rbind /sys {0}/root/sys
mount --rbind /dev {0}/root/dev
exec env -i container=lxc PATH=/usr/sbin:/usr/bin:/sbin:/bin chroot {0}/root \\
    /lib/systemd/systemd --system --unit=trial.target --log-target=console
"""
SPACES = ["--pid", "--mount", "--uts", "--ipc"]


class Machine:
    """A systemd with the unit, the program and the sample's plan, whose node GATE it is to run."""

    def __init__(self, program):
        self.folder = tempfile.mkdtemp(dir="/var/tmp")
        os.chmod(self.folder, 0o755)
        for name in "upper", "work", "root":
            os.mkdir(f"{self.folder}/{name}")
        units = "etc/systemd/system"
        for name in "trial", "network-online", "time-sync":
            self.put(f"{units}/{name}.target", "[Unit]\nDefaultDependencies=no\n")
        with open(f"{TOP}/packaging/dr_router@.service", encoding="utf-8") as file:
            self.put(f"{units}/dr_router@.service", file.read())
        self.put(f"{units}/dr_router@.service.d/alone.conf", ALONE)
        shutil.copy(program, self.at("usr/local/bin/dr_router"))
        self.put_plan(program)
        self.log = open(f"{self.folder}/boot.log", "wb")
        self.first = subprocess.Popen(["unshare", *SPACES, "--fork", "sh", "-c", BOOT.format(self.folder)],
                                      stdin=subprocess.DEVNULL, stdout=self.log, stderr=subprocess.STDOUT)
        self.number = self.find()

    def put_plan(self, program):
        """The sample's plan, whose node GATE has a free port, with its certificate."""
        self.port, self.control = free_port(), free_port()
        with open(SAMPLE, encoding="utf-8") as file:
            text = file.read()
        text = re.sub(r'(name = "GATE".*?address = ")[^"]*', rf"\g<1>127.0.0.1:{self.port}", text, flags=re.S)
        self.put("etc/dr_router/plan.toml", text)
        plan = self.at("etc/dr_router/plan.toml")
        certificate = subprocess.run([program, "check", plan], stdout=subprocess.PIPE, check=True).stdout
        self.put("etc/dr_router/certificate", certificate.decode())

    def at(self, path):
        """The file of that path, as it is changed."""
        whole = f"{self.folder}/upper/{path}"
        os.makedirs(os.path.dirname(whole), exist_ok=True)
        return whole

    def put(self, path, text):
        with open(self.at(path), "w", encoding="utf-8") as file:
            file.write(text)

    def text(self, path):
        with open(f"{self.folder}/upper/{path}", encoding="utf-8") as file:
            return file.read()

    def find(self):
        """The number of the systemd, as this machine sees it, once it runs."""
        end = time.monotonic() + LIMIT
        while time.monotonic() < end:
            with open(f"/proc/{self.first.pid}/task/{self.first.pid}/children", encoding="ascii") as file:
                found = file.read().split()
            if found and os.path.realpath(f"/proc/{found[0]}/exe").endswith("/systemd"):
                time.sleep(2)
                return found[0]
            time.sleep(0.1)
        raise AssertionError("systemd does not run")

    def run(self, *words, check=True):
        """What a command prints that is run there."""
        inside = ["nsenter", "-t", self.number, *SPACES, "--root", "--wd=/"]
        ran = subprocess.run([*inside, *words], stdin=subprocess.DEVNULL, stdout=subprocess.PIPE, stderr=subprocess.STDOUT,
                             timeout=LIMIT, text=True, check=False)
        assert not check or ran.returncode == 0, (words, ran.returncode, ran.stdout)
        return ran.stdout

    def shown(self, *names):
        """Properties of the service."""
        text = self.run("systemctl", "show", "dr_router@GATE", *(f"-p{name}" for name in names))
        return dict(line.partition("=")[::2] for line in text.splitlines())

    def start(self):
        """Starts the service, and waits until it serves."""
        self.run("systemctl", "start", "dr_router@GATE")
        end = time.monotonic() + LIMIT
        while time.monotonic() < end:
            try:
                with Requestor(self.port, "CT1", "GATE") as caller:
                    caller.release()
                return
            except OSError:
                time.sleep(0.1)
        raise AssertionError(self.text("var/log/dr_router.log"))

    def stop(self):
        """How many seconds it takes to stop the service, and what it logs meanwhile."""
        before, begun = len(self.text("var/log/dr_router.log")), time.monotonic()
        self.run("systemctl", "stop", "dr_router@GATE")
        return time.monotonic() - begun, self.text("var/log/dr_router.log")[before:]

    def end(self):
        subprocess.run(["kill", "-9", self.number], check=False)
        self.first.wait()
        self.log.close()
        time.sleep(1)
        shutil.rmtree(self.folder, ignore_errors=True)


def tell(name, seconds):
    print(f"service: {name}, {seconds:.1f} s", flush=True)


def prepare(machine):
    """Makes the user, the token and the ledger; what names the node's files."""
    machine.run("useradd", "--system", "--user-group", "--no-create-home", "dr_router")
    machine.put("etc/dr_router/token", TOKEN)
    machine.run("chown", "dr_router:dr_router", "/etc/dr_router/token")
    machine.run("chmod", "600", "/etc/dr_router/token")
    machine.run("install", "-d", "-o", "dr_router", "-g", "dr_router", "/var/lib/dr_router")
    files = ["/etc/dr_router/plan.toml", "/etc/dr_router/certificate", "GATE", "/var/lib/dr_router/GATE.db"]
    owner = ["setpriv", "--reuid=dr_router", "--regid=dr_router", "--clear-groups"]
    machine.run(*owner, "/usr/local/bin/dr_router", "new", *files)
    return files


def stops(machine, conf):
    """An orderly end, one in the midst of an association, and a kill."""
    machine.put("etc/dr_router/GATE.conf", conf)
    machine.start()
    with Requestor(machine.port, "CT1", "GATE") as caller:
        same(caller.store(b"1.2.3.4", data_set(b"1.2.3.4")), 0)
        caller.release()
    seconds, said = machine.stop()
    assert "control] stop" in said and "node] stops" in said and seconds < 9, (seconds, said)
    same(machine.shown("Result", "ExecMainStatus", "ActiveState"),
         {"Result": "success", "ExecMainStatus": "0", "ActiveState": "inactive"})
    tell("ends in order", seconds)
    machine.start()
    with Requestor(machine.port, "CT1", "GATE") as caller:
        same(caller.store(b"1.2.3.5", data_set(b"1.2.3.5")), 0)
        seconds, said = machine.stop()
    assert "cuts what is under way" in said and 9 < seconds < 25, (seconds, said)
    same(machine.shown("Result", "ExecMainStatus"), {"Result": "success", "ExecMainStatus": "0"})
    tell("cuts an open association", seconds)
    machine.put("etc/dr_router/GATE.conf", "OPTIONS=\n")
    machine.start()
    with Requestor(machine.port, "CT1", "GATE") as caller:
        same(caller.store(b"1.2.3.6", data_set(b"1.2.3.6")), 0)
        seconds, said = machine.stop()
    assert "stops" not in said and seconds < 9, (seconds, said)
    tell("is killed where nobody says how", seconds)


def restarts(machine, conf):
    """It is started again after a kill from without."""
    machine.put("etc/dr_router/GATE.conf", conf)
    machine.start()
    begun, was = time.monotonic(), machine.shown("MainPID")["MainPID"]
    machine.run("kill", "-9", was)
    while True:
        now = machine.shown("MainPID", "ActiveState")
        if now["ActiveState"] == "active" and now["MainPID"] not in (was, "0"):
            break
        assert time.monotonic() < begun + LIMIT, now
        time.sleep(0.2)
    tell("is started again after a kill", time.monotonic() - begun)
    machine.stop()


def main():
    machine = Machine(sys.argv[1] if sys.argv[1:] else PROGRAM)
    try:
        files = prepare(machine)
        place = f"127.0.0.1:{machine.control}"
        conf = (f"OPTIONS=--control {place} --control-token /etc/dr_router/token\n"
                f"AT=--at {place} --token /etc/dr_router/token\n")
        stops(machine, conf)
        restarts(machine, conf)
        listed = machine.run("/usr/local/bin/dr_router", "list", *files)
        for uid in "1.2.3.4", "1.2.3.5", "1.2.3.6":
            assert f"arrival\tCT1\t{uid}\n" in listed, listed
        print("service: nothing that was acknowledged is lost")
    finally:
        machine.end()


if __name__ == "__main__":
    main()
