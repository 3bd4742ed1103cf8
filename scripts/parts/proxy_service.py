"""Runs `he proxy` by examples/systemd/he-proxy.service, under a systemd of its own in namespaces of their own.

needs: systemd, unshare, nsenter
"""
import contextlib
import json
import os
import pathlib
import re
import shutil
import socket
import subprocess
import tempfile

import support
from parts.proxy import SOON, socks
from support import FOUR, OPTIONS, TIMEOUT, NotTried, comes, greet, must, needs, serving, unused_port

SETUP = support.NETWORK
PORT = 1080  # of the unit's ExecStart
UNIT = support.ROOT / "examples/systemd/he-proxy.service"
MOST_EXPOSED = 15  # tenths of what `systemd-analyze security` counts, of 100

# The first process of the namespaces: with a /run, a /tmp, and so on of their own, the program and the unit.
BEGIN = """
set -e
mount --make-rprivate /
mount -t proc proc /proc
for folder in /run /tmp /var/lib /var/log /usr/local/bin; do mount -t tmpfs tmpfs $folder; done
umount /sys/fs/cgroup 2> /dev/null || true
mount -t cgroup2 cgroup2 /sys/fs/cgroup
cp FOLDER/he /usr/local/bin/he
mkdir -p /run/systemd/system
cp FOLDER/he-proxy.service FOLDER/it.target /run/systemd/system
export container=test
exec /lib/systemd/systemd --system --unit=it.target --log-target=journal --show-status=no
"""
TARGET = """[Unit]
Description=The proxy and its journal
Wants=systemd-journald.service he-proxy.service
AllowIsolate=yes
"""


class Machine:
    """A systemd that runs the unit and the journal."""

    def __init__(self, folder):
        self.folder = folder

    def __enter__(self):
        shutil.copy(OPTIONS.program, f"{self.folder}/he")
        shutil.copy(UNIT, self.folder)
        pathlib.Path(self.folder, "it.target").write_text(TARGET)
        begin = pathlib.Path(self.folder, "begin")
        begin.write_text(BEGIN.replace("FOLDER", self.folder))
        words = ["unshare", "--pid", "--fork", "--kill-child", "--mount", "--cgroup", "--uts", "--ipc", "sh", begin]
        self.told = open(f"{self.folder}/told", "wb")
        self.running = subprocess.Popen(words, stdin=subprocess.DEVNULL, stdout=self.told, stderr=self.told)
        return self

    def __exit__(self, *_):
        self.running.kill()
        self.running.wait()
        self.told.close()

    def said(self):
        return pathlib.Path(self.folder, "told").read_text()

    def run(self, *words):
        """Runs a program in the namespaces."""
        return support.run("nsenter", "-t", self.children()[0], "-m", "-p", "-u", "-i", *words, timeout=TIMEOUT)

    def children(self):
        with contextlib.suppress(OSError):
            return pathlib.Path(f"/proc/{self.running.pid}/task/{self.running.pid}/children").read_text().split()
        return []

    def is_up(self):
        return bool(self.children()) and self.run("systemctl", "show", "-p", "Version").returncode == 0

    def show(self, name):
        """A property of the unit."""
        return self.run("systemctl", "show", "--value", "-p", name, "he-proxy").stdout.strip()

    def journal(self):
        """The journal's priorities and messages of the unit."""
        text = self.run("journalctl", "-q", "-o", "json", "_SYSTEMD_UNIT=he-proxy.service").stdout
        return [(int(entry["PRIORITY"]), entry["MESSAGE"]) for entry in map(json.loads, text.splitlines())]


def is_there():
    with contextlib.suppress(OSError), socket.create_connection((FOUR, PORT), timeout=SOON):
        return True
    return False


def ask(host, port):
    with socket.create_connection((FOUR, PORT), timeout=SOON) as client:
        return socks(client, host, port)


def check_unit():
    """The unit starts, its proxy connects, keeps its records where its head says, and has a journal by priority;
    killed, it is there again; it stops at once."""
    needs("unshare", "nsenter", "systemctl", "journalctl")
    if not os.path.exists("/lib/systemd/systemd"):
        raise NotTried("no systemd")
    with tempfile.TemporaryDirectory(dir="/var/tmp") as folder, Machine(folder) as machine, serving(greet) as port:
        if not comes(machine.is_up, TIMEOUT):
            raise NotTried(f"systemd does not run here: {machine.said()[-300:]!r}")
        must(comes(is_there, TIMEOUT), machine.journal(), machine.said())
        must(ask("four.test", port) == 0 and ask("four.test", unused_port()) == 5, machine.journal())
        asked = lambda: [entry for entry in machine.journal() if " host=four.test " in entry[1]]
        must(comes(lambda: len(asked()) == 2, SOON), machine.journal(), machine.said())
        must(machine.journal()[:2] == [(6, "he: listening at 127.0.0.1:1080"), (6, "he: listening at [::1]:1080")],
             machine.journal())
        ends = {re.search(r" (fault=\S+|winner=\S+) ", message)[1]: level for level, message in asked()}
        must(ends == {"winner=127.0.0.1": 6, "fault=all-failed": 4}, asked())
        found = machine.run("he", "summary", "/var/lib/private/he-proxy").stdout
        must(found.startswith("2 races: 1 connected (50.0 %)"), found)
        modes = machine.run("stat", "-c", "%a", "/var/lib/private/he-proxy", "/var/lib/private/he-proxy/known").stdout
        must(modes == "700\n600\n", modes)
        before = machine.show("MainPID")
        machine.run("kill", "-KILL", before)
        must(comes(lambda: machine.show("MainPID") not in ("0", before) and is_there(), TIMEOUT), machine.journal())
        must(machine.run("systemctl", "stop", "he-proxy").returncode == 0 and not is_there(), machine.journal())
        must(machine.show("Result") == "success", machine.show("Result"), machine.journal())


def check_exposed():
    """What `systemd-analyze security` counts of the unit stays low."""
    needs("systemd-analyze")
    done = support.run("systemd-analyze", "security", "--offline=true", f"--threshold={MOST_EXPOSED}", UNIT)
    if "offline" in done.stderr:
        raise NotTried("systemd-analyze has no --offline")
    must(done.returncode == 0, done.stdout[-200:], done.stderr)
