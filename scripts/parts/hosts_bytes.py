"""Draws what the kernel might say of a host, right and wrong, and has a built program read it: each file of /proc/net
and /sys/class/net that `he host` reads, cut, mixed up, made long, or of bytes by chance, the others as recorded.

The program must end by itself, within a time and with little memory: with status 0 and lines that `he check` takes as
a host's, or with one line that says why there are none. Each file is drawn by itself, from the recordings of
crates/edge_cases/data.

Each file is drawn for --seconds, up to the first that is wrong, which is kept.

needs: root and `unshare`, for /proc and /sys of its own
"""
import collections
import functools
import pathlib
import random
import re
import subprocess
import time

import support
from support import KEPT, OPTIONS, must

SETUP = "".join(f"mount -t tmpfs tmpfs {folder}; mkdir -p {folder}/{inner}\n"
                for folder, inner in (("/sys", "class/net"), ("/proc", "net")))
SECONDS = 2
DATA = support.ROOT / "crates/edge_cases/data"
NET = ("if_inet6", "ipv6_route", "fib_trie", "route", "dev")
LINK = ("ifindex", "flags", "carrier", "type")
NEEDED = {"fib_trie", "route", "dev"}  # without one of these nothing can be compared
MOST_SECONDS = 5  # processor time of a run
LONGEST = 600  # seconds of a run by the clock, on a machine with other work
MOST_MEMORY = 64 * 1024  # KiB, of its addresses
MOST_BYTES = 400_000  # of a file
FAULT = b"he: cannot read /proc/net\n"
REMARK = re.compile(rb"he: (?:left out|guess|cannot read /sys/class/net/[^\n]*): [^\n]*\n")
ODD = [b"", b"0", b"f", b"ffffffff", b"100000000", b"00000000", b"80200001", b"00200200", b"g", b"-1", b"0x1003", b"*",
       b"lo", b"eth0", b"f" * 32, b"0" * 33, b"81", b"80", b"ff", b"65536", b"18446744073709551615",
       b"18446744073709551616", b"Local:", b"Main:", b"Id", b"|--", b"/32", b"host", b"LOCAL", b"192.0.2.300",
       b"0.0.0.0", b"255.255.255.255", b"\xff\xfe", b"\0", b"..", b"a/b", b"x" * 5000]
ALPHABETS = [bytes(range(256)), b"0123456789abcdef \n", b"0123456789ABCDEF\t\n", b" \t\n",
             b"|-+. /0123456789\nLOCALhost"]


def recordings():
    """Each recording: its files of /proc/net by name, and of each interface its files of /sys/class/net."""
    for told in sorted(DATA.glob("*.interfaces")):
        name = told.stem
        links = {}
        for line in told.read_text().splitlines():
            link, *words = line.split()
            links[link] = dict(zip(LINK, (b"%s\n" % word.encode() for word in words)))
        files = {file: (DATA / f"{name}.{file}").read_bytes() for file in NET if file != "dev"}
        lines = b"".join(b"%6s: 0 0 0\n" % link.encode() for link in links)
        files["dev"] = b"Inter-|   Receive\n face |bytes\n" + lines
        yield files, links


def mutated(chance, text):
    """The text changed in one way to four; most of it stays as it was."""
    for _ in range(chance.choice([1, 1, 2, 4])):
        text = changed(chance, text)[:MOST_BYTES]
    return text


def changed(chance, text):
    way = chance.randrange(9)
    if way == 0:
        return text[:chance.randrange(len(text) + 1)]
    if way == 1:
        alphabet = chance.choice(ALPHABETS)
        return bytes(chance.choice(alphabet) for _ in range(chance.choice([0, 1, 7, 100, 3000])))
    if way <= 3:
        at = chance.randrange(len(text) + 1)
        put = bytes([chance.choice(chance.choice(ALPHABETS))]) * chance.choice([1, 1, 1, 60_000])
        return text[:at] + put + text[at + chance.randrange(2):]
    lines = text.split(b"\n")
    at = chance.randrange(len(lines))
    if way <= 6:
        words = re.split(rb"([ \t]+)", lines[at])
        words[chance.randrange(len(words))] = chance.choice(ODD)
        lines[at] = b"".join(words)
    elif way == 7:
        lines[at:at + 1] = [lines[at]] * min(chance.choice([0, 2, 65, 2000]), MOST_BYTES // (1 + len(lines[at])))
    else:
        chance.shuffle(lines)
    return b"\n".join(lines)


def many(chance, reader, text):
    """The text with many more lines of its kind, each with another number in it."""
    lines = [line for line in text.split(b"\n") if line]
    is_six, more = reader in ("if_inet6", "ipv6_route"), []
    digits = rb"[0-9a-f]{6}" if is_six else rb"[0-9A-F]{2}(?=[0-9A-F]{4})|(?<=\.)[0-9]+(?=\n|$)"
    for number in range(chance.choice([70, 200, 1000, 3000]) if lines else 0):
        line = chance.choice(lines)
        put = b"%06x" % number if is_six else b"%02X" % (number % 256)
        more.append(re.sub(digits, put, line, count=1))
    return b"\n".join(lines + more) + b"\n"


def drawn(chance, reader, files, links):
    """The files of a host, one of which is drawn, or isn't there."""
    files, links = dict(files), {name: dict(link) for name, link in links.items()}
    if reader == "sysfs":
        for link in links.values():
            file = chance.choice(LINK)
            link[file] = mutated(chance, link.get(file, b""))
    elif chance.randrange(40) == 0:
        files[reader] = None
    elif chance.randrange(20) == 0:
        files[reader] = many(chance, reader, files[reader])
    else:
        files[reader] = mutated(chance, files[reader])
    return files, links


def judge(files, found):
    """Has the program read the files, and counts what it found; tells the processor time."""
    before = support.seconds_of_children()
    done = support.run(*bounded(), "host", text=False, stdin=subprocess.DEVNULL, timeout=LONGEST)
    seconds = support.seconds_of_children() - before
    if done.returncode == 1:
        found["without files"] += 1
        is_right = done.stderr == FAULT and not done.stdout and any(files[name] is None for name in NEEDED)
        must(is_right, f"status 1, {done.stderr[:200]}")
        return seconds
    must(done.returncode == 0 and not REMARK.sub(b"", done.stderr), f"status {done.returncode}, {done.stderr[:200]}")
    found["hosts" if done.stdout else "empty hosts"] += 1
    race = b"race 1\n" + done.stdout + b"aaaa 0 none\na 0 none\nend\n"
    check = support.run(OPTIONS.program, "check", input=race, timeout=LONGEST)
    must(check.returncode == 0, f"he check: {check.stderr[:300]}")
    must(seconds <= MOST_SECONDS, f"{seconds:.2f} s of processor time")
    return seconds


def draw_for(reader):
    chance, recorded, found = random.Random(f"{reader} {OPTIONS.seed}"), list(recordings()), collections.Counter()
    longest, end = 0, time.monotonic() + (OPTIONS.seconds or SECONDS)
    while time.monotonic() < end:
        files, links = drawn(chance, reader, *chance.choice(recorded))
        put(files, links)
        found["runs"] += 1
        try:
            longest = max(longest, judge(files, found))
        except (ValueError, subprocess.TimeoutExpired) as wrong:
            KEPT.mkdir(exist_ok=True)
            (KEPT / reader).write_text(repr((files, links)))
            raise ValueError(f"{wrong}; the files stand in {KEPT / reader}")
    told = ", ".join(f"{count} {name}" for name, count in sorted(found.items()))
    print(f"    {reader}: {told}; at most {longest:.2f} s of processor time")


@functools.cache
def bounded():
    """The words that run the program with so much memory and processor time."""
    for memory in (MOST_MEMORY, "unlimited"):
        line = f'ulimit -t {2 * MOST_SECONDS}; ulimit -v {memory}; exec "$0" "$@"'
        words = ["sh", "-c", line, OPTIONS.program]
        if support.run(*words, "--version").returncode == 0:
            return words
        print("    the program does not start within so little memory: it is tried without that bound")


def put(files, links):
    """Puts the files where the program reads them."""
    for name, text in files.items():
        file = pathlib.Path("/proc/net", name)
        if text is None:
            file.unlink(missing_ok=True)
        else:
            file.write_bytes(text)
    for name, link in links.items():
        folder = pathlib.Path("/sys/class/net", name)
        folder.mkdir(exist_ok=True)
        for file in LINK:
            folder.joinpath(file).write_bytes(link.get(file, b""))


check_if_inet6, check_ipv6_route, check_fib_trie, check_route, check_dev, check_sysfs = (
    functools.partial(draw_for, reader) for reader in (*NET, "sysfs"))
