"""Probes hosts by a built program's `he probe`, in a network of its own, and looks at the rows, the verdicts, the
records and the statuses; and replays a record with other settings beside real connections with the same.

needs: ip, for the networks
"""
import json
import os
import re
import signal
import subprocess
import tempfile
import time

import plain_accounts
import support
from parts.connect import ROUTER, made
from support import (DEAD_FOUR, DEAD_SIX, FOUR, OPTIONS, REFUSED, SIX, TIMEOUT, Zone, accept_all, attempts_of, greet,
                     listener_at, must, replayed, serving, timed, unused_port)

HE = OPTIONS.program
# A name of 256 addresses of each family: those of IPv4 are this machine's and refuse, those of IPv6 are not there.
MANY = [f"2001:db8:1e::{n:x}" for n in range(0x100, 0x200)] + [f"127.1.{n >> 7}.{n & 127 | 1 << 7}" for n in range(256)]
NAMES = {**support.NAMES, "many.test": MANY, "what.test": [DEAD_SIX, SIX, FOUR, DEAD_FOUR]}
SETUP = support.NETWORK + support.file_of_etc(
    "hosts", "".join(f"{ip} {name}\n" for name, ips in NAMES.items() for ip in ips))
HEADINGS = ["address", "family", "source", "outcome", "ms"]


class Probe:
    """A run of `he probe`: its status, its output, its messages, and its record."""

    def __init__(self, *words, record=True):
        with tempfile.TemporaryDirectory() as folder:
            path = os.path.join(folder, "record")
            began = time.monotonic()
            done = support.run(HE, "probe", *(["--record", path] if record else []), *words, timeout=TIMEOUT)
            self.seconds = time.monotonic() - began
            self.record = open(path).read() if os.path.exists(path) else ""
            self.files = os.listdir(folder)
        self.words, self.status, self.output, self.told = words, done.returncode, done.stdout, done.stderr
        self.blocks = [block.split("\n") for block in self.output.rstrip("\n").split("\n\n")]

    def must(self, is_right, *told):
        must(is_right, *self.words, f"status {self.status}, {self.output[-2000:]!r}, {self.told!r}, {self.record[-2000:]!r}",
             *told)

    def rows(self, block=0):
        """The cells of each row: the address, the family, the source, the outcome and the milliseconds."""
        self.must([re.split(" {2,}", line) for line in self.blocks[block][1:2]] == [HEADINGS])
        return [re.split(" {2,}", line) for line in self.blocks[block][2:-1]]


def outcomes_in(record):
    """The outcomes of a record: `ok` or `fail`, and the ticks, by address."""
    return {ip: (word, int(ticks)) for ip, word, ticks in re.findall(r"(?m)^connect (\S+) (ok|fail) (\d+)$", record)}


@support.timed
def check_words():
    """Each address has a row with why it failed, in the order of preference, and the record has its outcome, and no
    other."""
    reached = {"198.51.100.7": "unreachable", "2001:db8:78::7": "network unreachable", "2001:db8:77::7": "prohibited",
               "203.0.113.7": "prohibited"}
    said = {SIX: "refused", "198.51.100.7": "unreachable", "2001:db8:78::7": "unreachable",
            "2001:db8:77::7": "forbidden", "203.0.113.7": "forbidden"}
    wanted = {SIX: "refused", DEAD_SIX: "no answer", FOUR: "connected", DEAD_FOUR: "no answer", **reached}
    with made(ROUTER, "ip netns del router; ip route del prohibit 203.0.113.0/24"), Zone(*wanted) as names, \
            serving(greet) as port:
        probe = Probe("--timeout", 400, "--resolver", names.at, "all.zone", port)
    rows, outcomes = probe.rows(), outcomes_in(probe.record)
    probe.must({row[0]: row[3] for row in rows} == wanted and len(rows) == len(wanted) and probe.status == 4)
    probe.must([row[0] for row in rows] == re.findall(r"(?m)^\d+ (\S+) from", replayed(probe.record, "order")))
    probe.must([row[2] for row in rows] == re.findall(r"(?m)^\d+ \S+ from (\S+)", replayed(probe.record, "order")))
    for ip, family, _, word, ms in rows:
        outcome = {"no answer": None, "connected": ("ok", int(ms))}.get(word, ("fail", int(ms)))
        probe.must(outcomes.get(ip) == outcome and family == ("IPv6" if ":" in ip else "IPv4"), ip)
        probe.must(int(ms) == 400 if word == "no answer" else 1 <= int(ms) <= 350, ip)
    lines = re.findall("(?m)^record (?!at )(.*)$", probe.record)
    probe.must(lines[0] == f"to all.zone {port}" and "\npause " not in probe.record)
    probe.must(sorted(lines[1:]) == sorted(f"attempt {ip} {word}" for ip, word in said.items()))
    probe.must("\nset limit 400\n" in probe.record and probe.output.startswith(f"all.zone port {port}: 1 of 8 addresses "))
    checked = support.run(HE, "check", input=probe.record)
    probe.must(checked.returncode == 0, checked.stderr)


def client_in(record):
    """The connection of a client by a record: its address, its tick, and the ticks that it lost, by its account."""
    transcript = replayed(record)
    place, end = map(int, re.search(r"(?m)^won (\d+) (\d+)$", transcript).groups())
    return attempts_of(transcript)[place][1], end, plain_accounts.lost(record)


def check_verdicts():
    """The verdict is the first that fits, with the time that a client loses by the record; the status is that of the
    addresses."""
    words = ["--timeout", 1000, "--resolver"]
    with serving(greet) as port, listener_at(SIX, port) as listener, Zone(SIX, FOUR) as fine, \
            Zone(DEAD_SIX, FOUR) as six, Zone(SIX, DEAD_FOUR) as some, Zone(DEAD_SIX, DEAD_FOUR) as none:
        accept_all(listener, greet)
        for names, status, wanted, winner in [
            (fine, 0, "All fine. ", SIX),
            (six, 4, "IPv6 broken: 1 of 1 address fails. ", FOUR),
            (some, 4, "1 of 2 addresses fails; clients lose nothing to them. ", SIX),
            (none, 3, "Nothing connects", None),
        ]:
            probe = Probe(*words, names.at, "some.zone", port)
            if winner:
                ip, end, lost = client_in(probe.record)
                probe.must(ip == winner and (lost > 0) == (names is six), ip, lost)
                wanted += f"A client connects to {ip} after {end} ms" + (f", {lost} of them lost" if lost else "")
            verdict = re.sub(r"; \S+ alone would take \d+$", "", probe.blocks[0][-1])
            probe.must(probe.status == status and verdict == wanted, wanted)
            quiet = Probe("-q", *words, names.at, "some.zone", port)
            quiet.must(quiet.output.startswith(f"some.zone port {port}: {wanted[:20]}") and quiet.output.count("\n") == 1)
            quiet.must(quiet.status == status)
        for letter, ip, status in [("-6", DEAD_SIX, 3), ("-4", FOUR, 0)]:
            only = Probe(letter, *words, six.at, "some.zone", port)
            only.must(only.status == status and [row[0] for row in only.rows()] == [ip])


def check_literals():
    """An address has a row of its own, in either spelling, and nobody is asked for it; of the family that is left out
    there is no row, and a line says so."""
    with serving(greet) as port, Zone() as names:
        for host, ip, word, status in [(FOUR, FOUR, "connected", 0), (f"[{SIX}]", SIX, "refused", 3)]:
            probe = Probe("--resolver", names.at, host, port)
            probe.must([(row[0], row[3]) for row in probe.rows()] == [(ip, word)] and probe.status == status)
            probe.must(probe.output.startswith(f"{host} port {port}: ") and "record lookup" not in probe.record)
        must(not names.seen, "the name server was asked for an address")
    other = Probe("-6", FOUR, 80)
    other.must(other.status == 3 and other.output == f"{FOUR} port 80: no address to try\nNothing connects\n")
    other.must(other.told == f"he: {FOUR} is an IPv4 address, but -6 was given\n")


def check_lookup():
    """A look-up that failed is reported, and is a fault, although each address connects; a name that is not there is
    one."""
    with serving(greet) as port, Zone(FOUR, six_code=REFUSED) as names:
        probe = Probe("--resolver", names.at, "half.zone", port)
        probe.must(probe.status == 1 and re.search("(?m)^he: AAAA: .*: half.zone$", probe.told))
        probe.must([row[0] for row in probe.rows()] == [FOUR] and "record lookup aaaa refused\n" in probe.record)
        absent = Probe("--resolver", names.at, "lacks.zone", port)
        absent.must(absent.status == 1 and re.search("(?m)^he: .*: lacks.zone$", absent.told))


def check_many():
    """512 addresses take no longer than their pace and one timeout, and none is left open."""
    timeout, pace, port = 1500, 4, unused_port()
    with tempfile.TemporaryFile("w+") as output:
        running = subprocess.Popen([HE, "probe", "--timeout", str(timeout), "--pace", str(pace), "--count", "2",
                                    "--interval", "3", "many.test", str(port)], stdout=output)
        most, began, ended = 0, time.monotonic(), None
        while running.poll() is None:
            time.sleep(0.05)
            try:
                count = len(os.listdir(f"/proc/{running.pid}/fd"))
            except OSError:
                break
            most = max(most, count)
            if output.tell() >= 0 and os.fstat(output.fileno()).st_size and ended is None:
                ended, left = time.monotonic() - began, count
        status = running.wait(TIMEOUT)
        output.seek(0)
        text = output.read()
    bound = (512 * pace + timeout) / 1000
    must(status == 3 and ended is not None, f"status {status}, {text[-500:]!r}")
    must(ended <= bound + 1.5, f"512 addresses took {ended:.1f} s, at most {bound}")
    must(left <= 8 < most, f"{left} descriptors left of {most}")
    lines = text.split("\n\n")[0].split("\n")
    must(len(lines) == 515 and lines[0].endswith(": 0 of 512 addresses connect"), len(lines), lines[0])
    must({line.split()[0] for line in lines[2:-1]} == set(MANY), "other addresses")


def check_rounds():
    """Each round has a block with its time, and the last a table by address; the file of records has all of them."""
    with serving(greet) as port:
        probe = Probe("--count", 3, "--interval", "100ms", "both.test", port)
        probe.must(probe.status == 4 and len(probe.blocks) == 4 and probe.seconds >= 0.2)
        for block in range(3):
            probe.must(re.match(r"\d{4}-\d\d-\d\dT[0-9:.]+Z both.test port ", probe.blocks[block][0]))
            probe.must([row[3] for row in probe.rows(block)] == ["refused", "connected"])
        cells = [re.split(" {2,}", line) for line in probe.blocks[3]]
        probe.must(cells[0] == "address,tries,connected,failed,no answer,min,median,max".split(","))
        probe.must(cells[1] == [SIX, "3", "0", "3", "0", "-", "-", "-"] and cells[2][:5] == [FOUR, "3", "3", "0", "0"])
        probe.must(probe.record.count("\nend\n") == 3 and probe.files == ["record"])
        output = Probe("--record", "-", "both.test", port, record=False)
        output.must(outcomes_in(output.output).keys() == {SIX, FOUR} and replayed(output.output))
        for words in [["--json"], ["--openmetrics"], ["-q"]]:
            refused = Probe("--record", "-", *words, "both.test", port, record=False)
            refused.must(refused.status == 2 and not refused.output)


def check_forms():
    """A round is an object, or metrics in seconds; each round has its own."""
    with serving(greet) as port:
        probe = Probe("--json", "--count", 2, "--interval", "1ms", "both.test", port)
        for line in probe.output.splitlines():
            found = json.loads(line)
            rows = [(row["address"], row["family"], row["outcome"]) for row in found["addresses"]]
            probe.must(rows == [(SIX, "IPv6", "refused"), (FOUR, "IPv4", "connected")] and found["connected"] == 1)
            probe.must(found["host"] == "both.test" and found["port"] == port and found["verdict"] == "IPv6 broken")
            probe.must(found["client"]["address"] == FOUR and 10 <= found["client"]["lost_ms"] < 240)
        probe.must(probe.output.count("\n") == 2)
        metrics = Probe("--openmetrics", "both.test", port)
    label = f'host="both.test",port="{port}"'
    for line in [f"he_probe_up{{{label}}} 1", f'he_probe_addresses{{{label},family="IPv6",outcome="refused"}} 1',
                 f'he_probe_addresses{{{label},family="IPv4",outcome="connected"}} 1', "# EOF"]:
        metrics.must(line in metrics.output.splitlines(), line)
    for name in ["he_probe_client_seconds", "he_probe_client_lost_seconds"]:
        metrics.must(re.search(rf"(?m)^{name}\{{{re.escape(label)}\}} 0\.0[1-3]\d$", metrics.output), name)
    metrics.must(re.search(rf'he_probe_address_seconds\{{{re.escape(label)},address="{FOUR}",family="IPv4",'
                           r'outcome="connected"\} 0\.00[1-9]\n', metrics.output))
    with serving(greet) as port, Zone(DEAD_SIX, FOUR) as names:
        slow = Probe("--openmetrics", "--timeout", 1000, "--resolver", names.at, "slow.zone", port)
    _, end, lost = client_in(slow.record)
    for name, ticks in [("he_probe_client_seconds", end), ("he_probe_client_lost_seconds", lost)]:
        slow.must(f'{name}{{host="slow.zone",port="{port}"}} {ticks / 1000:.3f}\n' in slow.output and ticks > 100, name)


def check_closed():
    """Where standard output is closed, a run ends with status 1, and nothing is printed; a signal ends rounds."""
    with serving(greet) as port:
        read, write = os.pipe()
        os.close(read)
        done = subprocess.run([HE, "probe", "--interval", "1ms", FOUR, str(port)], stdout=write, stderr=subprocess.PIPE,
                              timeout=TIMEOUT)
        os.close(write)
        must(done.returncode == 1 and not done.stderr, f"status {done.returncode}, {done.stderr!r}")
        running = subprocess.Popen([HE, "probe", "--interval", "1", FOUR, str(port)], stdout=subprocess.PIPE)
        line = running.stdout.readline()
        running.send_signal(signal.SIGINT)
        must(running.wait(TIMEOUT) and b"1 of 1 address connects" in line, line)
        running.stdout.close()


SETTINGS = ["attempt=10", "attempt=60", "attempt=100", "attempt=400", "attempt=700", "resolution=0", "resolution=200",
            "count=2", "count=3", "limit=200", "floor=50", "floor=250"]


def must_foretell(words):
    """A replay of the record with each setting has the attempts of a real connection with it, and so the winner."""
    probe = Probe(*words)
    probe.must(probe.status == 4)
    for setting in SETTINGS:
        replay = attempts_of(support.run(HE, "replay", "--set", setting, input=probe.record).stdout)
        real = support.run(HE, "connect", "-z", "--record", "-", "--set", setting, *words, timeout=TIMEOUT)
        told, raced = ([(ip, end) for _, ip, end in found] for found in (replay, attempts_of(replayed(real.stdout))))
        must(told == raced and told, f"{words} {setting}: by the record {told}, by a connection {raced}")


@timed
def check_what_if():
    """The record foretells real connections with other settings: of addresses that are silent, refuse and connect, and
    where the IPv6 answer is late."""
    with serving(greet) as port, Zone(DEAD_SIX, FOUR, late=0.03) as names:
        must_foretell(["what.test", port])
        must_foretell(["--resolver", names.at, "late.zone", port])
