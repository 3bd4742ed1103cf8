"""Runs races of a built program on real sockets, of this machine alone, and looks from the other side at what it did:
which address and port it dialled, by what order and floor, when its packets came, what waiting costs, with which
status it ends, and what it tells of failures. Each record is replayed, and must give its transcript.

needs: root to run races over IPv6 addresses, and to look at the times of packets
"""
import pathlib
import re
import signal
import socket
import statistics
import struct
import subprocess
import tempfile
import time
from contextlib import ExitStack, contextmanager, suppress

import support
from support import OPTIONS, NotTried, has_six, must, silent, timed, unused_port

HE = OPTIONS.program
SETUP, ANYWHERE = "ip link set lo up", True
LOOPBACK = "source 127.0.0.1/8 1\nroute 127.0.0.0/8 1\n"
PREFIX = "fd5c:a1ab:1e::"
MOST_WAITING_SECONDS = 0.020  # processor time of a race that waits for two seconds
THIRTY_LIMIT = 600  # milliseconds
MOST_BEHIND = 2.0  # milliseconds that the wire may be behind the record, after however many attempts
RUNS = 20  # races whose starts are looked at
DELAY = 50  # milliseconds from one start to the next, there
MOST_EARLY, MOST_LATE = 1.0, 5.0  # milliseconds, of each start and of the middle one

IPV4, TCP, SYN, ACK = 0x0800, 6, 2, 16
TIMESTAMPS = 35  # SO_TIMESTAMPNS: the system's time of each packet


def race_text(lines, version=1):
    return f"race {version}\n{lines}end\n"


class Run(support.Run):
    """A race of the program, which may have this many descriptors, with its processor time in seconds."""

    def __init__(self, text, port, *words, descriptors=None):
        before = support.seconds_of_children()
        bound = support.limit("NOFILE", descriptors)
        done = support.run(HE, "live", "--port", port, *words, input=text, preexec_fn=bound)
        self.seconds = support.seconds_of_children() - before
        transcript, *record = re.split("^(?=record |race [12]\n)", done.stdout, maxsplit=1, flags=re.M)
        super().__init__(done, transcript, "".join(record))
        replayed = support.run(HE, "replay", input=self.record)
        self.replays = replayed.returncode == 0 and replayed.stdout == self.transcript
        self.tried = [ip for _, ip, _ in self.attempts]

    def must(self, is_right, *told):
        """The race is right, has ended well, and its record replays."""
        must(is_right and self.status == 0 and self.replays, *told, self.status, self.told, repr(self.transcript))


@contextmanager
def listening(addresses):
    """Listeners at one port of each address, by address, and the port."""
    port, listeners = unused_port(addresses[0]), {}
    with ExitStack() as held:
        for address in addresses:
            listeners[address] = held.enter_context(support.listener_at(address, port))
        yield listeners, port


@contextmanager
def racing(text, port, bound=None):
    """A race under way, which begins by what is given, and an empty list; at the end the list has its output."""
    output = []
    pipes = {"stdin": subprocess.PIPE, "stdout": subprocess.PIPE, "text": True}
    with subprocess.Popen([HE, "live", "--port", str(port)], preexec_fn=bound, **pipes) as running:
        running.stdin.write(text)
        running.stdin.close()
        yield running, output
        output.append(running.stdout.read())


def peers(listener):
    """The addresses of all that connected."""
    listener.settimeout(0)
    found = []
    with suppress(BlockingIOError):
        while True:
            connection, peer = listener.accept()
            connection.close()
            found.append(peer[0])
    return found


def check_dialled():
    """Each race dials the address that it has, at the port that was given, and no other."""
    addresses = [f"127.0.0.{last}" for last in range(2, 7)]
    with listening(addresses) as (listeners, port):
        for address in addresses:
            run = Run(race_text(f"{LOOPBACK}aaaa 0 none\na 0 {address}\n"), port)
            came = {other: len(peers(listener)) for other, listener in listeners.items()}
            wanted = {other: int(other == address) for other in addresses}
            run.must(run.won == address and came == wanted, address, "connections", came)


@timed
def check_sixteen():
    """Sixteen addresses, of which the last listens: each is tried, at its delay, and the last wins."""
    addresses = [f"127.0.0.{last}" for last in range(1, 17)]
    with listening(addresses[-1:]) as (listeners, port):
        run = Run(race_text(f"set attempt 10\n{LOOPBACK}aaaa 0 none\na 0 {' '.join(addresses)}\n"), port)
        on_time = all(start >= 10 * place for place, (start, _, _) in enumerate(run.attempts))
        run.must(run.tried == addresses and run.won == addresses[-1] and on_time)
        must(len(peers(listeners[addresses[-1]])) == 1, "not one connection")


@timed
def check_most():
    """As many attempts as a race may have: those at a listener that takes no more wait to the limit; where descriptors
    are few, of which a waiting attempt has two, the attempts that get none fail, and the first of them is reported."""
    v4 = [f"127.0.1.{last}" for last in range(256)]
    v6 = [f"{PREFIX}{last:x}" for last in range(1, 257)] if has_six() else []
    answers = f"aaaa 0 {' '.join(v6) or 'none'}\na 0 {' '.join(v4)}\n"
    text = race_text(f"set attempt 10\nset limit 15000\n{LOOPBACK}{answers}")
    with silent("0.0.0.0") as (listener, _):
        for descriptors, wanted in ((None, []), (100, ["too many open files"])):
            run = Run(text, listener.getsockname()[1], descriptors=descriptors)
            waited = [ip for _, ip, end in run.attempts if end == "cancelled"]
            is_right = 25 < len(waited) <= descriptors // 2 if descriptors else set(v4) <= set(waited)
            told = [line.partition(" could not begin: ")[2] for line in run.told.splitlines()]
            run.must(len(run.tried) == len(v4) + len(v6) and is_right and told == wanted, len(waited), "waited:")


@timed
def check_floor():
    """Four addresses, of which the last listens: each that is refused lets the next start when the floor is over."""
    addresses = [f"127.0.0.{last}" for last in range(1, 5)]
    with listening(addresses[-1:]) as (_, port):
        lines = f"set attempt 2000\nset floor 10\n{LOOPBACK}aaaa 0 none\na 0 {' '.join(addresses)}\n"
        run = Run(race_text(lines, 2), port)
    starts = [start for start, _, _ in run.attempts]
    on_time = all(10 <= later - start < 2000 for start, later in zip(starts, starts[1:]))
    run.must(run.tried == addresses and run.won == addresses[-1] and on_time)


def check_known():
    """The history of addresses decides which one is dialled, and is in the record."""
    addresses = [f"127.0.0.{last}" for last in range(1, 4)]
    with listening(addresses) as (listeners, port):
        known = "rtt 127.0.0.2 80\nrtt 127.0.0.3 30\nused 127.0.0.1\n"
        lines = f"{LOOPBACK}aaaa 0 none\na 0 {' '.join(addresses)}\n{known}"
        run = Run(race_text(lines, 2), port)
        came = [len(peers(listeners[address])) for address in addresses]
    run.must(came == [0, 0, 1] and run.won == "127.0.0.3" and known in run.record, came, run.record)


# A run with descriptors from 10 up to this number only.
FEW = 'exec 3<&0 4<&0 5<&0 6<&0 7<&0 8<&0 9<&0; ulimit -n "$0"; exec "$@"'


def check_no_descriptor():
    """Where the event loop gets no descriptor, the message is that too many files are open."""
    text, told = race_text(f"{LOOPBACK}aaaa 0 none\na 0 127.0.0.1\n"), []
    for most in range(12, 20):
        done = support.run("sh", "-c", FEW, most, HE, "live", "--port", unused_port(), input=text)
        told += [done.stderr] * (done.returncode == 1)
    must(told and set(told) == {"he: too many open files\n"}, told)


def check_ipv6():
    """The third of four IPv6 addresses listens: it alone is connected to, from the host's source."""
    if not OPTIONS.inside or not has_six():
        raise NotTried("no network namespace can be made, or there is no IPv6")
    for last in (1, 2, 3, 4, 9):
        support.run("ip", "address", "add", f"{PREFIX}{last}/64", "dev", "lo", "nodad", check=True)
    addresses = [f"{PREFIX}{last}" for last in range(1, 5)]
    lines = f"set attempt 10\nsource {PREFIX}9/64 1\nroute {PREFIX}/64 1\naaaa 0 {' '.join(addresses)}\na 0 none\n"
    with listening(addresses[2:3]) as (listeners, port):
        run = Run(race_text(lines), port)
        came = peers(listeners[addresses[2]])
    run.must(run.tried == addresses[:3] and run.won == addresses[2] and len(came) == 1, "connections from", came)


def check_statuses():
    """With --must-connect the status tells that no connection was made."""
    text = race_text(f"{LOOPBACK}aaaa 0 none\na 0 127.0.0.1\n")
    with listening(["127.0.0.1"]) as (_, port):
        found = [Run(text, port, "--must-connect").status]
    found += [Run(*given).status for given in ((text, port, "--must-connect"), (text, port),
                                               (race_text("set limit 5\n"), port, "--must-connect"))]
    must(found == [0, 3, 0, 3], "statuses", found)


def check_told():
    """With -v each attempt that failed is reported with its reason; without it, only one that could not begin,
    and that once."""
    addresses = [f"127.0.0.{last}" for last in range(1, 4)]
    text = race_text(f"set attempt 10\n{LOOPBACK}aaaa 0 none\na 0 {' '.join(addresses)}\n")
    port = unused_port()
    wanted = [f"he: attempt {place} at {ip} failed: refused\n" for place, ip in enumerate(addresses, 1)]
    for words, told in (["-v"], "".join(wanted)), ([], ""):
        run = Run(text, port, *words)
        run.must(run.told == told, *words)


@timed
def check_waiting():
    """A race that waits for two seconds, for answers or for a connection, takes next to no processor time."""
    one = f"{LOOPBACK}aaaa 0 none\na 0 127.0.0.1\n"
    with silent("127.0.0.1") as (listener, _):
        for lines, wanted in ("", []), (one, ["cancelled"]):
            short, run = (Run(race_text(f"set limit {limit}\n{lines}"), listener.getsockname()[1])
                          for limit in (100, 2100))
            ends, used = [end for _, _, end in run.attempts], run.seconds - short.seconds
            run.must(ends == wanted and used < MOST_WAITING_SECONDS, f"{used * 1000:.1f} ms in two seconds")


def accept_for(listener, seconds, held):
    """Accepts whoever comes, for so long."""
    end = time.monotonic() + seconds
    with suppress(TimeoutError):
        while (left := end - time.monotonic()) > 0:
            listener.settimeout(left)
            held.enter_context(listener.accept()[0])


def check_files():
    """A race is that of the file which is named, or of standard input by `-`; one that is not there is a fault."""
    text = race_text(LOOPBACK + "aaaa 0 none\na 0 127.0.0.1\n")
    with tempfile.TemporaryDirectory() as folder, listening(["127.0.0.1"]) as (_, port):
        day, wrong, none = (f"{folder}/{name}" for name in ("day", "wrong", "none"))
        pathlib.Path(day).write_text(text)
        pathlib.Path(wrong).write_text("race 1\nset attempt 5\nend\n")
        for words, given, status, told in [
            ([day], "", 0, ""), ([day], "no race\n", 0, ""), (["-"], text, 0, ""), ([], text, 0, ""),
            ([wrong], text, 1, f"he: {wrong}: line 2: range\n"), ([none], text, 1, f"he: {none}: "),
            ([day, day], "", 2, "he: unexpected argument "),
        ]:
            run = Run(given, port, "--must-connect", *words)
            is_right = run.won == "127.0.0.1" and run.replays if status == 0 else not run.transcript
            must(run.status == status and is_right and run.told.startswith(told),
                 words, run.status, run.told, repr(run.transcript))


def waiting_at(port):
    """How many connections to the port, of all programs, are asked for and not made."""
    return support.in_tcp_table(port, "02", 2)


@contextmanager
def racing_full(lines, address):
    """A race at a listener that takes a connection only when the system asks again, a second after the start, once its
    first connection is asked for: the running program, its output once it has ended, and what accepts for so long."""
    with silent(address) as (listener, held):
        port = listener.getsockname()[1]
        before = waiting_at(port)
        with racing(race_text(lines), port) as (running, output):
            support.comes(lambda: waiting_at(port) > before, 10)
            yield running, output, lambda seconds: accept_for(listener, seconds, held)


@timed
def check_seen():
    """A connection that is made while nothing is due is seen then: the listener takes it a second after the
    start, and the race would end two seconds later."""
    with racing_full(f"set limit 3000\n{LOOPBACK}aaaa 0 none\na 0 127.0.0.1\n", "127.0.0.1") as (_, output, accept):
        accept(1.5)
    found = re.match(r"attempt 0 \d+ 127.0.0.1 won (\d+)\n", output[0])
    must(found and 900 < int(found[1]) < 2000, output)


@timed
def check_stopped():
    """A program that is stopped over a due start (900 ms later), while its first connection is made, makes no
    second attempt."""
    lines = f"set attempt 900\n{LOOPBACK}aaaa 0 none\na 0 127.0.0.1 127.0.0.2\n"
    with racing_full(lines, "0.0.0.0") as (running, output, accept):
        running.send_signal(signal.SIGSTOP)
        accept(1.7)
        running.send_signal(signal.SIGCONT)
    attempts = re.findall(r"^attempt \d+ (\d+) (\S+) (\w+) (\d+)", output[0], re.M)
    must([one[1:3] for one in attempts] == [("127.0.0.1", "won")] and int(attempts[0][3]) > 1000, output)


def syns(sniffer, port, count):
    """The times at which a SYN to the port was seen, by its address, up to this many addresses, or for five seconds."""
    found, end = {}, time.monotonic() + 5
    with suppress(TimeoutError):
        while len(found) < count and (left := end - time.monotonic()) > 0:
            sniffer.settimeout(left)
            packet, notes, _, _ = sniffer.recvmsg(256, 256)
            segment = packet[4 * (packet[0] & 15):]
            if packet[9] != TCP or len(segment) < 14 or segment[13] & (SYN | ACK) != SYN:
                continue
            if struct.unpack_from("!H", segment, 2)[0] == port:
                whole, nanos = struct.unpack("qq", notes[0][2])
                found.setdefault(socket.inet_ntoa(packet[16:20]), whole + nanos / 1e9)
    return found


@contextmanager
def sniffing():
    """A socket that sees each packet of loopback, with its time."""
    with socket.socket(socket.AF_PACKET, socket.SOCK_DGRAM, socket.htons(IPV4)) as sniffer:
        sniffer.bind(("lo", 0))
        sniffer.setsockopt(socket.SOL_SOCKET, TIMESTAMPS, 1)
        yield sniffer


@timed
def check_times():
    """Five attempts start when they are due, and are seen on the wire when their record has them: none is earlier than
    its tick after the program's own start; in the middle none is late, by the record or after it."""
    addresses = [f"127.0.0.{last}" for last in range(2, 7)]
    text = race_text(f"set attempt {DELAY}\n{LOOPBACK}aaaa 0 none\na 0 {' '.join(addresses)}\n")
    early, late, behind = [], [], []
    with sniffing() as sniffer:
        for _ in range(RUNS):
            port = unused_port()
            began = time.time()
            with racing(text, port) as (_, output):
                seen = syns(sniffer, port, len(addresses))
            starts = {ip: start for start, ip, _ in support.attempts_of(output[0])}
            must(sorted(seen) == sorted(starts) == addresses, output, "seen", sorted(seen))
            wire = [1000 * (seen[ip] - began) - starts[ip] for ip in addresses]
            early.append(min(wire))
            behind += [at - min(wire) for at in wire]
            late += [starts[ip] - starts[before] - DELAY for before, ip in zip(addresses, addresses[1:])]
    earliest, middle, tick = min(early), statistics.median(behind), statistics.median(late)
    print(f"    the first {earliest:.2f} ms after the program's start; the middle one {tick:.0f} ms late, and seen "
          f"{middle:.2f} ms after its tick")
    is_right = -earliest <= MOST_EARLY and middle <= MOST_LATE and 0 <= min(late) and tick <= MOST_LATE
    must(is_right, "too early or too late: gaps from", min(late), "ms")


@timed
def check_thirty():
    """Thirty silent addresses, ten milliseconds apart: the last attempt is on the wire at its tick, and the race ends
    when its record says so. Where no other program is let before it, there is no pause."""
    addresses = [f"127.0.0.{last}" for last in range(2, 32)]
    text = race_text(f"set attempt 10\nset limit {THIRTY_LIMIT}\n{LOOPBACK}aaaa 0 none\na 0 {' '.join(addresses)}\n")
    behind, ended, pauses = [], [], []
    with silent("0.0.0.0") as (listener, _), sniffing() as sniffer:
        port = listener.getsockname()[1]
        for _ in range(5):
            with racing(text, port, support.first_of_all) as (_, output):
                seen = syns(sniffer, port, len(addresses))
            over, starts = time.time(), {ip: start for start, ip, _ in support.attempts_of(output[0])}
            must(sorted(seen) == sorted(starts) == sorted(addresses), starts, "seen", sorted(seen))
            first, last = addresses[0], addresses[-1]
            behind.append(1000 * (seen[last] - seen[first]) - starts[last] + starts[first])
            ended.append(1000 * (over - seen[first]) + starts[first] - THIRTY_LIMIT)
            pauses.append(output[0].count("\npause "))
    print(f"    the thirtieth {statistics.median(behind):.2f} ms behind its record, the end {min(ended):.1f}")
    is_right = -MOST_BEHIND <= min(behind) and max(behind) <= MOST_BEHIND and min(ended) <= 2 * MOST_LATE
    must(is_right and 0 in pauses, "behind", behind, "ended", ended, "pauses", pauses)
