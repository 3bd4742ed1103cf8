"""Connects by a built program's `he connect`, in a network of its own, and looks at what comes of it: which address it
takes and when, what it tells, its status and its record.

needs: dnsmasq, to look names up there; strace and valgrind, to count calls and instructions. With --full it makes 1,000
connections under faults.
"""
import contextlib
import datetime
import json
import os
import pathlib
import random
import re
import socket
import statistics
import subprocess
import tempfile
import time

import support
from support import (A, AAAA, DEAD_FOUR, DEAD_SIX, FOUR, OPTIONS, REFUSED, SERVFAIL, SIX, TIMEOUT, WIDE_FOUR, NotTried,
                     Zone, answer_digest, digest_of, greet, must, needs, replayed, serving, silent, timed, unused_port)

HE, IS_FULL = OPTIONS.program, OPTIONS.full
NEAR, ON_LINK = "fe80::1e:1", "fe80::1e:2"  # link-local addresses of this machine, on the ends of its link
# The file of services, and the port over TCP that it gives a service.
SERVICE_PORT = 7007
SERVICES = f"""\
# a file of services
datagrams {SERVICE_PORT}/udp
he-test {SERVICE_PORT}/udp
he-test {SERVICE_PORT}/tcp # as of RFC 6335
second-name-too {SERVICE_PORT}/tcp first other
he-test 7008/tcp
"""
SETUP = support.NETWORK + support.file_of_etc("services", SERVICES)
DOWN = "127.0.0.99:53"  # where no name server is


class Run(support.Run):
    """A run of `he connect`, with its output and how long it took in seconds."""

    def __init__(self, *words, given=b"", replays=True, bound=None):
        with tempfile.TemporaryDirectory() as folder:
            record = pathlib.Path(folder, "record")
            self.began, began = time.time(), time.monotonic()
            done = support.run(HE, "connect", "--record", record, *words, input=given, timeout=TIMEOUT,
                               preexec_fn=bound)
            self.seconds = time.monotonic() - began
            text = record.read_text() if record.exists() else ""
        super().__init__(done, replayed(text) if replays else "", text)
        self.words, self.output, self.told = words, done.stdout, done.stderr.decode()

    def lines(self):
        """The sources and routes of its record."""
        return re.findall("(?m)^(?:source|route) .*$", self.record)

    def must_say(self, *wanted, status=3):
        """Its record lines are the time of tick 0 and these, each a pattern; the record passes `he check`, and replays
        as the race without them does."""
        first, *said = re.findall("(?m)^record (.*)$", self.record)
        race = re.sub("(?m)^record .*\n", "", self.record)
        began = re.fullmatch(r"at (\d{4}-\d\d-\d\dT\d\d:\d\d:\d\d\.\d{3})Z", first)
        at = began and datetime.datetime.fromisoformat(f"{began[1]}+00:00").timestamp()
        is_right = at and self.began - 0.01 <= at <= self.began + self.seconds and len(said) == len(wanted)
        is_right = is_right and all(map(re.fullmatch, wanted, said)) and self.record.startswith("record at ")
        checked = support.run(HE, "check", input=self.record)
        is_right = is_right and checked.returncode == 0 and replayed(race) == replayed(self.record)
        must(is_right and self.status == status, *self.words, f"status {self.status},", first, said, checked.stderr,
             self.told)

    def must(self, is_right=True, status=0, told=None, **more):
        """Reports the run if something is wrong: the subject, its status, what it printed (a pattern), or more of
        it, as its output or the address that won."""
        is_right = is_right and self.status == status and (told is None or re.fullmatch(told, self.told, re.S))
        is_right = is_right and all(getattr(self, what) == wanted for what, wanted in more.items())
        told = f"{self.output[:200]!r}, {self.told!r}, {self.transcript!r}, {self.lines()}"
        must(is_right, *self.words, f"status {self.status}, {told}")


def started(*words, **pipes):
    pipes = {"stdin": subprocess.PIPE, "stdout": subprocess.PIPE, "stderr": subprocess.PIPE, **pipes}
    return subprocess.Popen([HE, "connect", *map(str, words)], **pipes)


def check_takes():
    """The address that answers is taken, in the order of RFC 6724, and each record replays."""
    for address, host, wanted in support.TAKEN:
        with serving(greet, address) as port:
            Run(host, port).must(output=b"hello\n", won=wanted)


@timed
def check_times():
    """After a silent address the next starts at the attempt delay, after one that is refused at the floor."""
    with serving(greet) as port:
        for words, wanted in [(["dead6.test"], 250), (["both.test"], 10), (["--set", "attempt=100", "dead6.test"], 100),
                              (["--set", "floor=250", "both.test"], 250)]:
            run = Run("-z", *words, port)
            run.must(wanted <= run.attempts[-1][0] <= wanted + 20)


def check_ports():
    """A port is a number, or a service over TCP of the file of services; any other word is a wrong line."""
    if not os.path.exists("/etc/services"):
        raise NotTried("no /etc/services")
    words = dict.fromkeys(["0", "00", "65536", "065536", "+", "++7007", "7007/tcp", "he_test", "he--test", "test-",
                           "a-sixteen-letter", ""], "he: invalid value for PORT: .*")
    words |= {word: f"he: no such service: {word}\n" for word in ("datagrams", "htps", "HE-TEST")}
    words |= dict.fromkeys([str(SERVICE_PORT), f"0{SERVICE_PORT}", f"+{SERVICE_PORT}", "he-test", "second-name-too",
                            "other"], "")
    with serving(greet, port=SERVICE_PORT):
        for word, told in words.items():
            run = Run("-z", FOUR, word, replays=not told)
            run.must(not (told and run.record), 2 if told else 0, told, won=None if told else FOUR)
        text = f"race 1\nsource 127.0.0.1/8 1\nroute 127.0.0.0/8 1\naaaa 0 none\na 0 {FOUR}\nend\n"
        for word, status in [("he-test", 0), ("htps", 2)]:
            done = support.run(HE, "live", "--must-connect", "--port", word, input=text)
            must(done.returncode == status and not (status and done.stdout), "live", word, done.returncode, done.stderr)


def check_families():
    """-4 and -6 try one family alone."""
    with serving(greet) as port:
        for word, ip, status in [("-4", FOUR, 0), ("-6", SIX, 3)]:
            run = Run(word, "both.test", port)
            run.must([tried for _, tried, _ in run.attempts] == [ip], status)


@timed
def check_told():
    """Where nothing connects, one line says what was tried, and the status is 3; other faults have 1 and 2."""
    port, dead = unused_port(), unused_port()
    start = f"he: no connection to {{}} port {port}: "
    dead_start = f"he: no connection to dead.test port {dead}: "
    with silent(DEAD_SIX, dead), silent(DEAD_FOUR, dead):
        for words, status, told in [
            ([FOUR, port], 3, start.format(FOUR) + rf"1 address tried: {FOUR} refused after \d+ ms\n"),
            (["both.test", port], 3,
             start.format("both.test") + rf"2 addresses tried: {SIX} refused after \d+ ms, {FOUR} refused .* ms\n"),
            (["--timeout", 600, "dead.test", dead], 3,
             dead_start + rf"2 addresses tried: {DEAD_SIX} no answer in \d+ ms, {DEAD_FOUR} no answer in \d+ ms\n"),
            (["-4", SIX, port], 3, f"he: {SIX} is an IPv6 address, but -4 was given\n"),
            (["--resolver", "system", "no.such.name.test", port], 1, "he: [^\n]*\n"),
            (["--machine", "/no/such/file", FOUR, port], 1,
             "he: cannot read the --machine file: No such file [^\n]*: /no/such/file\n"),
        ]:
            Run(*words).must(status=status, told=told)
    for words in [["--set", "attempt=5"], ["--set", "speed=1"], ["--timeout", "0"], ["-4", "-6"]]:
        Run(*words, FOUR, port, replays=False).must(status=2, told=".+")


def check_link_local():
    """A link-local address is connected to over the interface beside it, by its name or its number, and from
    the source that the kernel takes there; the race has the address alone and replays. An interface that does not
    lead to it, one that is not there, and none are reported."""
    add = "".join(f"ip address add {ip}/64 dev {link} nodad\n" for ip, link in ((NEAR, "here"), (ON_LINK, "there")))
    remove = add.replace(" add ", " del ").replace(" nodad", "")
    with made(add, remove), serving(greet, ON_LINK, socket.if_nametoindex("there")) as port:
        for zone in ["here", socket.if_nametoindex("here")]:
            run = Run(f"{ON_LINK}%{zone}", port)
            is_right = re.fullmatch(rf"source fe80::\S+/64 1 route {ON_LINK}/128 1", " ".join(run.lines()))
            is_asked = f"record to {ON_LINK}%{zone} {port}\n" in run.record
            run.must(is_right and is_asked and "%" not in race_of(run.record), output=b"hello\n", won=ON_LINK)
        start = f"he: no connection to {ON_LINK}%{{}} port {port}: 1 address tried: {ON_LINK} "
        end = r"(network unreachable|address not available) after \d+ ms\n"
        for host, status, told in [
            (f"{ON_LINK}%lo", 3, start.format("lo") + end), (f"{ON_LINK}%9999", 3, start.format("9999") + end),
            (f"{ON_LINK}%absent", 1, f"he: not an interface after '%': {ON_LINK}%absent\n"),
            (ON_LINK, 1, f"he: a link-local address needs its interface: {ON_LINK}%eth0[^\n]*\n"),
        ]:
            Run(host, port, replays=status == 3).must(status=status, told=told)


@contextlib.contextmanager
def made(lines, undone):
    """A network that lines of sh make, and other lines take away."""
    needs("ip")
    done = support.run("sh", "-ec", lines)
    try:
        if done.returncode != 0:
            raise NotTried(f"no such network: {done.stderr.strip()}")
        yield
    finally:
        support.run("sh", "-c", undone)


REJECTED = "10.77.0.9"
# A firewall of this machine's own, whose ICMP error comes while connect(2) runs.
FIREWALL = f"""
nft add table inet he
nft 'add chain inet he out {{ type filter hook output priority 0; }}'
nft add rule inet he out ip daddr {REJECTED} tcp dport 1-65535 reject
nft add rule inet he out ip6 daddr {SIX} tcp dport 1-65535 reject
"""
MOST_REJECTED = 0.050  # seconds that an address may cost which is rejected, and of processor time
MOST_WAITING = 0.020  # seconds of processor time of a race that waits for two seconds
MOST_CALLS, MOST_INSTRUCTIONS = 60, 700_000  # of a connection to an address of this machine
MOST_QUICK = 0.03  # seconds from the start of the program to the end of a connection that waits for nothing


def used_by(*words):
    """A run, and its processor time in seconds."""
    before = support.seconds_of_children()
    run = Run("-z", *words, bound=support.first_of_all)
    return run, support.seconds_of_children() - before


def least_of(*words, ends, status):
    """The least of three runs with these ends of its attempts: the time and the processor time in seconds,
    and the ticks from its first attempt to the failure of that and to the last attempt."""
    found = []
    for _ in range(3):
        run, used = used_by(*words)
        run.must([end for _, _, end in run.attempts] == ends, status)
        begun, ended = map(int, re.search(r"attempt 0 (\d+) \S+ \w+ (\d+)\n", run.transcript).groups())
        found.append((run.seconds, used, ended - begun, run.attempts[-1][0] - begun))
    return map(min, zip(*found))


@timed
def check_rejected():
    """An address that this machine's own firewall rejects fails at once, by the clock and by its record, and the next
    starts at the floor."""
    needs("nft")
    with made(FIREWALL, "nft delete table inet he"), serving(greet) as port:
        own, own_used, *_ = least_of(FOUR, port, ends=["won"], status=0)
        for host, status, ends in [(REJECTED, 3, ["failed"]), (SIX, 3, ["failed"]),
                                   ("both.test", 0, ["failed", "won"])]:
            seconds, used, failed, last = least_of(host, port, ends=ends, status=status)
            is_cheap = max(seconds - own, used - own_used) <= MOST_REJECTED
            must(failed <= 2 and last <= 12 and is_cheap, f"{host}: failed after {failed} ticks, the last attempt after {last};",
                 f"{1000 * (seconds - own):.0f} ms more, {1000 * (used - own_used):.1f} of the processor")


@timed
def check_waiting():
    """A race that waits two seconds for a connection takes next to no processor time."""
    with serving(greet) as port:
        (_, short), (run, long) = (used_by("--timeout", ms, DEAD_FOUR, port) for ms in (100, 2100))
        run.must(status=3)
        must(long - short < MOST_WAITING, f"{(long - short) * 1000:.1f} ms in two seconds")


ROUTER = """
ip netns add router
ip link add toward type veth peer name back netns router
ip address add 192.0.2.1/24 dev toward
ip address add 2001:db8:66::1/64 dev toward nodad
ip link set toward up
ip -n router address add 192.0.2.2/24 dev back
ip -n router address add 2001:db8:66::2/64 dev back nodad
ip -n router link set back up
ip netns exec router sh -c 'echo 1 > /proc/sys/net/ipv4/ip_forward; echo 1 > /proc/sys/net/ipv6/conf/all/forwarding'
ip -n router route add unreachable 198.51.100.0/24
ip -n router route add prohibit 2001:db8:77::/64
ip -n router route add unreachable 2001:db8:78::/64
ip route add 198.51.100.0/24 via 192.0.2.2
ip route add 2001:db8:77::/64 via 2001:db8:66::2
ip route add 2001:db8:78::/64 via 2001:db8:66::2
ip route add prohibit 203.0.113.0/24
"""


def check_reasons():
    """A word says why an attempt failed: what a router prohibits or cannot reach is no fault of this machine."""
    with made(ROUTER, "ip netns del router; ip route del prohibit 203.0.113.0/24"):
        for host, word, said in [
            (FOUR, "refused", "refused"), ("198.51.100.7", "unreachable", "unreachable"),
            ("2001:db8:78::7", "network unreachable", "unreachable"), ("2001:db8:77::7", "prohibited", "forbidden"),
            ("203.0.113.7", "prohibited", "forbidden"),
        ]:
            port = unused_port()
            run = Run(host, port)
            run.must(re.search(rf": {re.escape(host)} {word} after \d+ ms\n", run.told), 3)
            run.must_say(f"to {host} {port}", f"attempt {host} {said}")
            race = "race 2\n" + re.search(r"(?s)\n((?:source|aaaa) .*end\n)", run.record)[1]
            for words, told in [([], ""), (["-v"], f"he: attempt 1 at {host} failed: {word}\n")]:
                live = support.run(HE, "live", "--port", "9", *words, input=race)
                must(live.stderr == told, f"he live to {host}", *words, repr(live.stderr), repr(race))
                lines = re.findall("(?m)^record (?!at ).*$", live.stdout)
                must(lines == [f"record attempt {host} {said}"], f"he live to {host}", repr(live.stdout))


POLICY_ROUTING = """
ip link add wan type veth peer name provider
ip link add wg type veth peer name tunnel
ip address add 192.168.77.23/24 dev wan
ip address add 10.8.0.2/32 dev wg
for link in wan provider wg tunnel; do ip link set $link up; done
ip route add default via 192.168.77.1
ip route add default dev wg table 51820
ip rule add not fwmark 51820 table 51820
ip rule add table main suppress_prefixlength 0
ip route add 203.0.113.0/24 dev wan src 10.8.0.2
ip route add default via 192.168.77.1 table 51821
ip rule add to 198.51.100.77/32 table 51821
"""
NO_POLICY_ROUTING = """
ip rule del table 51821
ip rule del table main suppress_prefixlength 0
ip rule del table 51820
ip link del wan
ip link del wg
"""


@timed
def check_policy_routing():
    """With rules as wg-quick makes them, and one for a single address, the lines of an address, and of each address of
    a name, which come with it, have the source that the kernel takes, one of IPv4 with the length of its network where
    there are two IPv4 addresses to compare; `he host` tells the table that it does not see.
    """
    wan, wg = "192.168.77.23/32", "10.8.0.2/32"
    sources = {"198.51.100.9": wg, "192.168.77.9": wan, "203.0.113.9": wg, "198.51.100.77": wan, FOUR: f"{FOUR}/32",
               SIX: f"{SIX}/64"}

    def tries(words, host, addresses, interfaces):
        run = Run("--timeout", 400, "-z", *words, host, 9)
        wanted = [f"source {sources[ip]} {number}" for ip, number in zip(addresses, interfaces)]
        wanted += [f"route {ip}/{128 if ':' in ip else 32} {number}" for ip, number in zip(addresses, interfaces)]
        run.must(sorted(run.lines()) == sorted(wanted) and "is reached from" not in run.told, run.status)

    with made(POLICY_ROUTING, NO_POLICY_ROUTING):
        for host in sources:
            tries([], host, [host], [1])
        tries([], "far.test", ["198.51.100.9"], [1])
        tries([], "2001:db8:5::1", [], [])
        for six, four in [*((None, four) for four in list(sources)[:4]), (SIX, "198.51.100.77")]:
            with Zone(*filter(None, (six, four))) as names:
                tries(["--resolver", names.at], "some.zone", [four, *([six] if six else [])], [2, 1])
        with Zone("192.168.77.9", "198.51.100.77") as names:
            two = Run("--timeout", 400, "-z", "--resolver", names.at, "two.zone", 9)
            two.must("source 192.168.77.23/24 2" in two.lines(), two.status)
        told = support.run(HE, "host").stderr
        must("he: not included: the IPv4 routes of table 51820, " in told, f"he host: {told!r}")


WAN = "ip link add wan type veth peer name provider; ip address add 192.168.77.23/24 dev wan; ip link set wan up"


@timed
def check_many_routes():
    """However many routes there are, to connect to an address or to a name takes no longer."""
    count = 80_000 if IS_FULL else 20_000
    routes = "".join(f"route add 10.{n >> 8 & 255}.{n & 255}.{(n >> 16) << 6}/26 dev wan\n" for n in range(count))
    with made(f"{WAN}; ip link set provider up", "ip link del wan"), Zone() as names, serving(greet) as port:
        def least(*words):
            return 1000 * min(Run("-z", *words, port, replays=False).seconds for _ in range(20))

        words = {FOUR: [FOUR], "a name": ["--resolver", names.at, "both.zone"]}
        few = {what: least(*line) for what, line in words.items()}
        subprocess.run(["ip", "-batch", "-"], input=routes, text=True, check=True)
        many = {what: least(*line) for what, line in words.items()}
    for what in words:
        print(f"    {what}: {few[what]:.1f} ms in all, {many[what]:.1f} ms with {count} routes")
        must(many[what] < few[what] + 20, "more than 20 ms longer")


@timed
def check_late():
    """Where the AAAA answer is late, the IPv4 address is tried when the Resolution Delay is over, and not before; with
    -6 the late answer is waited for."""
    with Zone(late=0.3) as names, serving(greet) as port:
        run, six = Run("--resolver", names.at, "late.test", port), Run("-6", "--resolver", names.at, "late.test", port)
    at, ip, _ = run.attempts[0]
    run.must(50 <= at < 250 and ip == FOUR, output=b"hello\n", won=FOUR)
    at, ip, _ = six.attempts[0]
    six.must(300 <= at < 500 and ip == SIX, 3)


def check_unused_family():
    """A family of which this machine has no address beyond the local link is not asked for, and that is reported; a
    name of the file of hosts has both all the same."""
    line = "he: 0 ms: A not asked: this machine has no IPv4 address or route beyond the local link\n"
    with Zone() as names, serving(greet) as port:
        both = Run("--resolver", names.at, "both.zone", port)
        asked = names.kinds()
        names.seen.clear()
        with made(f"ip address del {WIDE_FOUR}/24 dev here", f"ip address add {WIDE_FOUR}/24 dev here"):
            six = Run("-v", "--resolver", names.at, "both.zone", port)
            told = Run("--explain", "--resolver", names.at, "both.zone", port).told
            known, literal = Run("-z", "both.test", port), Run("-z", FOUR, port)
    must((asked, names.kinds()) == ({A, AAAA}, {AAAA}), f"asked for {asked}, and without IPv4 for {names.kinds()}")
    six.must("\na 0 none\n" in six.record and line in six.told, six.status)
    must(line in told, f"--explain {told!r}")
    both.must(line not in both.told, won=FOUR)
    for run in (known, literal):
        run.must(won=FOUR)


def check_no_network():
    """Where the network of an address isn't reached, and this machine has no way for its family, a line says so."""
    line = "he: this machine has no IPv4 address or route beyond the local link\n"
    with made(f"ip address del {WIDE_FOUR}/24 dev here", f"ip address add {WIDE_FOUR}/24 dev here"):
        lost, refused = Run("198.51.100.7", 9), Run(FOUR, unused_port())
    lost.must(re.search(rf" network unreachable after \d+ ms\n{line}$", lost.told), 3)
    refused.must(line not in refused.told, 3)


@timed
def check_no_time():
    """An address that came, and at which no attempt began before the timeout, is no address that did not come."""
    with Zone(late=0.3) as names:
        run = Run("--timeout", "30ms", "--resolver", names.at, "late.test", 9)
    run.must(status=3, told="he: no connection to late.test port 9: no attempt began in 30 ms\n")


def traced(*words, only="", inject=""):
    """The calls of a run of `he connect` with this fault, by strace, its status, and what it printed."""
    needs("strace")
    with tempfile.NamedTemporaryFile("r") as calls:
        trace = ["strace", "-f", "-qq", "-o", calls.name, *only.split(), *(["-e", f"inject={inject}"] if inject else [])]
        done = support.run(*trace, HE, "connect", *words, timeout=TIMEOUT)
        return calls.read(), done.returncode, re.sub("(?m)^strace: .*\n", "", done.stderr)


def check_few_calls():
    """A connection to an address takes few system calls, but for those that get memory, after the program's start. Few
    sockets are made before it: no length of a network is looked for."""
    with serving(greet) as port:
        calls, status, told = traced("-z", FOUR, port, only=f"-e trace=!{support.MEMORY}")
    lines = calls.splitlines()
    begins = max(place for place, line in enumerate(lines) if support.STARTING.search(line)) + 1
    own = re.findall(r"(?m)^\d+ +(\w+)\(", "\n".join(lines[begins:]))
    is_right = status == 0 and calls.count("SOCK_DGRAM") <= 2 and len(own) <= MOST_CALLS
    must(is_right, f"status {status}, {told!r}, {len(own)} calls:", *own)


def check_few_instructions():
    """It takes few instructions, most of them to start the program and to read its words."""
    needs("valgrind")
    with serving(greet) as port:
        counting = ["valgrind", "--tool=callgrind", "--callgrind-out-file=/dev/null"]
        done = support.run(*counting, HE, "connect", "-z", FOUR, port)
    count = re.search(r"Collected : (\d+)", done.stderr)
    if done.returncode != 0 or not count:
        raise NotTried("valgrind doesn't run this program")
    print(f"    {count[1]} instructions")
    must(int(count[1]) <= MOST_INSTRUCTIONS, count[1], "instructions")


def check_unread():
    """A file of this machine that is there and can't be read is reported, and so is a fault of the sockets; nothing is
    reported of a file that isn't there."""
    line = r"he: cannot read /proc/net/if_inet6: {}[^\n]*\n"
    file = "-P /proc/net/if_inet6"
    with serving(greet, SIX) as port:
        for fault, wanted in [("EMFILE", line.format("Too many open files")), ("ENOENT", ""),
                              ("EACCES", line.format("Permission denied"))]:
            _, status, told = traced("-z", SIX, port, only=file, inject=f"openat:error={fault}")
            must(status == 0 and re.fullmatch(wanted, told), fault, status, told)
        _, status, told = traced("-z", SIX, port, inject="epoll_create1:error=EMFILE")
        must((status, told) == (1, "he: too many open files\n"), status, told)


def check_failed_family():
    """Where nothing connects, the line says which family's look-up failed; a name without addresses of the family that
    is asked for alone is no connection."""
    port, at = unused_port(), re.escape(FOUR)
    with Zone(six_code=SERVFAIL) as fails, Zone(FOUR) as four:
        failing, lacking = ("--resolver", fails.at, "half.zone", port), ("--resolver", four.at, "four.zone", port)
        told = (f"he: no connection to half.zone port {port}: 1 address tried: {FOUR} refused after \\d+ ms; AAAA: "
                "[^\n]*\n")
        Run(*failing).must(status=3, told=told)
        Run("-v", "-4", *failing).must(status=3, told=r"he: 0 ms: AAAA not asked \(-4\)\n.*")
        told = (rf"he: \d+ ms: AAAA: SERVFAIL from {at}[^\n]*\nhe: \d+ ms: A answer: 1 address from {at}[^\n]*\n"
                rf"he: \d+ ms: attempt 1 at {at} begins\nhe: \d+ ms: attempt 1 at {at} failed: refused\n.*")
        Run("-v", *failing).must(status=3, told=told)
        absent = Run(*lacking)
        absent.must("AAAA: " not in absent.told, 3)
        Run("-6", *lacking).must(status=3, told="he: four.zone has no IPv6 address\n")


def check_said_of_names():
    """Record lines say why a family has no address, and which name server gave no answer, after how long."""
    port, ms = unused_port(), r"\d{1,3}"
    refused = f"attempt {FOUR} refused"
    with Zone(six_code=SERVFAIL) as fails, Zone(six_code=REFUSED) as refuses, Zone(FOUR) as four, Zone(SIX) as six:
        for zone, host, wanted in [
            (fails, "half.zone", ["lookup aaaa failed", f"server {FOUR} failed {ms}", refused]),
            (refuses, "half.zone", ["lookup aaaa refused", f"server {FOUR} refused {ms}", refused]),
            (four, "four.zone", ["lookup aaaa no-address", refused]),
        ]:
            Run("--resolver", zone.at, host, port).must_say(f"to {host} {port}", *wanted)
        four_only = Run("-4", "--resolver", fails.at, "half.zone", port)
        four_only.must_say(f"to half.zone {port}", "lookup aaaa not-asked", refused)
        lacks = Run("--resolver", four.at, "lacks.zone", port, replays=False)
        lacks.must_say(f"to lacks.zone {port}", "lookup aaaa no-such-name", "lookup a no-such-name", status=1)
        Run("--resolver", six.at, "six.zone", port).must_say(
            f"to six.zone {port}", "lookup a no-address", f"attempt {SIX} refused")
    down = Run("--resolver", DOWN, "both.zone", port, replays=False)
    nothing = [f"to both.zone {port}", "lookup aaaa no-answer", "lookup a no-answer"]
    down.must_say(*nothing, f"server 127.0.0.99 unreachable {ms}", status=1)
    with socket.socket(socket.AF_INET, socket.SOCK_DGRAM) as nobody:
        nobody.bind(("127.0.0.98", 0))
        at = f"127.0.0.98:{nobody.getsockname()[1]}"
        dead = Run("--resolver", at, "both.zone", port, replays=False, bound=once)
    dead.must_say(*nothing, r"server 127\.0\.0\.98 silent 1[0-3]\d\d", status=1)


def once():
    """A name server is asked once, for a second."""
    os.environ["RES_OPTIONS"] = "timeout:1 attempts:1"


FORBIDS = "reject with icmpv6 admin-prohibited"
SYN_RETRIES = "/proc/sys/net/ipv4/tcp_syn_retries"


def check_said_of_attempts():
    """Record lines say why each attempt failed that did, and nothing of one that was cancelled or won."""
    needs("nft")
    forbids = FIREWALL + f"nft add rule inet he out ip6 daddr {DEAD_SIX} tcp dport 1-65535 {FORBIDS}\n"
    with serving(greet) as port, made(forbids, "nft delete table inet he"):
        Run(REJECTED, port).must_say(rf"to 10\.77\.0\.9 {port}", r"attempt 10\.77\.0\.9 refused")
        Run("dead6.test", port).must_say(f"to dead6.test {port}", f"attempt {DEAD_SIX} forbidden", status=0)
        Run("both.test", port).must_say(f"to both.test {port}", f"attempt {SIX} refused", status=0)
    with serving(greet) as port:
        Run("--timeout", 400, "dead.test", port).must_say(f"to dead.test {port}")
        retries = pathlib.Path(SYN_RETRIES)
        before = retries.read_text()
        retries.write_text("1")
        try:
            Run(DEAD_FOUR, port).must_say(rf"to 127\.0\.0\.9 {port}", r"attempt 127\.0\.0\.9 timed-out")
        finally:
            retries.write_text(before)


def check_dnsmasq():
    """Names of a name server: an alias, one of a single family, one that isn't there, and a server that is down."""
    records = [f"--host-record=both.zone,{FOUR},{SIX}", f"--host-record=six.zone,{SIX}", "--cname=alias.zone,both.zone"]
    with support.dnsmasq(FOUR, "--local=/zone/", *records) as names, serving(greet, SIX) as port:
        for host in ("both.zone", "alias.zone", "six.zone"):
            Run("--resolver", names, host, port).must(won=SIX)
        for host, resolver in [("absent.zone", names), ("both.zone", DOWN)]:
            Run("--resolver", resolver, host, port, replays=False).must(status=1, told="he: [^\n]*\n")


def race_of(record):
    """The race of a record, without its record lines."""
    return "".join(line for line in record.splitlines(True) if not line.startswith("record "))


def check_explained():
    """--explain prints the look-up, and what `he explain` says of the record; -v prints each attempt, and with -z
    how it ended."""
    with serving(greet) as port:
        run, steps = Run("-z", "--explain", "both.test", port), Run("-z", "-v", "both.test", port)
    lines = run.told.splitlines()
    story = [line for line in lines if not line.startswith("he: ")]
    look_up = r"(?m)^he: \d+ ms: AAAA answer: 1 address, no name server asked$"
    run.must(story == replayed(run.record, "explain").splitlines() and re.search(look_up, run.told))
    run.must(story[0].startswith(f"both.test:{port}, "))
    steps.must(SIX in steps.told and FOUR in steps.told)
    last = rf"he: both\.test:{port} connected by IPv4 \({FOUR}\) in \d+ ms; \d+ ms lost on {SIX} \(failed\)"
    steps.must(re.fullmatch(last, steps.told.splitlines()[-1]))


def check_object():
    """With -z and --json the output is the object that `he explain --json` makes of the record, won or not."""
    with serving(greet) as port:
        won = Run("-z", "--json", "both.test", port)
    lost = Run("-z", "--json", FOUR, unused_port())
    for run, status, end in ((won, 0, "won"), (lost, 3, "exhausted")):
        run.must(end in [event["event"] for event in json.loads(run.output)["events"]], status,
                 output=replayed(run.record, "explain --json").encode())


# After the bar of a check's line: its times, in seconds, and the limit of a warning.
TIMES = r" \| time=(?P<all_s>{0})s names=(?P<names_s>{0})s lost=(?P<lost_s>{0})s;(?P<warn_s>{0})".format(r"\d+\.\d{3}")


def checked(words, status, wanted, **more):
    """A run with --check: its status, its one line, a pattern of the text after `CONNECT `, and no line on standard
    error. Returns the match."""
    done = support.run(HE, "connect", "--check", *words, timeout=TIMEOUT, **more)
    found = re.fullmatch(f"CONNECT {wanted}\n", done.stdout)
    is_right = found and (done.returncode, done.stderr) == (status, "")
    must(is_right, *words, f"status {done.returncode}, {done.stdout!r}, {done.stderr!r}, where {wanted} is wanted")
    return found


def checked_times(words, status, wanted, warn=100):
    """Such a run that connects: its times in seconds are the text's in milliseconds, and the status is by them."""
    found = checked(words, status, wanted + TIMES).groupdict()
    took, names, lost, limit = (round(1000 * float(found[f"{time}_s"])) for time in ("all", "names", "lost", "warn"))
    is_right = (took, lost, limit) == (int(found["all"]), int(found.get("lost", 0)), warn) and names + lost <= took
    must(is_right and status == (lost > warn), *words, f"status {status},", found)


@timed
def check_monitored():
    """--check writes a line for a monitor, and its status is that of a plugin: whether it connected, and whether it
    lost more than --warn. The line has the text of `he explain` on its record."""
    closed, dead = unused_port(), unused_port()
    with serving(greet) as port, silent(DEAD_SIX, dead), silent(DEAD_FOUR, dead):
        won = rf":{port} connected by IPv4 \({FOUR}\) in (?P<all>\d+) ms; "
        on = r"(?P<lost>\d+) ms lost on "
        for words, status, wanted, warn in [
            ([FOUR, port], 0, f"OK - {FOUR}{won}nothing lost", 100),
            (["--warn", 2000, "both.test", port], 0, rf"OK - both\.test{won}{on}{SIX} \(failed\)", 2000),
            (["dead6.test", port], 1, rf"WARNING - dead6\.test{won}{on}{DEAD_SIX} \(no answer\)", 100),
            (["--warn", 2000, "dead6.test", port], 0, rf"OK - dead6\.test{won}{on}{DEAD_SIX} \(no answer\)", 2000),
            (["--warn", 0, "-z", "both.test", port], 1, rf"WARNING - both\.test{won}{on}{SIX} \(failed\)", 0),
        ]:
            checked_times(words, status, wanted, warn)
        for words, wanted in [
            ([FOUR, closed], rf"{FOUR}:{closed} not connected: its 1 address refused \(\d+ ms\)"),
            ([SIX, closed], rf"\[{SIX}\]:{closed} not connected: its 1 address refused \(\d+ ms\)"),
            (["both.test", closed], rf"both\.test:{closed} not connected: all 2 addresses refused \(\d+ ms\)"),
            (["--timeout", 600, "dead.test", dead],
             rf"dead\.test:{dead} not connected: timed out after 600 ms; neither of 2 addresses answered"),
        ]:
            checked(words, 2, rf"CRITICAL - {wanted}(; [^|]*)?")
        run = Run("--check", "dead6.test", port)
        told = re.fullmatch("CONNECT WARNING - (\\S+) (.*) \\| .*\n", run.output.decode())
        story = replayed(run.record, "explain").splitlines()[0]
        run.must(told and story.startswith(f"{told[1]}, ") and story.endswith(f"Z: {told[2]}"), 1, "")
        told = Run("--check", "-v", "--explain", "both.test", port)
        told.must(told.output.startswith(b"CONNECT OK - ") and replayed(told.record, "explain") in told.told)
        checked(["both.test", port], 0, "OK - .*", preexec_fn=lambda: os.close(0))
        for output in ("> /dev/full", ">&-"):
            done = support.run("sh", "-c", f"{HE} connect --check {FOUR} {port} {output}")
            must(done.returncode == 3 and done.stderr.startswith("he: cannot write the output\n"), output, done)


def check_monitored_faults():
    """With --check a name without an address is no connection. A fault of this machine or of the line has the status of
    UNKNOWN, also if the line is refused, which standard error says."""
    with serving(greet) as port, Zone(FOUR) as zone:
        for words, wanted in [
            (["--resolver", zone.at, "lacks.zone"], rf"lacks\.zone:{port} not connected: no such name \(\d+ ms\)"),
            (["--resolver", DOWN, "both.zone"], rf"both\.zone:{port} not connected: the name could not be looked up in "
             r"\d+ ms: no answer \(127\.0\.0\.99 was unreachable\)"),
            (["--resolver", "system", "no.such.name.test"], rf"no\.such\.name\.test:{port} not connected: [^|]*"),
        ]:
            checked([*words, port], 2, f"CRITICAL - {wanted}")
        for words, wanted in [
            (["--machine", "/no/such/file", FOUR, port],
             "cannot read the --machine file: No such file [^|]*: /no/such/file"),
            ([FOUR, "htps"], "no such service: htps"),
            (["--record", "/no/such/folder/file", FOUR, port], "/no/such/folder/file: No such file.*"),
            (["a..b", port], ".*a\\.\\.b"), ([ON_LINK, port], f"a link-local address needs its interface: {ON_LINK}.*"),
            (["a|b", port], r"not a host name: '\\x7c': a\\x7cb"),
        ]:
            checked(words, 3, f"UNKNOWN - {wanted}")
        for words, status in [
            (["--check", "--warn", "x"], 3), (["--check", "--warn", "3600001"], 3), (["--check", "--json"], 3),
            (["--check", "--record", "-"], 3), (["--check", "--set", "floor=1"], 3), (["--check", "a", "b"], 3),
            (["--warn", "5"], 2), (["--chek"], 2),
        ]:
            done = support.run(HE, "connect", *words, FOUR, port)
            must((done.returncode, done.stdout) == (status, "") and done.stderr.startswith("he: "), *words, done)
        done = support.run(HE, "live", "--check")
        must((done.returncode, done.stdout) == (2, ""), "live", done)
        done = support.run(HE, "connect", "--check", "--help")
        must((done.returncode, done.stderr) == (0, "") and "--warn" in done.stdout, "help", done)
        needs("strace")
        trace = ["strace", "-f", "-qq", "-o", "/dev/null", "-e", "inject=epoll_create1:error=EMFILE"]
        done = support.run(*trace, HE, "connect", "--check", FOUR, port, timeout=TIMEOUT)
        must((done.returncode, done.stdout) == (3, "CONNECT UNKNOWN - too many open files\n"), done)


def check_lines():
    """The lines of a file take the place of this machine's; a wrong line is reported by its number."""
    with tempfile.NamedTemporaryFile("w", suffix=".lines") as file, serving(greet) as port:
        file.write(f"source {FOUR}/8 1\nroute 127.0.0.0/8 1")
        file.flush()
        run = Run("--machine", file.name, FOUR, port)
        file.write("\nroute 127.0.0.0/8 x\n")
        file.flush()
        wrong = Run("--machine", file.name, FOUR, port)
    run.must(run.record.count("source") == 1)
    wrong.must(status=1, told=".*line 3: number.*")


def check_record_file():
    """The file of the record is opened before the race, and has its name once it is whole: a fault names file and
    reason, and leaves the old one."""
    met = []
    with tempfile.TemporaryDirectory() as folder, serving(lambda connection: met.append(1)) as port:
        def connect(to, *words):
            return support.run(HE, "connect", *words, "--record", to, FOUR, port, input=b"", timeout=TIMEOUT)

        missing = connect(pathlib.Path(folder, "no", "record"))
        told = re.fullmatch(rb"he: .*/no/record: No such file.*\n", missing.stderr)
        must(missing.returncode == 1 and told and not met, "a folder that is missing:", missing, len(met), "met")
        record, pipe = pathlib.Path(folder, "record"), pathlib.Path(folder, "pipe")
        record.write_text("old\n")
        record.chmod(0o600)
        failed = connect(record, "-z", "--machine", "/no/such/file")
        must(failed.returncode == 1 and record.read_text() == "old\n", "after a fault:", failed, record.read_text())
        must(connect(record, "-z").returncode == 0 and record.read_text().startswith("record at "), record.read_text())
        must(os.listdir(folder) == ["record"], os.listdir(folder))
        output = connect("-", "-z").stdout
        must(output.startswith(b"record at ") and connect("-").returncode == 2, "--record -:", output)
        os.mkfifo(pipe)
        with started("-z", "--record", pipe, FOUR, port) as running:
            text, status = pipe.read_bytes(), running.wait(TIMEOUT)
        must(status == 0 and text.startswith(b"record at "), "a pipe:", status, text)


def check_full_disk():
    """A disk that is full leaves the old record, and is reported with the file's name."""
    with tempfile.TemporaryDirectory() as folder, serving(greet) as port:
        with made(f"mount -t tmpfs -o size=8k tmpfs {folder}", f"umount {folder}"):
            record = pathlib.Path(folder, "record")
            record.write_text("old\n")
            with contextlib.suppress(OSError):
                pathlib.Path(folder, "rest").write_bytes(bytes(1 << 16))
            done = support.run(HE, "connect", "-z", "--record", record, FOUR, port, timeout=TIMEOUT)
            kept, names = record.read_text(), sorted(os.listdir(folder))
    is_right = done.returncode == 1 and re.fullmatch(r"he: .*/record: No space left.*\n", done.stderr)
    must(is_right and (kept, names) == ("old\n", ["record", "rest"]), done, kept, names)


@timed
def check_quick():
    """A name of the file of hosts is connected to within milliseconds, beside the start of the program."""
    with serving(greet) as port:
        whole, start = [], []
        for _ in range(20):
            whole.append(Run("-z", "four.test", port, replays=False).seconds)
            began = time.monotonic()
            support.run(HE, "--version")
            start.append(time.monotonic() - began)
    print(f"    {1000 * min(whole):.1f} ms in all, {1000 * min(start):.1f} of them with the start of the program")
    must(min(whole) - min(start) < MOST_QUICK, f"more than {1000 * MOST_QUICK:.0f} ms beside the start")


def check_many():
    """Many connections under faults: each record replays, and each transfer is whole or reported as a fault."""
    rows = random.Random(3)
    with serving(answer_digest) as port:
        for _ in range(1000 if IS_FULL else 60):
            host = rows.choice(["both.test", "four.test", "six.test", "dead6.test", FOUR, SIX])
            at = rows.choice([port, port, port, 9])
            given = rows.randbytes(rows.choice([0, 1, 100, 70000, 300000]))
            run = Run("--set", "attempt=20", host, at, given=given)
            run.must(not run.won or run.output == digest_of(given), 0 if run.won else 3)
