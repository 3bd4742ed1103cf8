"""Compares what a second reading (host_lines.py) makes of the recorded hosts in scripts/recorded-hosts/ with what is
there, and has a built program order a race on each of them. Compares `he host` with it, on this machine and in network
namespaces. Makes races of what `he host` and `he names` write.

needs: ip (iproute2), and root for namespaces
"""
import contextlib
import json
import os
import random
import re
import time

import support
from host_lines import machine_lines, recorded_lines
from support import OPTIONS, ROOT, NotTried, needs, run, tell

HE = OPTIONS.program
DRAWN, SEED = 200, 71  # drawn races
SIXES = ["2001:db8::1", "2001:db8:1::1", "2001:db8:1::2", "fd00::1", "fd00:1::1", "2002:c000:201::1", "2001::1", "::1"]
FOURS = ["10.0.0.1", "10.0.1.1", "192.0.2.1", "192.0.2.130", "198.51.100.7", "127.0.0.1", "169.254.0.9"]
SPACE = f"hosts-{os.getpid()}"
INSIDE = ["ip", "netns", "exec", SPACE]
LINKS = ["link add one type veth peer name one-end", "link add two type veth peer name two-end",
         *(f"link set {link} up" for link in ("lo", "one", "one-end", "two", "two-end"))]
# Routes as wg-quick makes them, addresses of one link of which two routes name one each.
POLICY_ROUTING = [
    "addr add 192.168.77.23/24 dev one", "addr add 10.8.0.2/32 dev two", "addr add fd00:8::2/64 dev two nodad",
    "route add default via 192.168.77.1", "route add default dev two table 51820",
    "rule add not fwmark 51820 table 51820", "rule add table main suppress_prefixlength 0",
    "addr add 2001:db8:5::23/64 dev one nodad", "addr add 2001:db8:5::7/64 dev one nodad",
    "route add 2001:db8:6::/48 via 2001:db8:5::1 src 2001:db8:5::23",
    "route add 2001:db8:7::/48 via 2001:db8:5::1 src 2001:db8:5::7"]
HALF_ROUTES = [
    "addr add 192.0.2.2/24 dev one", "addr add 192.0.2.3/24 dev one", "addr add 10.8.0.2/32 dev two",
    "route add default via 192.0.2.1", "route add 0.0.0.0/1 dev two", "route add 128.0.0.0/1 dev two",
    "route add 198.51.100.0/24 via 192.0.2.1 src 192.0.2.3", "route add prohibit 203.0.113.0/24"]
UNREACHABLE = [
    "addr add 192.0.2.2/24 dev one", "addr add 198.51.100.2/24 dev two", "addr add 2001:db8:1::2/64 dev one nodad",
    "addr add 2001:db8:1::3/64 dev one nodad preferred_lft 0", "route add default via 192.0.2.1 metric 100",
    "route add default via 198.51.100.1 metric 50", "route add unreachable 10.0.0.0/8",
    "route add blackhole 172.16.0.0/12",
    "route add unreachable 2001:db8:dead::/48", "route add default via 2001:db8:1::1 metric 300",
    "route add 2001:db8:3::/48 nexthop via 2001:db8:1::9 dev one nexthop via fe80::9 dev two"]
WITHOUT_LINK = [
    "tuntap add tunnel mode tun", "link set tunnel up", "addr add 10.9.0.2/32 dev tunnel",
    "addr add 192.0.2.2/24 dev one", "route add 10.99.0.0/16 dev tunnel src 10.9.0.2"]
MANY = ["addr add 192.0.2.2/24 dev one", "addr add 2001:db8::fff/64 dev one nodad", "route add default via 192.0.2.1",
        "route add default via 2001:db8::999 dev one"]
MANY += [f"addr add 2001:db8::{n}/64 dev one nodad" for n in range(1, 200)]
MANY += [f"route add 10.{n // 256}.{n % 256}.0/24 via 192.0.2.1" for n in range(1, 501)]
MANY += [f"route add 2001:db8:1:{n}::/64 via 2001:db8::999 dev one" for n in range(1, 501)]


def race(lines, six="none", four="none"):
    return f"race 1\n{lines}aaaa 0 {six}\na 0 {four}\nend\n"


def lines_of(text):
    """The lines of an object of `he host --json`."""
    for kind, rows in json.loads(text).items():
        for row in rows:
            marks = [f" {mark}" for mark, is_set in row.items() if is_set is True]
            yield f"{kind[:-1]} {row['address']}/{row['length']} {row['interface']}{''.join(marks)}\n"


def ip(words):
    return run("ip", "-n", SPACE, *words.split())


class Host:
    """The output of `he host`, in the namespace or on this machine, whether the program takes it in a race, and what is
    said beside it."""

    def __init__(self, name, inside=()):
        self.name, self.inside = name, inside
        self.run()

    def run(self, *words):
        done = run(*self.inside, HE, "host", *words)
        self.own, self.left = done.stdout, done.stderr
        self.is_sound = done.returncode == 0 and run(HE, "check", input=race(self.own)).returncode == 0

    def passes(self, is_right, what=""):
        tell(is_right, f"he host: {self.name}{what} differs, or is refused")

    def has_order(self, six, four, line=""):
        """Whether the race of these answers on the lines has an order, with this line in it."""
        done = run(HE, "order", input=race(self.own, six, four))
        return done.returncode == 0 and line in ["", *done.stdout.splitlines()]

    def is_same(self):
        """Whether `he host` and the second reading have the same lines in some order, and `he host --json` the same in
        the order of `he host`."""
        self.run()
        own, other = (sorted(text.splitlines()) for text in (self.own, machine_lines(*self.inside)))
        objects = "".join(lines_of(run(*self.inside, HE, "host", "--json").stdout))
        return self.is_sound and (own, self.own) == (other, objects)

    def same(self):
        """So, at the second try at the latest: an address may come to be in use in between."""
        if not (is_same := self.is_same()):
            print(f"{self.name}: tried again: machine busy")
            time.sleep(3)
            is_same = self.is_same()
        self.passes(is_same)

    def told(self, count, words):
        """This number of remarks have these words."""
        found = sum(bool(re.search(words, line)) for line in self.left.splitlines())
        self.passes(found == count, f", told: {words}")

    def has_lines(self, sources, routes):
        """Lines that the program takes, with this number of sources and of routes."""
        counts = [len(re.findall(f"(?m)^{kind} ", self.own)) for kind in ("source", "route")]
        self.passes(self.is_sound and counts == [sources, routes], ": lines")

    def takes(self, *addresses):
        """By the lines for these addresses a race reaches each from the source that `ip route get` tells."""
        self.run("--for", *addresses)
        is_right = self.is_sound
        for to in addresses:
            found = re.search(r" src (\S+) ", run("ip", "-n", SPACE, "route", "get", to).stdout)
            answers = (to, "none") if ":" in to else ("none", to)
            is_right &= self.has_order(*answers, f"0 {to} from {found[1] if found else 'none'}")
        self.passes(is_right, ": the sources of the kernel")


@contextlib.contextmanager
def space(name, *lines):
    """A network namespace with the links one and two, which lines of `ip` set up: what `he host` writes there, once
    each address is in use."""
    needs("ip")
    run("ip", "netns", "add", SPACE)
    try:
        made = run("ip", "-n", SPACE, "-batch", "-", input="".join(f"{line}\n" for line in [*LINKS, *lines]))
        if made.returncode:
            raise NotTried(made.stderr.strip())
        support.comes(lambda: not run("ip", "-n", SPACE, "-6", "address", "show", "tentative").stdout, 10)
        yield Host(name, INSIDE)
    finally:
        run("ip", "netns", "del", SPACE)


def set_in(key, value):
    """Sets a number of the kernel in the namespace."""
    done = run(*INSIDE, "sh", "-c", f"echo {value} > /proc/sys/net/ipv6/conf/{key}")
    if done.returncode:
        raise NotTried(done.stderr.strip())


def check_recorded():
    for folder in sorted((ROOT / "scripts/recorded-hosts").iterdir()):
        host = Host(folder.name)
        host.own = (folder / "lines").read_text()
        host.passes(recorded_lines(folder) == host.own and host.has_order("2001:db8::1", "192.0.2.1"))


def check_this_machine():
    """Guesses, and more than a race holds, cannot be compared."""
    needs("ip")
    host = Host("this machine")
    if "guess: " in host.left or "is more than a race holds" in host.left:
        raise NotTried("its addresses are guessed, or too many")
    host.same()


def check_refused_words():
    for words in (["--for"], ["--for", "198.51.100.9", "example.org"], ["198.51.100.9"]):
        done = run(HE, "host", *words)
        tell(done.returncode == 2 and not done.stdout and done.stderr, f"he host {' '.join(words)} is not refused")


def check_race():
    """A race of this machine and of a name, also by the policy table of the C library's getaddrinfo."""
    for table in ("", (ROOT / "tools/policies/glibc").read_text()):
        lines = table + run(HE, "host").stdout + run(HE, "names", "localhost").stdout
        found = run(HE, "order", input=f"race 1\n{lines}end\n").stdout
        tell(re.search("(?m)^[01] 127.0.0.1 from 127.0.0.1$", found), f"a race of he host and he names: {found}")


def check_one_four():
    """With one IPv4 destination an order does not depend on the length of its source's network, which is not asked."""
    def orders(length):
        drawn, races = random.Random(SEED), []
        for _ in range(DRAWN):
            sixes = drawn.sample(SIXES, drawn.randint(0, len(SIXES)))
            four, from_four = drawn.sample(FOURS, 2)
            lines = [f"source {ip}/{drawn.choice([48, 64, 128])} {place}\n"
                     for ip, place in zip(drawn.sample(SIXES, 3), (1, 3, 5))]
            lines += [f"source {from_four}/{length} 2\n", f"route {four}/32 2\n"]
            lines += [f"route {six}/128 {drawn.choice([1, 3, 5])}\n" for six in sixes]
            races.append(race("".join(lines), " ".join(sixes) or "none", four))
        return run(HE, "order", input="".join(races)).stdout

    wanted = orders(32)
    tell(wanted.count(" from ") >= DRAWN, f"drawn orders: {wanted[:200]}")
    for length in (8, 16, 24, 30):
        tell(orders(length) == wanted, f"an order of one IPv4 address by a network of {length} bits")


def check_policy_routing():
    with space("policy routing", *POLICY_ROUTING) as host:
        host.passes(host.is_sound)
        host.told(1, "not included: the IPv4 routes of table 51820, ")
        host.told(1, "guess: the address 10.8.0.2 ")
        host.told(1, "the kernel reaches 0.0.0.0/0 from 10.8.0.2, and not from 192.168.77.23 ")
        host.takes("198.51.100.9", "192.168.77.9", "203.0.113.9", "2001:db8:6::1", "2001:db8:7::1", "2001:db8:5::9",
                   "2001:db8:9::9")
        host.has_lines(4, 6)
        host.told(0, "")


def check_half_routes():
    with space("half routes, a route that names its source, one that prohibits", *HALF_ROUTES) as host:
        host.takes("198.51.100.9", "192.0.2.9", "203.0.113.9", "100.64.0.1", "169.254.7.7")


def check_unreachable():
    with space("deprecated, multipath, unreachable", *UNREACHABLE) as host:
        host.same()
        host.told(3, "leads nowhere")


def check_without_link():
    with space("an address without a link", *WITHOUT_LINK) as host:
        host.same()
        host.told(1, "guess: the address 10.9.0.2 ")
        host.takes("10.99.0.1", "192.0.2.7", "10.9.0.2")


def check_temporary():
    with space("temporary", "addr add 2001:db8:1::2/64 dev one nodad") as host:
        set_in("one/use_tempaddr", 2)
        own = "addr add 2001:db8:1::4/64 dev one nodad mngtmpaddr valid_lft 3600 preferred_lft 1800"
        if run("ip", "-n", SPACE, *own.split()).returncode:
            raise NotTried("no temporary addresses")
        time.sleep(2)
        host.same()


def check_no_six():
    with space("no IPv6", "addr add 203.0.113.40/24 dev one", "route add default via 203.0.113.1") as host:
        set_in("all/disable_ipv6", 1)
        host.same()


def check_loopback():
    lines = ["addr add fd00::5/128 dev lo", "addr add 2001:db8:1::2/64 dev one nodad"]
    with space("an address of the loopback interface", *lines) as host:
        host.same()
        host.told(0, "fd00::5")
        host.passes(host.has_order("fd00::5", "none", "0 fd00::5 from fd00::5"), ", from itself")


def check_one_network():
    lines = ["addr add 192.0.2.2/24 dev one", "addr add 192.0.2.3/24 dev two", "addr add 198.51.100.9/24 dev two"]
    with space("one network on two interfaces", *lines) as host:
        host.passes(host.is_sound and len(re.findall("(?m)^source 192.0.2.[23]/24 ", host.own)) == 2)
        for guess in ("", "the address 192.0.2.3 "):
            host.told(1, f"guess: {guess}")


def check_many():
    with space("200 addresses and 1,000 routes", *MANY) as host:
        host.passes(host.is_sound)
        host.has_lines(64, 64)
        for line in ("source 192.0.2.2/24 ", "route 0.0.0.0/0 ", "route ::/0 "):
            host.passes(f"\n{line}" in f"\n{host.own}", f": {line}")
        host.told(143, "the address .* is more than a race holds")
