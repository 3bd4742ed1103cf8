"""Connects by a built program's `he connect` and `he proxy` on a machine with only IPv6, whose network has a NAT64 (RFC
6146) for 64:ff9b::/96 and for /64 prefixes, and looks at what comes of it.

needs: /dev/net/tun, for a translator of its own; `nsenter` for a client of another machine
"""
import contextlib
import ctypes
import ipaddress
import os
import pathlib
import re
import socket
import struct
import tempfile
import threading
import time

import support
from parts import proxy_strangers
from parts.proxy import SOON, Proxy, destination, get, socks, tunnel
from support import (A, AAAA, NXDOMAIN, OPTIONS, REFUSED, TIMEOUT, NameServer, NotTried, addresses, comes, greet, in_thread,
                     kind_of, labels_of, message, must, replayed, timed)

HE = OPTIONS.program
HOME = "2001:db8:1e::1"  # this machine
SERVER, PRIVATE, VPN = "203.0.113.80", "10.9.8.7", "198.51.100.7"
GLOBAL = "11.0.1.80"  # an address that is in no registry for a special purpose
HOSTS = SERVER, PRIVATE, GLOBAL
WELL_KNOWN, LONG = "64:ff9b::/96", "2001:db8:122:344::/64"
WIDE = "2a00:9:122:344::/64"  # a prefix that is in no such registry either
DOWN = "[::1]:9"  # where no name server is
SETUP = f"""
ip link set lo up
ip link add here type veth peer name there
ip link set here up
ip link set there up
ip address add {HOME}/64 dev here nodad
ip -6 route add default dev here
mount -t sysfs sysfs /sys
mkdir -p /run/he
mount -t tmpfs tmpfs /run/he
""" + support.file_of_etc("hosts", f"{SERVER} listed.test\n")
NEW_NETWORK = 0x40000000  # CLONE_NEWNET of unshare(2)


def embedded(prefix, host):
    """The address of the host by the prefix (RFC 6052 section 2.2): the table, bit by bit."""
    block = ipaddress.ip_network(prefix)
    bits = f"{int(block.network_address):0128b}"[:block.prefixlen]
    for bit in f"{int(ipaddress.ip_address(host)):032b}":
        bits += "0" * 8 if len(bits) == 64 else ""
        bits += bit
    return str(ipaddress.ip_address(int(bits.ljust(128, "0"), 2)))


def open_tun(name):
    """The descriptor of a TUN device of this network."""
    tun = os.open("/dev/net/tun", os.O_RDWR)
    libc = ctypes.CDLL(None, use_errno=True)
    asked = ctypes.create_string_buffer(struct.pack("16sH22x", name.encode(), 0x1001))  # IFF_TUN, IFF_NO_PI
    if libc.ioctl(tun, 0x400454CA, asked):
        raise NotTried(f"no TUN device: {os.strerror(ctypes.get_errno())}")
    return tun


def checksum(data):
    total = sum(struct.unpack(f"!{len(data) // 2}H", data)) if len(data) % 2 == 0 else checksum_odd(data)
    while total >> 16:
        total = (total & 0xFFFF) + (total >> 16)
    return ~total & 0xFFFF


def checksum_odd(data):
    return sum(struct.unpack(f"!{len(data) // 2 + 1}H", data + b"\0"))


def with_checksum(pseudo, segment):
    """The TCP segment with its checksum for these addresses."""
    bare = segment[:16] + b"\0\0" + segment[18:]
    return segment[:16] + struct.pack("!H", checksum(pseudo + bare)) + segment[18:]


class Translator:
    """A NAT64 between this network and one of its own, where the IPv4 servers are: TCP alone, one client."""

    def __init__(self, *prefixes):
        # The address by which the servers see this machine, and the host, by the host's IPv6 address.
        self.hosts = {socket.inet_pton(socket.AF_INET6, embedded(prefix, host)):
                      (socket.inet_aton(f"192.0.2.{64 + number}"), socket.inet_aton(host))
                      for number, prefix in enumerate(prefixes) for host in HOSTS}
        self.six = open_tun("six")
        support.run("ip", "link", "set", "six", "up")
        for prefix in prefixes:
            support.run("ip", "-6", "route", "add", prefix, "dev", "six")
        self.routes = {}
        ready = threading.Event()
        in_thread(self.serve, ready)
        must(ready.wait(TIMEOUT), "no network of the servers")
        in_thread(self.to_four)
        in_thread(self.to_six)

    def serve(self, ready):
        """The servers' network, which is this thread's alone."""
        if ctypes.CDLL(None).unshare(NEW_NETWORK):
            raise NotTried("no network of the servers")
        self.four = open_tun("four")
        for line in ("link set lo up", "link set four up", "address add 192.0.2.1/24 dev four",
                     *(f"address add {host}/32 dev lo" for host in HOSTS)):
            support.run("ip", *line.split())
        self.listeners = [support.listener_at(host, 4430) for host in HOSTS]
        for listener in self.listeners:
            support.accept_all(listener, greet)
        ready.set()

    def to_four(self):
        while True:
            packet = os.read(self.six, 65_536)
            if packet[0] >> 4 != 6 or packet[6] != socket.IPPROTO_TCP:
                continue
            source, target, segment = packet[8:24], packet[24:40], packet[40:]
            if target not in self.hosts:
                continue
            client, host = self.hosts[target]
            self.routes[client + segment[:4]] = source, target
            pseudo = client + host + struct.pack("!BBH", 0, socket.IPPROTO_TCP, len(segment))
            head = struct.pack("!BBHHHBBH", 0x45, 0, 20 + len(segment), 0, 0x4000, 63, socket.IPPROTO_TCP, 0)
            head = head + client + host
            head = head[:10] + struct.pack("!H", checksum(head)) + head[12:]
            os.write(self.four, head + with_checksum(pseudo, segment))

    def to_six(self):
        while True:
            packet = os.read(self.four, 65_536)
            if packet[0] >> 4 != 4 or packet[9] != socket.IPPROTO_TCP:
                continue
            segment = packet[(packet[0] & 15) * 4:]
            source, target = self.routes.get(packet[16:20] + segment[2:4] + segment[:2], (None, None))
            if source is None:
                continue
            pseudo = target + source + struct.pack("!IHBB", len(segment), 0, 0, socket.IPPROTO_TCP)
            head = struct.pack("!IHBB", 6 << 28, len(segment), socket.IPPROTO_TCP, 63)
            os.write(self.six, head + target + source + with_checksum(pseudo, segment))


class Discovering(NameServer):
    """A name server without DNS64, except that ipv4only.arpa. has its addresses by these prefixes. Each other name has
    those of its label."""

    NAMES = {"four": [SERVER], "both": [HOME, SERVER], "none": [], "own": ["127.0.0.1"], "private": [PRIVATE],
             "shy": [], "mute": [SERVER], "global": [GLOBAL]}

    def __init__(self, *prefixes, ttl=60, wait=0):
        self.ttl, self.wait = ttl, wait
        self.names = self.NAMES | {"ipv4only": [embedded(prefix, host) for prefix in prefixes
                                                for host in ("192.0.0.170", "192.0.0.171")]}
        self.mute = set()  # what is not answered, each as its label and its type
        super().__init__("::1")

    def replies(self, query, _):
        label = labels_of(query)[0]
        if label == "silent" or (label, kind_of(query)) in self.mute:
            return []
        if (label, kind_of(query)) == ("shy", A):
            return [(0, message(query, code=REFUSED))]
        if label not in self.names:
            return [(0, message(query, code=NXDOMAIN))]
        return [(self.wait, message(query, addresses(kind_of(query), *self.names[label], ttl=self.ttl)))]

    def asked(self):
        """The queries, each as its label and its type."""
        return [(labels_of(query)[0], kind_of(query)) for _, query, _ in self.seen]


class Run(support.Run):
    def __init__(self, *words, given=b""):
        with tempfile.TemporaryDirectory() as folder:
            record = pathlib.Path(folder, "record")
            done = support.run(HE, "connect", "--record", record, *words, input=given, timeout=TIMEOUT)
            text = record.read_text() if record.exists() else ""
        super().__init__(done, replayed(text) if text else "", text)
        self.words, self.output, self.told = words, done.stdout, done.stderr.decode()

    def must(self, is_right, *told):
        must(is_right, *self.words, *told, f"status {self.status}, {self.output!r}, {self.told!r}, {self.record!r}")


TRANSLATORS = []


def translator():
    """The translator, which is made once."""
    if not os.path.exists("/dev/net/tun"):
        raise NotTried("no /dev/net/tun")
    if not TRANSLATORS:
        TRANSLATORS.append(Translator(WELL_KNOWN, LONG, WIDE))
    return TRANSLATORS[0]


def check_vectors():
    """The embedding of this file is that of RFC 6052 section 2.4."""
    for prefix, wanted in [("2001:db8::/32", "2001:db8:c000:221::"), ("2001:db8:100::/40", "2001:db8:1c0:2:21::"),
                           ("2001:db8:122::/48", "2001:db8:122:c000:2:2100::"),
                           ("2001:db8:122:300::/56", "2001:db8:122:3c0:0:221::"),
                           ("2001:db8:122:344::/64", "2001:db8:122:344:c0:2:2100:0"),
                           ("2001:db8:122:344::/96", "2001:db8:122:344::c000:221"),
                           ("64:ff9b::/96", "64:ff9b::c000:221")]:
        must(ipaddress.ip_address(embedded(prefix, "192.0.2.33")) == ipaddress.ip_address(wanted), prefix)


def check_literal():
    """An IPv4 literal is reached by the prefix that the network's name server shows, whatever its length; the record
    has the embedded address and why there is no IPv4 one."""
    translator()
    for prefix in (WELL_KNOWN, LONG):
        at = embedded(prefix, SERVER)
        with Discovering(prefix) as server:
            run = Run("--resolver", server.at, SERVER, 4430)
            run.must(run.status == 0 and run.output == b"hello\n" and run.won == at)
            run.must(server.asked() == [("ipv4only", AAAA)], server.asked())
            run.must(is_by_nat64(run, SERVER, at, prefix))
            told = Run("-v", "--resolver", server.at, SERVER, 4430).told
            must(f"he: {at} is {SERVER}\n" in told, told)


def is_by_nat64(run, host, at, prefix):
    """Whether the record of a run says that the host was raced at this address, embedded by this prefix."""
    return is_record_by_nat64(run.record, host, at, prefix)


def is_record_by_nat64(record, host, at, prefix):
    return (re.search(rf"(?m)^record to {host} 4430\n(record from .*\n)?record lookup a nat64\nrecord nat64 {prefix}$",
                      record)
            and re.search(rf"(?m)^aaaa \d+ {at}\na 0 none$", record))


def check_name():
    """A name without IPv6 addresses, by a name server without DNS64, is reached so too: A and the prefix are asked for
    once it is known that there is no AAAA. A name with an IPv6 address is not asked for A."""
    translator()
    for prefix in (WELL_KNOWN, LONG):
        at = embedded(prefix, SERVER)
        with Discovering(prefix) as server:
            run = Run("--resolver", server.at, "four.test", 4430)
            run.must(run.status == 0 and run.output == b"hello\n" and run.won == at)
            run.must(server.asked() == [("four", AAAA), ("four", A), ("ipv4only", AAAA)], server.asked())
            run.must(is_by_nat64(run, "four.test", at, prefix))
    with Discovering(WELL_KNOWN) as server, support.listener_at(HOME) as listener:
        support.accept_all(listener, greet)
        for words in ([], ["-6"]):
            run = Run(*words, "--resolver", server.at, "both.test", listener.getsockname()[1])
            run.must(run.status == 0 and run.won == HOME and "record lookup a not-asked\n" in run.record)
        run.must(server.asked() == [("both", AAAA)] * 2, server.asked())


def check_no_name():
    """A name that has no address at all, one that is no name, and one whose only address is this machine's own are as
    without a NAT64, and the prefix is not asked for."""
    with Discovering(WELL_KNOWN) as server:
        for name, asked, status in [("none", [AAAA, A], 1), ("lacks", [AAAA, A], 1), ("own", [AAAA, A], 3)]:
            server.seen.clear()
            run = Run("--resolver", server.at, f"{name}.test", 4430)
            run.must(run.status == status and not run.attempts and "NAT64" not in run.told)
            run.must(server.asked() == [(name, kind) for kind in asked], server.asked())


def check_refused():
    """A name server that refuses A: the reason of each family is its own look-up's, and the prefix is not asked for."""
    with Discovering(WELL_KNOWN) as server:
        run = Run("-v", "--resolver", server.at, "shy.test", 4430)
        run.must(run.status == 1 and not run.attempts)
        run.must(re.search("(?m)^record lookup aaaa no-address\nrecord lookup a refused\n(?!record nat64)", run.record))
        run.must({query for query in server.asked()} == {("shy", AAAA), ("shy", A)}, server.asked())
        run.must(run.told.startswith("he: 0 ms: A not asked yet: this machine has no IPv4 address or route "))


def check_silent():
    """A name server that does not answer for A, or for the prefix, before the limit."""
    for name in ("mute", "four"):
        with Discovering(WELL_KNOWN) as server:
            server.mute = {("mute", A), ("ipv4only", AAAA)}
            run = Run("--set", "limit=600", "--resolver", server.at, f"{name}.test", 4430)
            run.must(run.status == 3 and not run.attempts and "\nrecord lookup a nat64\n" in run.record)
            run.must(run.told == f"he: no connection to {name}.test port 4430: no DNS answer in 600 ms\n")


@timed
def check_time():
    """A race through the NAT64 begins as soon as the prefix is known."""
    translator()
    with Discovering(WELL_KNOWN) as server:
        for host in (SERVER, "four.test"):
            run = Run("--resolver", server.at, host, 4430)
            run.must(run.attempts and run.attempts[0][0] < 200, run.attempts)


def check_two_prefixes():
    """A network with two prefixes: the host is raced by both."""
    translator()
    with Discovering(LONG, WELL_KNOWN) as server:
        run = Run("--resolver", server.at, SERVER, 4430)
        run.must(run.status == 0 and run.won in (embedded(LONG, SERVER), embedded(WELL_KNOWN, SERVER)))
        run.must(all(embedded(prefix, SERVER) in run.record for prefix in (LONG, WELL_KNOWN)))


def check_probe():
    """A probe goes to the embedded addresses, and its record says so."""
    translator()
    with Discovering(LONG, WELL_KNOWN) as server, tempfile.TemporaryDirectory() as folder:
        for host in (SERVER, "four.test"):
            record = pathlib.Path(folder, host)
            words = "--record", record, "--resolver", server.at, host, 4430
            done = support.run(HE, "probe", *words, timeout=TIMEOUT)
            rows = [line.split()[:2] for line in done.stdout.splitlines() if ":" in line.split()[0]]
            wanted = {embedded(prefix, SERVER) for prefix in (LONG, WELL_KNOWN)}
            must({row[0] for row in rows} == wanted and done.returncode == 0, done.stdout, done.stderr)
            said = re.findall("(?m)^record (?:lookup|nat64) .*", record.read_text())
            must(said[0] == "record lookup a nat64", record.read_text())
            must(set(said[1:]) == {f"record nat64 {prefix}" for prefix in (LONG, WELL_KNOWN)}, record.read_text())


def check_listed():
    """So is a name of the hosts file that has only IPv4 addresses."""
    translator()
    with Discovering(WELL_KNOWN) as server:
        run = Run("--resolver", server.at, "listed.test", 4430)
        run.must(run.status == 0 and run.output == b"hello\n" and run.won == embedded(WELL_KNOWN, SERVER))


def check_private():
    """A private address is not embedded by 64:ff9b::/96, but is by a prefix of the network's own."""
    translator()
    with Discovering(WELL_KNOWN) as server:
        for host, lack in [(PRIVATE, ""), ("private.test", "he: private.test has no IPv6 address\n")]:
            run = Run("--resolver", server.at, host, 4430)
            told = f"{lack}he: this machine has no IPv4, and its network's NAT64 no address for {host}\n"
            run.must(run.status == 3 and not run.attempts and run.told.endswith(told))
    with Discovering(LONG, WELL_KNOWN) as server:
        run = Run("--resolver", server.at, PRIVATE, 4430)
        run.must(run.status == 0 and run.won == embedded(LONG, PRIVATE))
        run.must(embedded(WELL_KNOWN, PRIVATE) not in run.record)


def check_none():
    """A network without a NAT64, and one whose name server does not answer."""
    told = "he: this machine has no IPv4, and its network no NAT64\n"
    with Discovering() as server:
        run = Run("--resolver", server.at, SERVER, 4430)
        run.must(run.status == 3 and run.told == told)
        run.must("\nrecord lookup a nat64\n" in run.record and "record nat64" not in run.record)
        run = Run("--resolver", server.at, "four.test", 4430)
        run.must(run.status == 3 and run.told.endswith(f"he: four.test has no IPv6 address\n{told}"))
        run.must("\nrecord lookup aaaa no-address\nrecord lookup a nat64\n" in run.record)
        run.must("record nat64" not in run.record)
    run = Run("--resolver", DOWN, SERVER, 4430)
    told = (r"he: this machine has no IPv4, and its network's NAT64 is unknown: "
            r"AAAA of ipv4only\.arpa: name server .*\n")
    run.must(run.status == 3 and re.fullmatch(told, run.told))


def check_own():
    """Loopback, an address to which the kernel has a way, as by a VPN, and any with -4 is not embedded; nor one with
    lines of a file."""
    with Discovering(WELL_KNOWN) as server, support.listener_at("127.0.0.1") as listener:
        support.accept_all(listener, greet)
        run = Run("--resolver", server.at, "127.0.0.1", listener.getsockname()[1])
        run.must(run.status == 0 and run.won == "127.0.0.1" and not server.asked())
        run = Run("-4", "--set", "limit=1000", "--resolver", server.at, SERVER, 4430)
        run.must(run.status == 3 and not server.asked())
        support.run("ip", "address", "add", f"{VPN}/32", "dev", "here")
        with contextlib.ExitStack() as undo:
            undo.callback(support.run, "ip", "address", "del", f"{VPN}/32", "dev", "here")
            run = Run("--set", "limit=1000", "--resolver", server.at, VPN, 4430)
            run.must(run.status == 3 and not server.asked())


def check_forbidden():
    """A literal that the kernel forbids is not embedded where it has a way to the IPv4 internet."""
    with Discovering(WELL_KNOWN) as server, contextlib.ExitStack() as undo:
        for made in (["address", "{}", "192.0.2.9/24", "dev", "here"],
                     ["route", "{}", "default", "via", "192.0.2.1", "dev", "here"], ["route", "{}", "prohibit", SERVER]):
            support.run("ip", *(word.format("add") for word in made))
            undo.callback(support.run, "ip", *(word.format("del") for word in made))
        run = Run("--set", "limit=1000", "--resolver", server.at, SERVER, 4430)
        run.must(run.status == 3 and f": {SERVER} prohibited after " in run.told and not server.asked())


# By the proxy


def greeted(proxy, host):
    """What a program gets that connects to a host by SOCKS 5, and one that does so by HTTP CONNECT."""
    code, told = proxy.ask(host, 4430, 6)
    with proxy.connect() as client:
        return code, told, tunnel(client, host, 4430), get(client, 6)


def check_proxy():
    """The proxy reaches an IPv4 literal, and a name without IPv6 addresses, as `he connect` does, and its records say
    so. It asks for the prefix once."""
    translator()
    for prefix in (WELL_KNOWN, LONG):
        at = embedded(prefix, SERVER)
        with Discovering(prefix) as server, Proxy("--resolver", server.at) as proxy:
            for host, asked in [(SERVER, [("ipv4only", AAAA)]), ("four.test", [("four", AAAA), ("four", A)]),
                                (SERVER, []), ("four.test", [])]:
                server.seen.clear()
                got = greeted(proxy, host)
                must(got == (0, b"hello\n", 200, b"hello\n"), host, got, proxy.said())
                must(server.asked() == asked, host, server.asked())
            files = [file.read_text() for file in proxy.files()]
            must(len(files) == 8, files)
            for text, host in zip(files, [SERVER] * 2 + ["four.test"] * 2):
                must(is_record_by_nat64(text, host, at, prefix) and at in replayed(text), text)
            must(proxy.ask(at, 4430, 6) == (0, b"hello\n"), proxy.said())
            must(comes(lambda: len(proxy.lines()) == 9, SOON), proxy.said())
            must(all(f" winner={at} " in line and f" ipv4={SERVER} " in line for line in proxy.lines()), proxy.said())
            page = proxy.answer(f"GET / HTTP/1.1\r\nHost: 127.0.0.1:{proxy.port}\r\n\r\n".encode()).decode()
            must(f"{at} is {SERVER} (NAT64)" in page and f"the network's NAT64 prefix is {prefix}" in page, page)


def check_proxy_ttl():
    """The proxy keeps the prefix no longer than its TTL."""
    translator()
    with Discovering(WELL_KNOWN, ttl=1) as server, Proxy("--resolver", server.at) as proxy:
        for wait, queries in ((0, 1), (2.1, 2)):
            time.sleep(wait)
            must(proxy.ask(SERVER, 4430, 6) == (0, b"hello\n"), proxy.said())
            must(server.asked() == [("ipv4only", AAAA)] * queries, server.asked())


@timed
def check_proxy_none_kept():
    """That there is no prefix is kept for 5 seconds, and no longer if the proxy is asked meanwhile."""
    with Discovering() as server, Proxy("--resolver", server.at) as proxy:
        for wait, queries in ((0, 1), (3, 1), (3, 2)):
            time.sleep(wait)
            must(proxy.ask(SERVER, 4430)[0] == 3, proxy.said())
            must(server.asked() == [("ipv4only", AAAA)] * queries, server.asked())


def check_proxy_at_once():
    """Races that begin at once ask for the prefix once; and none waits for a race that does not ask for it yet."""
    translator()
    with Discovering(WELL_KNOWN, wait=0.3) as server, Proxy("--resolver", server.at) as proxy:
        with contextlib.ExitStack() as held:
            stuck = held.enter_context(proxy.connect())
            stuck.sendall(b"\5\1\0\5\1\0" + destination("silent.test", 4430))
            must(comes(lambda: ("silent", AAAA) in server.asked(), SOON), server.asked())
            got = []
            threads = [in_thread(lambda: got.append(proxy.ask(SERVER, 4430, 6, SOON))) for _ in range(5)]
            for thread in threads:
                thread.join(SOON)
        must(got == [(0, b"hello\n")] * 5, got, proxy.said())
        must(server.asked().count(("ipv4only", AAAA)) == 1, server.asked())


def check_proxy_own():
    """The proxy asks neither for A nor for the prefix for a name that has an IPv6 address, nor for loopback."""
    with Discovering(WELL_KNOWN) as server, Proxy("--resolver", server.at) as proxy:
        for host, at, asked in [("both.test", HOME, [("both", AAAA)]), ("127.0.0.1", "127.0.0.1", [])]:
            with support.listener_at(at) as listener:
                support.accept_all(listener, greet)
                server.seen.clear()
                must(proxy.ask(host, listener.getsockname()[1], 6) == (0, b"hello\n"), host, proxy.said())
                must(server.asked() == asked, server.asked())


def check_proxy_none():
    """Without a NAT64 the proxy's reply is that there is no network, and so it is where no prefix may embed the host;
    if the prefix is not known, that there is no host. The log says why."""
    translator()

    def replies(proxy, host, code, status, why):
        with proxy.connect() as client:
            got = proxy.ask(host, 4430)[0], tunnel(client, host, 4430)
        must(got == (code, status), host, got, proxy.said())
        said = f" host={host} port=4430 "
        must(comes(lambda: len([line for line in proxy.lines() if said in line and f" fault={why} " in line]) == 2, SOON),
             proxy.lines())
        must("record nat64" not in proxy.files()[-1].read_text(), proxy.files()[-1].read_text())

    with Discovering() as server, Proxy("--resolver", server.at) as proxy:
        replies(proxy, SERVER, 3, 502, "no-network")
        replies(proxy, "four.test", 3, 502, "no-network")
        replies(proxy, "none.test", 4, 502, "no-address")
        must(proxy.ask("lacks.test", 4430)[0] == 4, proxy.said())
        must(comes(lambda: " fault=no-such-name " in proxy.said(), SOON), proxy.said())
    with Proxy("--resolver", DOWN) as proxy:
        replies(proxy, SERVER, 4, 502, "dns-failed")
    with Discovering(WELL_KNOWN) as server, Proxy("--resolver", server.at) as proxy:
        must(proxy.ask(PRIVATE, 4430)[0] == 3, proxy.said())
        must(comes(lambda: " fault=no-network " in proxy.said(), SOON), proxy.said())


class Stranger(proxy_strangers.Stranger):
    """A machine with only IPv6."""
    HERE = f"address add {proxy_strangers.NEAR_SIX}/64 dev near nodad", "link set near up"
    THERE = f"address add {proxy_strangers.FAR_SIX}/64 dev far nodad", "link set far up"


def check_proxy_stranger():
    """A client of another machine reaches the IPv4 hosts behind a prefix that it may reach by IPv4, and no other, also
    where it asks for their IPv6 addresses; one of this machine, or with --allow-private, reaches private ones too."""
    translator()
    near = proxy_strangers.NEAR_SIX
    allowed = "--allow", "2a00:1:2:3::/64"
    for prefix, private in ((WELL_KNOWN, 3), (WIDE, 2)):  # 64:ff9b::/96 has no private addresses (RFC 6052 section 3.1)
        hosts = [(GLOBAL, 0), ("global.test", 0), (PRIVATE, private), ("private.test", private), (SERVER, 2),
                 ("four.test", 2), (embedded(prefix, GLOBAL), 0), (embedded(prefix, PRIVATE), 2),
                 (embedded(prefix, SERVER), 2)]
        with Stranger() as stranger, Discovering(prefix) as server:
            with Proxy("--resolver", server.at, *allowed, at=near) as proxy:
                for host, code in hosts:
                    got = stranger.asks(proxy, host, 4430, near)
                    must(got == code, prefix, host, got, proxy.said())
                refused = [code for _, code in hosts].count(2)
                must(comes(lambda: proxy.said().count(" fault=forbidden ") == refused, SOON), proxy.said())
                with socket.create_connection((near, proxy.port), TIMEOUT) as client:
                    must(socks(client, SERVER, 4430) == 0, "a program of this machine", proxy.said())
            with Proxy("--resolver", server.at, *allowed, "--allow-private", at=near) as proxy:
                for host in (SERVER, *([PRIVATE] if prefix == WIDE else [])):
                    must(stranger.asks(proxy, host, 4430, near) == 0, host, proxy.said())


def check_proxy_rules():
    """A rule for a network of IPv4 fits its hosts behind a prefix, by their IPv4 and by their IPv6 addresses; one for
    the prefix fits each of them."""
    translator()
    rows = [("--not-to", "203.0.113.0/24", 2), ("--to", "203.0.113.0/24", 0), ("--to", "192.0.2.0/24", 2),
            ("--not-to", "192.0.2.0/24", 0)]
    for prefix in (WELL_KNOWN, LONG):
        for option, rule, code in [*rows, ("--not-to", prefix, 2), ("--to", prefix, 0)]:
            with Discovering(prefix) as server, Proxy("--resolver", server.at, option, rule) as proxy:
                for host in (SERVER, "four.test", embedded(prefix, SERVER)):
                    got = proxy.ask(host, 4430)[0]
                    must(got == code, prefix, option, rule, host, got, proxy.said())
