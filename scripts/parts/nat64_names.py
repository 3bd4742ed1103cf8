"""Connects and probes by a built program on a machine with only IPv6, and looks names up there. The name server is
unbound, with DNS64 (RFC 6147) and without, and the network's NAT64 is the translator of the part nat64.

needs: unbound; ip; /dev/net/tun, for the translator; python3's http.server, for a host of a VPN
"""
import contextlib
import pathlib
import re
import sys
import tempfile

import support
from parts.connect import made
from parts.nat64 import HE, HOME, LONG, PRIVATE, SERVER, VPN, WELL_KNOWN, Run, embedded, is_by_nat64, translator
from parts.nat64 import SETUP as MACHINE
from support import TIMEOUT, NotTried, accept_all, greet, is_reached, listener_at, must, needs, server_at, timed

PORT = 53  # of unbound, as a resolver's file has it
AT = f"[::1]:{PORT}"
HOST_PORT = 4430
SETUP = f"""{MACHINE}
mkdir -p /run/netns
mount -t tmpfs tmpfs /run/netns
""" + support.file_of_etc("resolv.conf", "nameserver ::1\n")
# A VPN that leads to one network of IPv4.
VPN_MADE = f"""
ip netns add vpn
ip link add tunnel type veth peer name end netns vpn
ip link set tunnel up
ip address add 10.66.0.2/24 dev tunnel
ip route add {VPN}/32 via 10.66.0.1
ip -n vpn link set lo up
ip -n vpn link set end up
ip -n vpn address add 10.66.0.1/24 dev end
ip -n vpn address add {VPN}/32 dev lo
"""
VPN_UNDONE = "ip link del tunnel; ip netns del vpn"
SOA = "$TTL 60\n@ SOA ns.test. root.test. 1 3600 600 86400 60\n@ NS ns.test.\n"
ZONES = {
    "test": f"ns AAAA ::1\nboth AAAA {HOME}\nboth A {SERVER}\nfour A {SERVER}\nprivate A {PRIVATE}\n"
            "alias CNAME four\n",
    "ipv4only.arpa": "@ A 192.0.0.170\n@ A 192.0.0.171\n",
}
SETTINGS = """
server:
  directory: "{folder}"
  do-daemonize: no
  chroot: ""
  username: ""
  pidfile: ""
  use-syslog: no
  logfile: "log"
  log-queries: yes
  interface: ::1@{port}
  do-ip4: no
  access-control: ::/0 allow
  local-zone: "test." nodefault
remote-control:
  control-enable: no
"""
# A zone that unbound resolves names by, so that its DNS64 sees them. (It does not see local-data.)
ZONE = """
auth-zone:
  name: "{name}."
  zonefile: "{name}"
  for-downstream: no
  for-upstream: yes
  fallback-enabled: no
"""


class Unbound:
    """unbound at AT, as it runs."""

    def __init__(self, log):
        self.log, self.seen = log, 0

    def asked(self):
        """The queries since this was asked last, each as its name and its type."""
        found = re.findall(r"info: ::1 (\S+)\. (AAAA|A) IN$", self.log.read_text(), re.M)
        before, self.seen = self.seen, len(found)
        return found[before:]


@contextlib.contextmanager
def unbound(lines):
    """unbound with the zones, and with more lines of its section `server`."""
    needs("unbound")
    with tempfile.TemporaryDirectory() as name:
        folder = pathlib.Path(name)
        settings = SETTINGS.format(folder=folder, port=PORT).replace("remote-control:", f"{lines}remote-control:")
        for zone, records in ZONES.items():
            (folder / zone).write_text(SOA + records)
            settings += ZONE.format(name=zone)
        (folder / "settings").write_text(settings)
        log = folder / "log"
        with server_at(PORT, "unbound", "-c", folder / "settings",
                       is_there=lambda: log.exists() and "start of service" in log.read_text()):
            yield Unbound(log)


def with_dns64(prefix):
    """unbound with DNS64, which answers with the IPv4 addresses of a name without others, embedded by the prefix."""
    return unbound(f'  module-config: "dns64 validator iterator"\n  dns64-prefix: {prefix}\n')


def without_dns64(*prefixes):
    """unbound without DNS64, except that ipv4only.arpa. has its addresses by these prefixes."""
    found = [embedded(prefix, host) for prefix in prefixes for host in ("192.0.0.170", "192.0.0.171")]
    return unbound('  module-config: "validator iterator"\n'
                   + "".join(f'  local-data: "ipv4only.arpa. AAAA {ip}"\n' for ip in found))


KNOWN = ("ipv4only.arpa", "AAAA")
NONE = "he: this machine has no IPv4, and its network no NAT64\n"
UNKNOWN = ("he: this machine has no IPv4, and its network's NAT64 is unknown: "
           "AAAA of ipv4only.arpa: name server ::1: REFUSED\n")


def queries_for(name):
    """The queries for a name without IPv6 addresses, where a name server without DNS64 is asked."""
    return [(name, "AAAA"), (name, "A"), KNOWN]


def look_up(*words):
    return support.run(HE, "names", "--resolver", AT, *words, timeout=TIMEOUT)


class Probe:
    """A run of `he probe`: its addresses with their outcomes, what it told, its status and its record."""

    def __init__(self, host, port=HOST_PORT):
        with tempfile.TemporaryDirectory() as folder:
            record = pathlib.Path(folder, "record")
            self.done = support.run(HE, "probe", "--record", record, "--resolver", AT, host, port, timeout=TIMEOUT)
            self.record = record.read_text()
        self.status = self.done.returncode
        rows = [re.split(" {2,}", line) for line in self.done.stdout.splitlines()]
        self.outcomes = {row[0]: row[3] for row in rows if len(row) == 5 and row[0] != "address"}

    def must(self, is_right, *told):
        must(is_right, *told, f"status {self.status}, {self.done.stdout!r}, {self.done.stderr!r}, {self.record!r}")


@contextlib.contextmanager
def at_home():
    """A server at this machine's own address; gives its port."""
    with listener_at(HOME) as listener:
        accept_all(listener, greet)
        yield listener.getsockname()[1]


def must_reach(run, at, server, queries):
    """The run reached the host at this address, and unbound was asked for this alone."""
    asked = server.asked()
    run.must(run.status == 0 and run.output == b"hello\n" and run.won == at and asked == queries, at, asked)


def check_dns64():
    """With DNS64 a name is reached by the address that unbound synthesizes, or by its own IPv6 address, after one
    query; the record has no prefix. A literal is reached by the prefix that ipv4only.arpa. shows."""
    translator()
    for prefix in (WELL_KNOWN, LONG):
        at = embedded(prefix, SERVER)
        with with_dns64(prefix) as server, at_home() as port:
            for host, port_there, wanted in [("four.test", HOST_PORT, at), ("alias.test", HOST_PORT, at),
                                             ("both.test", port, HOME)]:
                run = Run("--resolver", AT, host, port_there)
                must_reach(run, wanted, server, [(host, "AAAA")])
                run.must("\nrecord lookup a not-asked\n" in run.record and "nat64" not in run.record)
            run = Run("--resolver", AT, SERVER, HOST_PORT)
            must_reach(run, at, server, [KNOWN])
            run.must(is_by_nat64(run, SERVER, at, prefix))


def check_without_dns64():
    """Without DNS64 the client embeds: a literal, a name that has only IPv4 addresses, and an alias of one. A name
    with an IPv6 address is reached by this."""
    translator()
    for prefix in (WELL_KNOWN, LONG):
        at = embedded(prefix, SERVER)
        with without_dns64(prefix) as server, at_home() as port:
            for host, queries in [(SERVER, [KNOWN]), ("four.test", queries_for("four.test")),
                                  ("alias.test", queries_for("alias.test"))]:
                run = Run("--resolver", AT, host, HOST_PORT)
                must_reach(run, at, server, queries)
                run.must(is_by_nat64(run, host, at, prefix))
            must_reach(Run("--resolver", AT, "both.test", port), HOME, server, [("both.test", "AAAA")])


def check_lengths():
    """For each length of a prefix the client finds the prefix in the addresses that unbound synthesizes, and embeds a
    host as unbound does."""
    with contextlib.ExitStack() as undo:
        for prefix in ("2001:db8::/32", "2001:db8:100::/40", "2001:db8:122::/48", "2001:db8:122:300::/56", LONG,
                       "2001:db8:122:344::/96"):
            with with_dns64(prefix) as server:
                found = re.match(r"aaaa \d+ (\S+)\na \d+ (\S+)\n", look_up("four.test").stdout)
                must(found and found[2] == SERVER, prefix, found)
                local = f"{found[1]}/128", "dev", "lo"
                support.run("ip", "-6", "address", "add", *local, "nodad", check=True)
                undo.callback(support.run, "ip", "-6", "address", "del", *local)
                server.asked()
                with listener_at(found[1], HOST_PORT) as listener:
                    accept_all(listener, greet)
                    run = Run("--resolver", AT, SERVER, HOST_PORT)
                must_reach(run, found[1], server, [KNOWN])
                run.must(f"\nrecord nat64 {prefix}\n" in run.record, prefix)


def check_each_asks():
    """Two literals cost one query each: a client keeps nothing for the next one."""
    translator()
    with without_dns64(LONG) as server:
        for host in (SERVER, PRIVATE):
            run = Run("--resolver", AT, host, HOST_PORT)
            must_reach(run, embedded(LONG, host), server, [KNOWN])


def check_private():
    """No client embeds a private address by 64:ff9b::/96, neither a literal nor that of a name; by a prefix of the
    network's own each does. An address that unbound synthesizes is taken as it is."""
    translator()
    for maker in (with_dns64, without_dns64):
        with maker(WELL_KNOWN) as server:
            run, probe = Run("--resolver", AT, PRIVATE, HOST_PORT), Probe(PRIVATE)
            told = f"he: this machine has no IPv4, and its network's NAT64 no address for {PRIVATE}\n"
            run.must(run.status == 3 and not run.attempts and run.told == told)
            probe.must(probe.status == 3 and not probe.outcomes and "\naaaa " in probe.record)
            must(server.asked() == [KNOWN] * 2, PRIVATE)
    with without_dns64(WELL_KNOWN) as server:
        run = Run("--resolver", AT, "private.test", HOST_PORT)
        run.must(run.status == 3 and not run.attempts and server.asked() == queries_for("private.test"))
    with without_dns64(LONG) as server:
        run = Run("--resolver", AT, "private.test", HOST_PORT)
        must_reach(run, embedded(LONG, PRIVATE), server, queries_for("private.test"))
    with with_dns64(WELL_KNOWN) as server:
        run = Run("--resolver", AT, "private.test", HOST_PORT)
        must_reach(run, embedded(WELL_KNOWN, PRIVATE), server, [("private.test", "AAAA")])


def check_vpn():
    """A literal to which a VPN leads is reached through it, and nothing is asked; any other, through the NAT64."""
    translator()
    command = "ip", "netns", "exec", "vpn", sys.executable, "-m", "http.server", "--bind", VPN, HOST_PORT
    with made(VPN_MADE, VPN_UNDONE), server_at(HOST_PORT, *command, is_there=lambda: is_reached(VPN, HOST_PORT)), \
            without_dns64(WELL_KNOWN) as server:
        run, probe = Run("-z", "--resolver", AT, VPN, HOST_PORT), Probe(VPN)
        run.must(run.status == 0 and run.won == VPN and "nat64" not in run.record)
        probe.must(probe.status == 0 and probe.outcomes == {VPN: "connected"} and "nat64" not in probe.record)
        must(server.asked() == [], VPN)
        must_reach(Run("--resolver", AT, SERVER, HOST_PORT), embedded(WELL_KNOWN, SERVER), server, [KNOWN])


def check_none():
    """A network without a NAT64, and one whose name server refuses to say: nothing is tried, and a client says why."""
    for lines, why in [("", NONE), ('  local-zone: "ipv4only.arpa." refuse\n', UNKNOWN)]:
        with unbound(f'  module-config: "validator iterator"\n{lines}') as server:
            for host, queries in [(SERVER, [KNOWN]), ("four.test", queries_for("four.test"))]:
                lack = "" if host == SERVER else f"he: {host} has no IPv6 address\n"
                run = Run("--resolver", AT, host, HOST_PORT)
                run.must(run.status == 3 and not run.attempts and run.told == lack + why)
                must(server.asked() == queries, host)
                probe = Probe(host)
                probe.must(probe.status == 3 and not probe.outcomes and probe.done.stderr == lack + why)
                must(server.asked() == queries, host)


def check_names():
    """`he names` writes what the name server answers, for both families, and embeds nothing."""
    for maker, six in [(with_dns64, True), (without_dns64, False)]:
        for prefix in (WELL_KNOWN, LONG):
            with maker(prefix) as server:
                for host in ("four.test", "alias.test"):
                    done = look_up(host)
                    wanted = rf"aaaa \d+ {embedded(prefix, SERVER) if six else 'none'}\na \d+ {SERVER}\n"
                    must(done.returncode == 0 and re.fullmatch(wanted, done.stdout), host, done.stdout, done.stderr)
                    must(sorted(server.asked()) == [(host, "A"), (host, "AAAA")], host)
                done = look_up(SERVER)
                must(re.fullmatch(rf"aaaa \d+ none\na \d+ {SERVER}\n", done.stdout), SERVER, done.stdout, done.stderr)
                must(server.asked() == [], SERVER)


def check_probe():
    """A probe goes where a client goes, with DNS64 and without, and asks the same."""
    translator()
    for prefix in (WELL_KNOWN, LONG):
        at = embedded(prefix, SERVER)
        for maker, queries in [(with_dns64, [("four.test", "AAAA")]), (without_dns64, queries_for("four.test"))]:
            with maker(prefix) as server:
                for host, wanted in [("four.test", queries), (SERVER, [KNOWN])]:
                    probe, asked = Probe(host), server.asked()
                    probe.must(probe.status == 0 and probe.outcomes == {at: "connected"}, host)
                    must(asked == wanted, host, asked)
                    probe.must((f"\n{at} is {SERVER}\n" in probe.done.stdout) == (KNOWN in wanted), host)
                    is_embedded = f"\nrecord lookup a nat64\nrecord nat64 {prefix}\n" in probe.record
                    probe.must(is_embedded == (KNOWN in wanted), host)


MOST_MS = 200  # from the start to the last answer, which unbound gives at once


def first_attempt(host):
    """When the first attempt of a connection begins."""
    run = Run("--resolver", AT, host, HOST_PORT)
    run.must(run.attempts)
    return run.attempts[0][0]


def last_answer(lines):
    """When the last answer of these lines came."""
    return max(int(tick) for tick in re.findall(r"(?m)^(?:aaaa|a) (\d+)", lines))


@timed
def check_time():
    """The answers come at once, and the first attempt begins with the last one. (Of three runs the soonest counts.)"""
    translator()
    for maker in (with_dns64, without_dns64):
        with maker(WELL_KNOWN):
            for what, tick in [("connect to a literal", lambda: first_attempt(SERVER)),
                               ("connect to a name", lambda: first_attempt("four.test")),
                               ("probe of a literal", lambda: last_answer(Probe(SERVER).record)),
                               ("probe of a name", lambda: last_answer(Probe("four.test").record)),
                               ("names", lambda: last_answer(look_up("four.test").stdout))]:
                ticks = [tick() for _ in range(3)]
                must(min(ticks) < MOST_MS, maker.__name__, what, ticks)


def check_search():
    """A search list changes nothing: that a name in it does not exist is not that the host's own has no IPv6 address.
    The prefix is asked for without the list."""
    translator()
    resolver = pathlib.Path("/etc/resolv.conf")
    if not resolver.exists():
        raise NotTried("no /etc/resolv.conf")
    before = resolver.read_text()
    with contextlib.ExitStack() as undo:
        undo.callback(resolver.write_text, before)
        resolver.write_text("nameserver ::1\nsearch lacks.test test\n")
        with unbound('  module-config: "validator iterator"\n  local-zone: "four." static\n'
                     f'  local-data: "ipv4only.arpa. AAAA {embedded(LONG, "192.0.0.170")}"\n') as server:
            for host in ("four.test", "four"):
                run, asked = Run(host, HOST_PORT), server.asked()
                run.must(run.status == 0 and run.won == embedded(LONG, SERVER), asked)
                run.must(("four.test", "A") in asked and asked[-1] == KNOWN and asked.count(KNOWN) == 1, asked)
