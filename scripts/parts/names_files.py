"""Has a built program find names by files of hosts and of resolver settings that are set in for it: whom it asks, for
which names, in which order and how soon; beside the system's getaddrinfo.
"""
import datetime
import functools
import itertools
import os
import pathlib
import re
import socket
import sys
import tempfile
import time

import support
from parts.names import (AGAIN, DENIED, NOISE, SLOW, V4, V6, Server, answers_of, finds, lacks, look_up,
                         look_up_with_fault)
from parts.proxy import Proxy
from support import A, AAAA, OPTIONS, file_of_etc, kind_of, must, run, tell, timed

HOSTS_FILE = (f"# a comment\n{V4} one.example One-Alias # two.example\n::5\ttwo.example\n192.0.2.2 two.example\n"
              "192.0.2.2 TWO.example\nnonsense three.example\n0.0.0.0 zero.example\n:: zero.example\n"
              f"{V4} here.localhost localhost\n")
SETUP = support.NETWORK + file_of_etc("hosts", HOSTS_FILE) + file_of_etc("resolv.conf", "") + """
test -e /etc/resolv.conf
ip address add fe80::77/64 dev here nodad
"""
SETTINGS = pathlib.Path("/run/he/resolv.conf")
ALONE = 250  # milliseconds: a server is waited for alone
# Of the loop that looks for a lost wake-up: the look-ups, and the milliseconds that one may take.
LOOKUPS, LONGEST = (20_000, 50) if OPTIONS.full else (500, ALONE - 50)
SEARCH = "domain no.example\nsearch other.x test\n"
MOST_SECONDS = 0.12  # for a look-up in a file of hosts of 150,000 lines: what getent takes

# Texts for a host: the addresses that are found or the line that is printed, and the names of which a name
# server is asked, with `search a.test`. The names are worked out by hand, of the RFCs that forbid to ask.
HOSTS = (
    (["both.test.", "BOTH.test."], ([V6], [V4]), ["both.test"]),
    (["bücher.test.", "BÜCHER.test"], ([V6], [V4]), ["xn--bcher-kva.test"]),
    (["[::1]"], (["::1"], []), []),
    (["[2001:db8::1]"], (["2001:db8::1"], []), []),
    (["fe80::1%lo", "[fe80::1%3]"], (["fe80::1"], []), []),
    (["::ffff:198.51.100.1"], ([], ["198.51.100.1"]), []),
    (["localhost", "www.LocalHost."], (["::1"], ["127.0.0.1"]), []),
    (["here.localhost", "HERE.LocalHost"], ([], [V4]), []),
    (["fe80::1"], "a link-local address needs its interface: fe80::1%eth0", []),
    (["2001:db8::1%lo"], "2001:db8::1 is not link-local and has no interface: write it without '%'", []),
    (["fe80::1%a/b"], "not an interface after '%'", []),
    (["127.1", "2130706433", "0x7f.1", "0177.0.0.1"],
     "not a host name: a number; if the address 127.0.0.1 is meant, write that", []),
    (["192.0.2.256"], "not a host name: it ends in a number", []),
    (["x.onion"], "names in .onion can only be reached through Tor", []),
    (["x.invalid"], "no name in .invalid exists", []),
    (["both.corp.local", "both.CORP.Local."], ([V6], [V4]), ["both.corp.local"]),
    (["x.local"], "names in .local are not asked of name servers: try --resolver system", []),
    (["http://x/", "x:80/"], "not a host name: write only the host, without a scheme or a path", []),
    (["x:80"], "not a host name: ':'; write HOST and PORT apart", []),
    (["u@x"], "not a host name: '@'", []),
    (["a b"], "not a host name: ' '; write HOST and PORT apart", []),
)

# The milliseconds at which both answers come at the least and, but for noise, at the most; and name servers in their
# order.
SERVERS = {
    (0, 0): ["good", "down good", "lame good", "servfail good", "refused good", "bare good", "notimp good",
             "formerr good", "garbage good", "servfail refused good", "old", "older", "oldest", "oldest-bare",
             "cut-off", "cut-off-strange", "strange", "opt", "opt-behind", "code-19 good", "absent-cut-opt good"],
    (ALONE, 270 - NOISE): ["dead good"],
    (ALONE, ALONE): ["slow good", "servfail dead good", "other-id good"],
    (2 * ALONE, 2 * ALONE): ["dead dead good"],
    (1_000 * SLOW, 1_000 * SLOW): ["slow dead", "slow dead dead"],
    (AGAIN, AGAIN): ["loses", "loses dead", "deaf"],
}

# Name servers of which none helps, what is printed of them, AT being the address of the first, and the
# milliseconds that it takes, with `timeout:1 attempts:1`.
FAILURES = (
    ("servfail", "name server AT: SERVFAIL", 0), ("refused servfail", "name server AT: REFUSED", 0),
    ("bare", "name server AT: REFUSED", 0), ("notimp", "name server AT: NOTIMP", 0),
    ("formerr", "name server AT: FORMERR", 0), ("lame", "name server AT: is not responsible for the name and does not ask other servers", 0),
    ("badvers", "name server AT: BADVERS", 0), ("code-19", "name server AT: response code 19", 0),
    ("code-2048", "name server AT: response code 2048", 0),
    *((kind, "name server AT: answered what can't be read", 0)
      for kind in ("two-opts", "owned-opt", "cut-opt", "absent-cut-opt")),
    ("garbage", "name server AT: answered what can't be read", 0), ("down", "name server AT: cannot be reached", 0),
    ("dead", "no name server answers", 1_000), ("other-id", "no name server answers", 1_000),
    ("dead dead", "no name server answers", 1_000 + ALONE), ("dead servfail", "name server AT2: SERVFAIL", 1_000),
)


@functools.cache
def server_at(address, kind=None):
    """A name server, which stays to the end."""
    return Server(address, 53, kind)


def check_hosts_file():
    server_at("127.0.0.1")
    finds("one-alias", [], [V4])
    finds("two.EXAMPLE", ["::5"], ["192.0.2.2"])
    finds("zero.example", ["::1"], ["127.0.0.1"])  # this machine
    finds("both.test", [V6], [V4])  # 127.0.0.1, where the file names no server


def check_getaddrinfo():
    server_at("127.0.0.1")
    SETTINGS.write_text("nameserver 127.0.0.1\n")
    asking = "import socket; print(sorted({a[4][0] for a in socket.getaddrinfo('%s', None)}))"
    for host in ("both.test", "ends.test", "late.test", "one-alias", "many.test"):
        other = run(sys.executable, "-c", asking % host).stdout
        own = sorted({ip for line in look_up(host).stdout.splitlines() for ip in line.split()[2:] if ip != "none"})
        tell(other == f"{own}\n", f"{host} of getaddrinfo", (own, other))
    finds("both.test", [V6], [V4], "--resolver", "system")
    lacks("absent.test", "he: the system's resolver has no address\n", "--resolver", "system")


def check_search():
    """The names that are asked for a host, in their order."""
    server = server_at("127.0.0.1")
    for more, host, names in (
        ("", "both", ["both.other.x", "both.test"]), ("options ndots:2\n", "both.y", ["both.y.other.x", "both.y.test"]),
        ("", "both.y", ["both.y"]), ("", "both.x", ["both.x", "both.x.other.x", "both.x.test"]),
        ("", "both.x.", ["both.x"]), ("search last.x\n", "both", ["both.last.x", "both"]),
        ("search . test\n", "both", ["both"]), ("search .other.x .test\n", "both", ["both.other.x", "both.test"]),
    ):
        SETTINGS.write_text(SEARCH + more)
        server.seen.clear()
        if host == "both.x.":
            lacks(host, "he: no such name\n")
        else:
            finds(host, [V6], [V4])
        tell(server.asked() == names, f"names for {host}", server.asked())


def check_denied():
    """A name that has an address of one family is not passed over, whatever its server says of the other."""
    server = server_at("127.0.0.1")
    SETTINGS.write_text("nameserver 127.0.0.1\nsearch first.test second.test\n")
    for host, v6, v4 in DENIED:
        server.seen.clear()
        finds(host, v6, v4, ticks=lambda *ticks: max(ticks) < AGAIN)
        tell(server.asked() == [f"{host}.first.test"], f"names for {host}", server.asked())


def check_silent_once():
    """A silent server is waited for alone once, however many names are asked for."""
    dead, good = server_at("127.140.0.1", "dead"), server_at("127.140.0.2")
    SETTINGS.write_text("nameserver 127.140.0.1\nnameserver 127.140.0.2\nsearch a.x b.x c.x test\n")
    finds("both", [V6], [V4], ticks=lambda v6, v4: ALONE <= min(v6, v4) and max(v6, v4) < 2 * ALONE)
    # (the silent server may still have the last query to read when the program ends)
    support.comes(lambda: len(dead.asked()) == 4, 2)
    tell(len(dead.asked()) == 4 and dead.asked() == good.asked(), "each is asked", dead.asked(), good.asked())


def check_unsent():
    """Where a query can't be sent, the next server is asked at once."""
    serve(141, "good good")
    done = look_up_with_fault("sendto:error=EPERM:when=1", "both.test")
    found = re.fullmatch(answers_of([V6], [V4]), done.stdout)
    tell(found and max(map(int, found.groups())) < ALONE, "both answers come at once", done.stdout, done.stderr)


def unreadable(path, *words):
    """A run by who may not read the file."""
    path.chmod(0)
    try:
        return run(OPTIONS.program, *words, user=65_534, group=65_534, timeout=support.TIMEOUT)
    finally:
        path.chmod(0o644)


def check_unreadable():
    """A file that is there and can't be read is a fault that names it, and no empty one."""
    server_at("127.0.0.1")
    SETTINGS.write_text("nameserver 127.0.0.1\n")
    for path in (SETTINGS.with_name("hosts"), SETTINGS):
        done = unreadable(path, "names", "both.test")
        wanted = f"he: cannot read /etc/{path.name}: permission denied\n"
        tell(done.returncode == 1 and not done.stdout and done.stderr == wanted, path.name, done.stdout, done.stderr)
    done = unreadable(SETTINGS.with_name("hosts"), "names", V4)
    tell(done.returncode == 0, "the file of hosts is not read for an address", done.stderr)


def check_local():
    """A name with one label in `.local` is asked for where the search list has a domain in it."""
    server = server_at("127.0.0.1")
    for search, asked in (("corp.local", ["both.local", "both.local.corp.local"]), ("Local a.x", ["both.local"])):
        SETTINGS.write_text(f"nameserver 127.0.0.1\nsearch {search}\n")
        server.seen.clear()
        finds("both.local", [V6], [V4])
        tell(server.asked() == asked[:1], f"names with `search {search}`", server.asked())
    SETTINGS.write_text("nameserver 127.0.0.1\nsearch local.x\n")
    lacks("both.local", "he: names in .local are not asked of name servers: try --resolver system\n")


def check_options():
    """`use-vc` asks over TCP alone, and `no-aaaa` for IPv4 alone."""
    server = server_at("127.0.0.1")
    SETTINGS.write_text("nameserver 127.0.0.1\noptions use-vc\n")
    server.seen.clear()
    finds("both.test", [V6], [V4])
    tell(not server.seen, "no datagram leaves", server.seen)
    SETTINGS.write_text("nameserver 127.0.0.1\noptions no-aaaa\n")
    finds("both.test", [], [V4])
    tell({kind_of(query) for _, query, _ in server.seen} == {A}, "A alone is asked for", server.asked())
    done = look_up("both.test", "-v")
    tell("AAAA not asked (option no-aaaa)\n" in done.stderr, "it is told", done.stderr)


def check_environment():
    """LOCALDOMAIN takes the place of the search list, and RES_OPTIONS counts after the options of the file."""
    server = server_at("127.0.0.1")
    SETTINGS.write_text("nameserver 127.0.0.1\nsearch a.x\noptions ndots:0\n")
    for variables, asked in (({}, ["both"]), ({"RES_OPTIONS": "ndots:1"}, ["both.a.x", "both"]),
                             ({"LOCALDOMAIN": "b.x test", "RES_OPTIONS": "ndots:1"}, ["both.b.x", "both.test"]),
                             ({"LOCALDOMAIN": "", "RES_OPTIONS": "ndots:3"}, ["both"])):
        server.seen.clear()
        done = run(OPTIONS.program, "names", "both", env={**os.environ, **variables}, timeout=support.TIMEOUT)
        tell(done.returncode == 0 and server.asked() == asked, f"names with {variables}", server.asked(), done.stderr)
    done = run(OPTIONS.program, "connect", "-z", "-v", "both", "9", timeout=support.TIMEOUT,
               env={**os.environ, "RES_OPTIONS": "no-aaaa"})
    tell("AAAA not asked (option no-aaaa)\n" in done.stderr, "he connect reads it", done.stderr)


def check_words():
    """The lines on look-ups count what is kept, and say who answered."""
    server_at("127.0.0.1")
    SETTINGS.write_text("nameserver 127.0.0.1\n")
    for host, words, wanted in (("hundreds.test", (), "A answer: 256 addresses from 127.0.0.1\n"),
                                ("both.test", ("--resolver", "system"),
                                 "A answer: 1 address from the system's resolver\n"),
                                ("one-alias", (), "A answer: 1 address, no name server asked\n")):
        done = look_up(host, "-v", *words)
        tell(done.returncode == 0 and wanted in done.stderr, f"{host} {words}", done.stderr)


@timed
def check_many_lines():
    """A file of hosts of 150,000 lines is read once for a connection, and not for an address."""
    path = SETTINGS.with_name("hosts")
    before = path.read_text()
    path.write_text(before + "".join(f"0.0.0.0 host-{n}.advertising.example.net\n" for n in range(150_000)))
    try:
        for command in ("names", "connect"):
            words = ("-z", "one-alias", "9") if command == "connect" else ("one-alias",)
            done = traced(command, *words)
            tell(done.count('"/etc/hosts"') == 1, f"he {command} reads the file once", done)
        must('"/etc/hosts"' not in traced("connect", "-z", V4, "9"), "it is not read for an address")
        took = min(seconds_of("names", "one-alias") for _ in range(5))
        tell(took < MOST_SECONDS, "seconds for a file of 150,000 lines", took)
    finally:
        path.write_text(before)


def traced(*words):
    support.needs("strace")
    with tempfile.NamedTemporaryFile("r") as trace:
        run("strace", "-f", "-qq", "-e", "openat", "-o", trace.name, OPTIONS.program, *words, timeout=support.TIMEOUT)
        return trace.read()


def seconds_of(*words):
    before = time.monotonic()
    run(OPTIONS.program, *words, timeout=support.TIMEOUT)
    return time.monotonic() - before


def check_again():
    """A server that is down is passed over, and one that does not answer is asked again."""
    server, _ = server_at("127.0.0.1"), server_at("127.0.0.2")
    SETTINGS.write_text("nameserver 127.0.0.3\nnameserver 127.0.0.2\noptions timeout:1 attempts:1\n")
    finds("both.test", [V6], [V4])  # the first server is down
    SETTINGS.write_text("nameserver 127.0.0.1\noptions timeout:1 attempts:2\n")
    server.seen.clear()
    finds("half.test", [], [V4], ticks=lambda v6, v4: v4 < 500 and 2_000 <= v6 < 2_900,
          told="he: AAAA: no name server answers: half.test\n")
    times = [at for at, query, _ in sorted(server.seen) if kind_of(query) == AAAA][-2:]
    tell(len(times) == 2 and 0.9 < times[1] - times[0] < 1.9, "AAAA is asked for twice", times)
    SETTINGS.write_text("nameserver 127.0.0.1\noptions timeout:1 attempts:1\n")
    for label in ("dead", "other-id", "other-question", "short"):
        lacks(f"{label}.test", "he: no name server answers\n", millis=1_000)


def check_hosts():
    """Each row of the table of hosts, with the names that leave for it."""
    server = server_at("127.98.0.1", "good")
    SETTINGS.write_text("nameserver 127.98.0.1\nsearch a.test\n")
    for host, wanted, names in ((host, *rest) for hosts, *rest in HOSTS for host in hosts):
        server.seen.clear()
        if isinstance(wanted, str):
            lacks(host, f"he: {re.escape(wanted)}\n")
        else:
            finds(host, *wanted)
        tell(server.asked() == names, f"what leaves for {host}", server.asked())


def check_zone():
    """A name server on the link of an interface."""
    server_at("fe80::77%here", "good")
    for zone in ("here", socket.if_nametoindex("here")):
        SETTINGS.write_text(f"nameserver fe80::77%{zone}\n")
        finds("both.test", [V6], [V4], what=f"at fe80::77%{zone} ")
    SETTINGS.write_text("nameserver fe80::77%none\nnameserver fe80::77%here\n")
    finds("both.test", [V6], [V4], what="after an interface that is not there ")


def check_zone_of_resolver():
    """The name server that the command line names may be on the link of an interface."""
    server, number = server_at("fe80::77%here", "good"), socket.if_nametoindex("here")
    SETTINGS.write_text("nameserver 127.0.0.3\n")  # which is down
    for zone in ("here", number):
        finds("both.test", [V6], [V4], "--resolver", f"fe80::77%{zone}")
    server.seen.clear()
    done = run(OPTIONS.program, "connect", "-z", "-v", "both.test", "9", "--resolver", "fe80::77%here",
               "--timeout", "300ms", timeout=support.TIMEOUT)
    tell(f"1 address from fe80::77%{number}\n" in done.stderr and server.seen, "he connect asks it", done.stderr)
    server.seen.clear()
    with Proxy("--resolver", "fe80::77%here", "--timeout", "300ms", at="127.0.0.1") as proxy:
        proxy.ask("both.test.", 9, seconds=5)
        tell(kind_of(server.seen[0][1]) in (A, AAAA) if server.seen else False, "he proxy asks it", proxy.said())
    done = look_up("both.test", "--resolver", "fe80::77%none")
    wanted = "he: the interface after '%' of the name server does not exist: `ip link` lists those that do\n"
    tell(done.returncode == 1 and done.stderr == wanted, "an interface that is not there", done.stderr)
    told = "he: invalid value for '--resolver <RESOLVER>': "
    for text, why in (("2001:db8::1%here", "2001:db8::1 is not link-local and has no interface: write it without '%'"),
                      ("fe80::77%", "not an interface after '%'"), ("fe80::77%a/b", "not an interface after '%'"),
                      ("192.0.2.1%here", "neither an address, alone or with a port or an interface, nor `system`")):
        lacks("both.test", f"{re.escape(told + why)}\n.*", "--resolver", text, status=2)


def serve(row, kinds, options=""):
    """Starts name servers of these kinds, but for one that is down, and names them in the file of settings."""
    servers = {f"127.{row}.0.{at}": kind for at, kind in enumerate(kinds.split(), 1)}
    SETTINGS.write_text("".join(f"nameserver {name}\n" for name in servers) + options)
    return [server_at(name, kind) for name, kind in servers.items() if kind != "down"]


# The record lines of a look-up, without the first, by the kinds of its name servers: SERVER is the first one.
SAID = {
    "good": [], "slow": [], "denies": ["lookup aaaa no-such-name"], "denies-four": ["lookup a no-such-name"],
    "dead good": [r"server SERVER silent [2-5]\d\d"], "down good": [r"server SERVER unreachable \d{1,3}"],
    "servfail good": [r"server SERVER failed \d{1,3}"], "refused good": [r"server SERVER refused \d{1,3}"],
    "garbage good": [r"server SERVER failed \d{1,3}"],
    "half": ["lookup aaaa no-answer", r"server SERVER silent 1[0-3]\d\d"],
}


def check_record():
    """The record lines of a look-up say when it began, why a family has no address, and which name server gave no
    answer. They go before a race of `he host` and the answers, which is the race without them. A look-up that finds
    nothing, and a file that can't be made, leave the old file."""
    with tempfile.TemporaryDirectory() as folder:
        path = pathlib.Path(folder, "record")
        for row, (kinds, wanted) in enumerate(SAID.items(), 160):
            serve(row, kinds, "options timeout:1 attempts:1\n")
            began = time.time()
            done = look_up("both.test", "--record", path)
            text = path.read_text()
            first, *said = re.findall("(?m)^record (.*)$", text)
            at = datetime.datetime.fromisoformat(first.removeprefix("at ").removesuffix("Z") + "+00:00").timestamp()
            lines = [line.replace("SERVER", re.escape(f"127.{row}.0.1")) for line in wanted]
            is_right = len(said) == len(lines) and all(map(re.fullmatch, lines, said)) and first.startswith("at ")
            tell(is_right and began - 0.01 <= at <= time.time(), f"record lines, {kinds}:", text, done.stdout)
            race = f"race 1\n{run(OPTIONS.program, 'host').stdout}{done.stdout}end\n"
            checked = run(OPTIONS.program, "check", input=text + race)
            tell(checked.returncode == 0 and support.replayed(text + race) == support.replayed(race),
                 f"a race with record lines, {kinds}:", checked.stderr, text + race)
        path.write_text("old\n")
        serve(190, "absent")
        look_up("absent.x", "--record", path)
        tell(path.read_text() == "old\n", "no address:", path.read_text())
        missing = look_up("both.test", "--record", pathlib.Path(folder, "no", "record"))
        tell(missing.returncode == 1 and missing.stdout == "" and "/no/record: No such file" in missing.stderr, missing)
        refused = look_up("both.test", "--record", "-")
        tell(refused.returncode == 2 and "standard output (`-`) has the answers" in refused.stderr, refused)


def check_servers():
    """Each row of the tables above, in the time that it says."""
    rows = itertools.count(1)
    for (least, most), each in SERVERS.items():
        for kinds in each:
            servers = serve(next(rows), kinds)
            finds("both.test", [V6], [V4], what=f"{kinds} ", begin=lambda: [server.seen.clear() for server in servers],
                  ticks=lambda v6, v4: least <= min(v6, v4) and max(v6, v4) <= most + NOISE)
    for row, (kinds, fault, millis) in enumerate(FAILURES, 100):
        serve(row, kinds, "options timeout:1 attempts:1\n")
        told = fault.replace("AT2", f"127.{row}.0.2").replace("AT", f"127.{row}.0.1")
        lacks("both.test", f"he: {re.escape(told)}\n", what=f"{kinds} ", millis=millis)


@timed
def check_close_answers():
    """Both answers come at once, the one while the program looks at the other: no look-up waits for a timer."""
    serve(99, "close")
    late = []
    for _ in range(LOOKUPS):
        ticks = [int(line.split()[1]) for line in look_up("both.test").stdout.splitlines()]
        if len(ticks) != 2 or max(ticks) >= LONGEST:
            late.append(ticks)
    must(not late, "answers that come close together:", late)
