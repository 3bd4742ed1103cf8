"""Has a built program find names of a name server on this machine: a fake one, which answers also late, cut off, not
at all, or with what a stranger might send; and dnsmasq, with drawn names and dig as a second opinion.

needs: dnspython for mutated messages, dnsmasq and dig. With --full it makes 20,000 look-ups, none of which may be late.
"""
import contextlib
import json
import random
import re
import socket
import struct
import sys
import time

import support
from support import (A, AAAA, BADVERS, CNAME, FORMERR, NOTIMP, NXDOMAIN, OPT, OPTIONS, OWN_NAME, REFUSED, SERVFAIL,
                     NotTried, addresses, data_of, kind_of, labels_of, message, must, opt, question_of, record, tell,
                     wire)

SETUP, ANYWHERE = "ip link set lo up", True
SERVER, OTHER, DOWN = "127.0.0.77", "127.0.0.78", "127.0.0.79"
LATE = 0.3  # seconds by which an AAAA answer is late
SLOW = 0.4  # seconds after which a slow server answers
NOISE = 120  # milliseconds by which a busy machine may be late
AGAIN = 1_000  # milliseconds after which a query is sent again
DEBIAN = "/usr/lib/python3/dist-packages"  # where Debian has dnspython, also for another python3 than its own
MUTANTS, MUTANT_SEED = 4_000 if OPTIONS.full else 400, 61  # drawn messages
STEADY, MOST_STEADY = (20_000, 50) if OPTIONS.full else (200, 50)  # look-ups, and milliseconds of the slowest
V6, V4 = "2001:db8::1", "192.0.2.1"
MANY = [f"192.0.2.{n}" for n in range(1, 41)]
HUNDREDS = [f"198.18.{n // 250}.{n % 250}" for n in range(300)]
DRAWN, ZONE_SEED = 100, 41  # names of the drawn zone
# Of names of which a server says for one family that there is none: those of the other family.
DENIED = [("denies", [], [V4]), ("denies-early", [], [V4]), ("denies-four", [V6], [])]


def replies(what, query, stream):
    """The reply of a server that answers so: messages, each after a wait in seconds."""
    kind = kind_of(query)
    ip, room = data_of(V6 if kind == AAAA else V4), 65_535 - len(message(query)) - 12
    found = addresses(kind, V6, V4)
    good, cut_off = message(query, found), message(query, truncated=True)
    absent, is_plain = message(query, code=NXDOMAIN), len(query) == 12 + len(question_of(query))
    strange = message(query, addresses(kind, "2001:db8::bad", "192.0.2.66"), ident=bytes(b ^ 1 for b in query[:2]))
    itself = b"\xc0" + bytes([12 + len(question_of(query))])
    single = {
        "absent": absent, "nodata": message(query), "lame": message(query, flags=0x8100),
        "servfail": message(query, code=SERVFAIL), "refused": message(query, code=REFUSED),
        "bare": message(query, code=REFUSED, question=b""), "notimp": message(query, code=NOTIMP),
        "formerr": message(query, code=FORMERR, question=b""),
        "old": good if is_plain else message(query, code=FORMERR, question=b""),
        "older": good if is_plain else message(query, code=NOTIMP),
        "oldest": good if is_plain else message(query, code=BADVERS),
        "oldest-bare": good if is_plain else message(query, code=BADVERS, question=b""),
        "badvers": message(query, code=BADVERS), "code-19": message(query, code=16 + NXDOMAIN),
        "code-2048": message(query, found, code=0x800), "opt": message(query, found, more=[opt()]),
        "opt-behind": message(query, found, more=[*found, opt()]),
        "two-opts": message(query, found, more=[opt(), opt()]), "cut-opt": message(query, found, more=[opt()])[:-1],
        "owned-opt": message(query, found, more=[opt(owner=wire("opt.test"))]),
        "absent-cut-opt": message(query, code=NXDOMAIN, more=[opt()])[:-1],
        "garbage": good[:-1], "short": message(query)[:11], "counts": message(query, found, count=40_000),
        "loop": message(query, [record(itself, kind, ip)]),
        "long": message(query, [record((b"\x3f" + b"x" * 63) * 4 + b"\x2b" + b"x" * 43 + b"\0", kind, b"\0" * 4)]),
        "cnames": message(query, [record(wire("cnames.test"), CNAME, wire("cnames.test"))]),
        "ends": message(query, [record(OWN_NAME, CNAME, wire("two.test")),
                                record(wire("two.test"), CNAME, wire("three.test")),
                                record(wire("THREE.test"), kind, ip)]),
        "other-id": strange,
        "other-question": message(query, found, question=wire("evil.test") + question_of(query)[-4:]),
        "many": message(query, addresses(kind, V6, *MANY)) if stream else cut_off,
        "hundreds": message(query, addresses(kind, V6, *HUNDREDS)) if stream else cut_off,
        "cut-off": good if stream else cut_off, "zero": message(query, addresses(kind, "::", "0.0.0.0")),
    }
    several = {
        "late": [(LATE if kind == AAAA else 0, good)], "slow": [(SLOW, good)], "dead": [],
        "denies": [(0, absent)] if kind == AAAA else [(0.001, good)], "deaf": [(0, good)] if is_plain else [],
        "denies-early": [(0, absent)] if kind == AAAA else [(0.02, good)],
        "denies-four": [(0, absent)] if kind == A else [(0.02, good)],
        "cut-late": [(LATE, cut_off)] if kind == AAAA else [(0, good)],
        "half": [(0, good)] if kind == A else [], "strange": [(0, strange), (0, b"?"), (0, good)],
        "cut-off-strange": [(0, strange), (0, good)] if stream else [(0, cut_off)],
    }
    if what == "pieces":
        filler = record(OWN_NAME, 16, b"y" * 65_000)
        filler += record(OWN_NAME, 16, b"z" * (room - len(b"".join(found)) - len(filler)))
        return [(0, message(query, [*found, filler], count=len(found) + 2) if stream else cut_off)]
    return several[what] if what in several else [(0, single.get(what, good))]


class Server(support.NameServer):
    """The fake name server, which answers by the name's first label. One of a kind answers every query in its way; one
    that loses queries passes over the first one of each type that it gets."""

    def __init__(self, address, port=0, kind=None):
        self.kind, self.held = kind, {}
        super().__init__(address, port)

    def replies(self, query, stream):
        labels = labels_of(query)
        return replies(self.kind or ("absent" if labels[-1] == "x" else labels[0]), query, stream)

    def take(self, query, peer):
        if self.kind == "close":
            self.answer_close(query, peer)
        elif self.kind != "loses" or sum(kind_of(other) == kind_of(query) for _, other, _ in self.seen) > 1:
            super().take(query, peer)

    def answer_close(self, query, peer):
        """Holds a query back until the other one is there, and then answers both, A first, right after each other."""
        self.held[kind_of(query)] = (message(query, addresses(kind_of(query), V6, V4)), peer)
        if len(self.held) == 2:
            for kind in (A, AAAA):
                self.datagrams.sendto(*self.held.pop(kind))

    def asked(self):
        """The names that it was asked for, in their order."""
        return list(dict.fromkeys(".".join(labels_of(query)) for _, query, _ in sorted(self.seen)))


def answers_of(v6, v4):
    """A pattern of what is written of these addresses, with the ticks as its groups."""
    return "".join(rf"{word} (\d+) {re.escape(' '.join(ips) or 'none')}\n" for word, ips in (("aaaa", v6), ("a", v4)))


def look_up(*words):
    return support.run(OPTIONS.program, "names", *words, timeout=support.TIMEOUT)


def finds(host, v6, v4, *words, ticks=lambda v6, v4: max(v6, v4) < NOISE, what="", told="", begin=lambda: None):
    """The host has these addresses, in this order, and the ticks are right, each try after this beginning; printed is
    why the look-up of a family failed."""
    def attempt():
        begin()
        done = look_up(host, *words)
        found = re.fullmatch(answers_of(v6, v4), done.stdout)
        return not found or ticks(*map(int, found.groups())), found, done

    on_time, found, done, _ = support.settled(attempt, f"{host} {what}")
    right = found and on_time and done.returncode == (1 if told else 0) and done.stderr == told
    tell(right, f"{host} {what}{words}", (done.returncode, done.stdout, done.stderr))
    return done.stdout


def lacks(host, fault, *words, status=1, millis=0, what=""):
    """The host has no address, for this reason, which is printed with the host's name, after this many milliseconds."""
    def attempt():
        before = time.monotonic()
        done = look_up(host, *words)
        took = 1_000 * (time.monotonic() - before)
        return millis <= took < millis + 3 * NOISE, took, done

    on_time, took, done, _ = support.settled(attempt, f"{host} {what}")
    told = fault.replace("\n", f": {re.escape(host)}\n") if status == 1 else fault
    right = done.returncode == status and not done.stdout and re.fullmatch(told, done.stderr, re.DOTALL)
    tell(right and on_time, f"{host} {what}{words}", (done.returncode, done.stdout, done.stderr, took))


def check_server():
    server = Server(SERVER)
    words = ("--resolver", server.at)
    done = finds("both.test", [V6], [V4], *words)
    race = support.run(OPTIONS.program, "check", input=f"race 1\n{done}end\n")
    tell(race.stdout.startswith("1 race, 4 lines\n"), "a timeline has these answers", (race.stdout, race.stderr))
    queries = sorted(server.seen)[-2:]
    kinds = [kind_of(query) for _, query, _ in queries]
    tell(kinds == [AAAA, A], "AAAA leaves first", kinds)
    for _ in range(5):
        look_up("both.test", *words)
    seen = {"ids": {query[:2] for _, query, _ in server.seen}, "ports": {port for *_, port in server.seen}}
    tell(all(len(each) > 8 for each in seen.values()), "ids and ports differ", seen)
    finds("zero.test", ["::1"], ["127.0.0.1"], *words)
    for host in ("BOTH.Test.", "ends.test"):
        finds(host, [V6], [V4], *words)
    finds("late.test", [V6], [V4], *words, ticks=lambda v6, v4: v4 < 200 and 300 <= v6 < 600)
    finds("many.test", [V6], MANY, *words)
    done = look_up("many.test", "--json", *words)
    whole = json.loads(done.stdout or "{}")
    ticks = [whole[family].pop("tick") for family in ("aaaa", "a") if family in whole]
    wanted = {"host": "many.test", "aaaa": {"addresses": [V6]}, "a": {"addresses": MANY}}
    tell(whole == wanted and max(ticks) < 10 * NOISE, "an object has the same", (done.stdout, done.stderr))
    for host, v6, v4 in (("pieces.test", [V6], [V4]), ("strange.test", [V6], [V4]), (V6, [V6], []), (V4, [], [V4])):
        finds(host, v6, v4, *words)
    lacks("absent.test", "he: no such name\n", *words)
    lacks("nodata.test", "he: the name has no address\n", *words)
    for label in ("servfail", "refused", "loop", "long", "counts"):
        lacks(f"{label}.test", "he: .*server.*\n", *words)
    aliases = "answered more than 16 aliases in a row, as in a loop of them"
    lacks("cnames.test", f"he: name server {server.at}: {aliases}\n", *words)
    for host in ("a..b", "x" * 64 + ".test"):
        lacks(host, "he: not a host name: .*\n", *words)
    lacks("", "he: invalid value for HOST: the host is empty\n.*", *words, status=2)
    down = f"{DOWN}:{server.port}"
    lacks("both.test", f"he: name server {down}: cannot be reached\n", "--resolver", down)
    for resolver in ("nonsense", "192.0.2.1:0"):
        lacks("both.test", "he: .*", "--resolver", resolver, status=2)
    finds("localhost", ["::1"], ["127.0.0.1"], "--resolver", "system")
    with contextlib.suppress(OSError):
        finds("both.test", [V6], [V4], "--resolver", Server("::1").at)


def check_denied():
    """That there is no such name is an answer for the type that was asked for alone (RFC 4074 section 4.2)."""
    server = Server(SERVER)
    for host, v6, v4 in DENIED[:1] * 10 + DENIED:
        finds(f"{host}.test", v6, v4, "--resolver", server.at, ticks=lambda *ticks: max(ticks) < AGAIN)


@support.timed
def check_steady():
    """Of many look-ups none is late."""
    server, slowest = Server(SERVER), 0
    for _ in range(STEADY):
        done = support.run(OPTIONS.program, "names", "--resolver", server.at, "both.test", timeout=support.TIMEOUT,
                           preexec_fn=support.first_of_all)
        found = re.fullmatch(answers_of([V6], [V4]), done.stdout)
        must(found and done.returncode == 0, done.returncode, done.stdout, done.stderr)
        slowest = max(slowest, *map(int, found.groups()))
    print(f"    {STEADY} look-ups, the slowest {slowest} ms")
    must(slowest <= MOST_STEADY, f"a look-up of {slowest} ms")


def look_up_with_fault(fault, *words):
    """A look-up in which system calls fail, by strace: `CALL:error=FAULT:when=N`."""
    support.needs("strace")
    tracing = ["strace", "-f", "-qq", "-o", "/dev/null", "-e", f"inject={fault}"]
    return support.run(*tracing, OPTIONS.program, "names", *words, timeout=support.TIMEOUT)


def check_unsent():
    """A datagram that can't be sent is as one that is lost, and only a server to which there is no way fails."""
    server = Server(SERVER)
    words = ("both.test", "--resolver", server.at)
    for fault in ("EPERM", "ENOBUFS", "EAGAIN", "ENOMEM", "EINTR"):
        done = look_up_with_fault(f"sendto:error={fault}:when=1", *words)
        found = re.fullmatch(answers_of([V6], [V4]), done.stdout)
        late = found and int(found[1]) - int(found[2])
        least, most = (-AGAIN / 2, AGAIN / 2) if fault == "EINTR" else (AGAIN - NOISE, 2 * AGAIN - NOISE)
        tell(found and done.returncode == 0 and least <= late < most, f"{fault} of sendto", done.stdout, done.stderr)
    for fault in ("ENETUNREACH", "EHOSTUNREACH", "ECONNREFUSED"):
        done = look_up_with_fault(f"sendto:error={fault}:when=1", *words)
        wanted = f"he: AAAA: name server {server.at}: cannot be reached: both.test\n"
        tell(done.returncode == 1 and done.stderr == wanted, f"{fault} of sendto", done.stdout, done.stderr)


def check_descriptors():
    """That no descriptor is left is said as such, over UDP and over TCP."""
    server = Server(SERVER)
    for host, nth, told in (("both.test", 1, "too many open files"),
                            ("cut-late.test", 3, "AAAA: too many open files: cut-late.test")):
        done = look_up_with_fault(f"socket:error=EMFILE:when={nth}+", host, "--resolver", server.at)
        tell(done.returncode == 1 and done.stderr == f"he: {told}\n", host, done.stdout, done.stderr)


def base_message(draw, query):
    """A right answer of one of several shapes: addresses, aliases before or after them, records of other types."""
    kind, records = kind_of(query), []
    own, last = OWN_NAME, OWN_NAME
    for at in range(draw.choice((0, 0, 1, 2))):
        target = wire(f"alias-{at}.test")
        records.append(record(last, CNAME, target))
        last = target
    if draw.random() < 0.3:
        records.append(record(own, 16, bytes([3]) + b"abc"))
    numbers = draw.sample(range(1, 200), draw.choice((0, 1, 1, 2, 3)))
    given = [f"2001:db8::{n:x}" if kind == AAAA else f"192.0.2.{n}" for n in numbers]
    records += [record(last, kind, data_of(ip)) for ip in given]
    draw.shuffle(records)
    more = [opt(draw.choice((0, 0, 0, 16, 19))) for _ in range(draw.choice((0, 0, 0, 1, 1, 1, 2)))]
    return message(query, records, flags=draw.choice((0x8180, 0x8180, 0x8180, 0x8580, 0x8100)), more=more)


def mutated(draw, whole):
    """The message with one to four changes: bytes, header words, pieces left out or put in twice, an end cut off."""
    data = bytearray(whole)
    for _ in range(draw.choice((1, 1, 2, 4))):
        at = draw.randrange(len(data)) if data else 0
        change = draw.randrange(7)
        if change == 0 and data:
            data[at] ^= 1 << draw.randrange(8)
        elif change == 1 and data:
            data[at] = draw.choice((0, 1, 12, 63, 64, 192, 255))
        elif change == 2 and len(data) > 8:
            word = draw.choice((2, 2, 4, 6, 6, 8, 10))
            value = draw.choice((0, 1, 2, 3, 0x8180, 0x8182, 0x8183, 0x8185, 0x8380, 0x8181, 0x100))
            data[word:word + 2] = struct.pack("!H", value)
        elif change == 3:
            del data[at:at + draw.choice((1, 2, 4))]
        elif change == 4:
            data[at:at] = data[at:at + draw.choice((1, 2, 4, 16))]
        elif change == 5:
            del data[at:]
        else:
            data[at:at + 2] = struct.pack("!H", 0xc000 + draw.randrange(80))
    return bytes(data)


def code_of(told, low, counts):
    """The code of a response whose sections, of these numbers of records, come next, by the lower bits in its header
    and the upper ones in an OPT record; None where there is no telling."""
    opts = []
    try:
        for section, count in enumerate(counts):
            for _ in range(count):
                owner = told.get_name()
                kind, _, ttl, size = told.get_struct("!HHIH")
                told.get_bytes(size)
                if section == 2 and kind == OPT:
                    opts.append((len(owner), ttl >> 24))
    except Exception:
        return None if low in (0, NXDOMAIN) else low
    if len(opts) > 1 or any(labels > 1 for labels, _ in opts):
        return None if low in (0, NXDOMAIN) else low
    return low + 16 * sum(upper for _, upper in opts)


def read_plainly(parser, data, query):
    """The answer of a message to the query, read without the program: a word, and the addresses. (The parser is that of
    dnspython.)"""
    if len(data) < 12:
        return "passed over", []
    told, asking = parser(data), parser(query, 12)
    ident, flags, questions, *counts = told.get_struct("!2s5H")
    wanted, kind_and_class = asking.get_name(), asking.get_bytes(4)
    if ident != query[:2] or flags >> 11 != 16:
        return "passed over", []
    if questions == 0:
        return "passed over" if code_of(told, flags & 15, counts) in (None, 0, NXDOMAIN) else "fails", []
    try:
        asked = told.get_name(), told.get_bytes(4)
    except Exception:
        return "passed over", []
    if questions != 1 or asked != (wanted, kind_and_class):
        return "passed over", []
    code = code_of(parser(data, told.current), flags & 15, counts)
    if flags & 0x200 or code != 0:
        return "cut off" if flags & 0x200 else "no such name" if code == NXDOMAIN else "fails", []
    aliases, found = {}, []
    try:
        for _ in range(counts[0]):
            owner = told.get_name()
            kind, of_class, _, size = told.get_struct("!HHIH")
            with told.restrict_to(size):  # which must be all that is read
                if (kind, of_class) == (CNAME, 1):
                    aliases.setdefault(owner, told.get_name())
                elif (kind, of_class) == (kind_of(query), 1):
                    found.append((owner, told.get_bytes(16 if kind == AAAA else 4)))
                else:
                    told.get_bytes(size)
    except Exception:
        return "fails", []
    host = wanted
    for _ in range(16):
        host = aliases.get(host, host)
    family = socket.AF_INET6 if kind_of(query) == AAAA else socket.AF_INET
    ips = list(dict.fromkeys(socket.inet_ntop(family, ip) for owner, ip in found if owner == host))
    if host in aliases or not ips and not flags & 0x480:
        return "fails", []
    return "addresses" if ips else "no address", ips


class Mutant(Server):
    """Answers one type with a drawn message, and a right one right after it; the other type has no address. Names
    that begin with `t` are cut off over UDP and answered so over TCP."""

    def send(self, query, put, stream):
        label = labels_of(query)[0]
        drawn_kind = AAAA if int(label[1:]) % 2 else A
        if kind_of(query) != drawn_kind:
            return put(message(query))
        if label[0] == "t" and not stream:
            return put(message(query, truncated=True))
        if label[0] == "u" and stream:
            return put(message(query, addresses(drawn_kind, "2001:db8::fa11", "192.0.2.250")))
        draw = random.Random(f"{MUTANT_SEED} {label}")
        drawn = mutated(draw, base_message(draw, query))
        self.sent = (query, drawn)
        put(drawn)
        time.sleep(0.003)
        with contextlib.suppress(OSError):
            put(message(query, addresses(drawn_kind, "2001:db8::fa11", "192.0.2.250")))


def check_mutants():
    """Drawn messages over UDP and over TCP: the program reads of each what a plain reader reads."""
    sys.path.append(DEBIAN)
    try:
        from dns.wire import Parser
    except ImportError:
        raise NotTried("no dnspython") from None
    server, wrong, seen = Mutant(SERVER), [], {}
    for at in range(MUTANTS):
        label = f"{'ut'[at // 2 % 2]}{at}"
        server.sent = None
        done = look_up(f"{label}.test", "--resolver", server.at)
        query, drawn = server.sent
        told, ips = read_plainly(Parser, drawn, query)
        seen[told] = seen.get(told, 0) + 1
        if told == "passed over" or (told == "cut off" and label[0] == "u"):
            told, ips = "addresses", ["2001:db8::fa11" if at % 2 else "192.0.2.250"]
        wanted = {
            "addresses": (0, answers_of(*((ips, []) if at % 2 else ([], ips)))),
            "no address": (1, f"he: the name has no address: {label}.test\n"),
            "no such name": (1, f"he: no such name: {label}.test\n"),
        }.get(told, (1, f"he: name server .*: {label}.test\n"))
        if done.returncode != wanted[0] or not re.fullmatch(wanted[1], done.stdout + done.stderr):
            wrong.append((label, told, ips, drawn.hex(), done.stdout + done.stderr))
    print(f"    {MUTANTS} mutated messages: {seen}")
    must(not wrong, *wrong[:5])


def drawn_zone():
    """Names with one to six addresses each, of one family or of both, every third an alias of an earlier one."""
    draw, names, records = random.Random(ZONE_SEED), [], []
    for at in range(DRAWN):
        name = f"drawn-{at}.test"
        if at % 3 == 2:
            records.append(f"--cname={name},{draw.choice(names)}")
        else:
            ips = draw.sample([f"2001:db8::{n:x}" for n in range(1, 400)], 3)
            ips += draw.sample([f"198.51.100.{n}" for n in range(1, 255)], 3)
            records += [f"--host-record={name},{ip}" for ip in draw.sample(ips, draw.randint(1, 6))]
        names.append(name)
    return names, records


def check_dnsmasq():
    """Names as dig finds them."""
    support.needs("dig")
    records = ["--host-record=both.test,192.0.2.1,2001:db8::1", "--host-record=four.test,192.0.2.4",
               "--cname=alias.test,both.test", "--cname=other.test,alias.test", "--local=/test/"]
    drawn, more = drawn_zone()
    records += [f"--host-record=many.test,{ip}" for ip in MANY] + more
    with support.dnsmasq(OTHER, *records) as at:
        for host in ("both.test", "four.test", "alias.test", "other.test", "many.test", *drawn):
            asking = ["dig", f"@{OTHER}", "-p", at.rpartition(":")[2], "+short", host]
            told = [sorted(re.findall(r"^[0-9a-f.:]+$", support.run(*asking, kind).stdout, re.M))
                    for kind in ("AAAA", "A")]
            found = [sorted(line.split()[2:]) for line in look_up(host, "--resolver", at).stdout.splitlines()]
            wanted = [ips or ["none"] for ips in told]
            tell(found == wanted and any(told), f"{host} of dnsmasq", (found, wanted))
        lacks("absent.test", "he: no such name\n", "--resolver", at)
