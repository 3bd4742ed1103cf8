"""A second reading of the rules in docs/DEFINITIONS.md, RFC 8305 and RFC 6724, apart from the program.

It says what `he replay` and `he order` write for a text: the output, and the line of a fault; what other commands write
is in the files plain_*.py beside it, of which plain_wanted.py is their command line. It is as slow and plain as it
can be, and shares nothing with the program: who compares both (scripts/parts/fuzz.py) finds where they differ.

needs: python3 and its standard library
"""
import calendar
import copy
import ipaddress
import itertools
import json
import math
import pathlib
import re
from collections import Counter, namedtuple
from functools import cached_property, lru_cache

ROOT = pathlib.Path(__file__).resolve().parent.parent
# The limits of a text, as in docs/FORMAT.md.
LIMITS = re.findall(r"^\| ([^|]+) \| ([0-9,]+) \|$", (ROOT / "docs/FORMAT.md").read_text(), re.MULTILINE)
MOST_RACES, MOST_LINE_BYTES, MOST_LISTED, MOST_ADDRESSES, MOST_PAUSES, MOST_PREFIXES, MOST_SERVERS, MOST_TRIED = [
    next(int(most.replace(",", "")) for what, most in LIMITS if what.startswith(begin))
    for begin in ("races", "bytes of a line", "`policy`", "addresses", "`pause`", "`record nat64`", "`record server`",
                  "`record attempt`")]
MOST_TICK = 3_600_000
MOST_PAUSE_END = 3_600_001
MOST_WORD = 65_535
MAPPED = 0xFFFF << 32
# A race with a limit up to this one is followed tick by tick.
PLAIN_LIMIT = 3_000

# Keeps the latest answers of a function, since a second reading asks the same again and again.
kept = lru_cache(maxsize=1 << 16)

Address = namedtuple("Address", "family number")
# The first number that it contains (as an IPv6 number), and its length (of 128).
Prefix = namedtuple("Prefix", "number length")
Row = namedtuple("Row", "prefix precedence label")
Source = namedtuple("Source", "address length interface deprecated temporary")
Route = namedtuple("Route", "prefix interface tunnel")
Answer = namedtuple("Answer", "tick addresses")
# An attempt of a transcript, its fate `won`, `failed` or `cancelled`, and the tick of that.
Line = namedtuple("Line", "place start address fate tick")
# How a race ends: `won` by the attempt of this place, `exhausted` or `limit`.
Result = namedtuple("Result", "kind place tick")
# The fault of a text: the line, counted from 1, the kind, and the line after which the next part is sought.
Found = namedtuple("Found", "line kind after")
MAPPED_BLOCK = Prefix(MAPPED, 96)
ALL = Prefix(0, 0)
HEADERS = {"race 1": 1, "race 2": 2}
# By name: the least value, the greatest, the one that holds where none is given, the first version that has it.
SETTINGS = {"resolution": (0, 1000, 50, 1), "attempt": (10, 2000, 250, 1), "count": (1, 8, 1, 1),
            "limit": (1, MOST_TICK, 30_000, 1), "floor": (10, 2000, None, 2)}
GROUPS = ["set", "policy", "source", "route", "aaaa", "a", "rtt", "used", "connect", "pause", "end"]
# How many words a line of each has at the least and at the most, and how many lines of one there are at the most.
LENGTHS = {"set": (3, 3), "policy": (4, 4), "source": (3, 5), "route": (3, 4), "aaaa": (3, math.inf),
           "a": (3, math.inf), "rtt": (3, 3), "used": (2, 2), "connect": (4, 4), "pause": (3, 3), "end": (1, 1)}
MOST_LINES = {**dict.fromkeys(("policy", "source", "route"), MOST_LISTED), "pause": MOST_PAUSES, "aaaa": 1, "a": 1}
# The words that a race has from version 2 on.
NEW_GROUPS = ["rtt", "used"]
# Record lines, in their order; the last three words are of one group.
CLIENT_ENDS = ["connected", "gave-up", "failed"]
RECORD_GROUPS = ["at", "to", "from", "lookup", "nat64", "server", "attempt", "untried", *CLIENT_ENDS]
RECORD_LENGTHS = {"to": 4, "lookup": 4, "attempt": 4, "server": 5}  # and 3 of each other word
LOOKUP_WORDS = ["no-such-name", "no-address", "no-answer", "refused", "failed", "malformed", "not-asked", "nat64"]
# The lengths of a NAT64 prefix: RFC 6052 section 2.2.
NAT64_LENGTHS = [32, 40, 48, 56, 64, 96]
SERVER_WORDS = ["silent", "refused", "failed", "unreachable"]
ATTEMPT_WORDS = ["refused", "unreachable", "timed-out", "reset", "forbidden", "no-source", "other"]
MOST_HOST_BYTES = 255
TIME = re.compile("([0-9]{4})-([0-9]{2})-([0-9]{2})T([0-9]{2}):([0-9]{2}):([0-9]{2})[.][0-9]{3}Z")


class Report(namedtuple("Report", "lines result")):
    @property
    def winner(self):
        """The line of the attempt that won, if one did."""
        return self.lines[self.result.place] if self.result.kind == "won" else None


class Fault(Exception):
    """The fault of a line."""


# Addresses and their texts: RFC 4291 section 2.2, RFC 5952 section 4, as Python's library has them


@kept
def read_address(text):
    """An address without a zone."""
    try:
        address = ipaddress.ip_address(text)
    except ValueError:
        return None
    return None if "%" in text else Address(address.version, int(address))


def print_address(address):
    return str((ipaddress.IPv4Address if address.family == 4 else ipaddress.IPv6Address)(address.number))


def print_prefix(prefix):
    return f"{print_address(Address(6, prefix.number))}/{prefix.length}"


def mapped(address):
    return address.number + MAPPED if address.family == 4 else address.number


def bits_of(family):
    return 32 if family == 4 else 128


def covers(prefix, number):
    """Whether the IPv6 number begins with the prefix's bits."""
    return number >> (128 - prefix.length) == prefix.number >> (128 - prefix.length)


@kept
def is_in(text, address):
    """Whether the address lies in the block that the text spells."""
    block, length = text.split("/")
    first = read_address(block)
    shift = bits_of(first.family) - int(length)
    return address.family == first.family and address.number >> shift == first.number >> shift


@kept
def is_usable(address):
    unusable = ["224.0.0.0/4", "0.0.0.0/32", "ff00::/8", "::/128", "::ffff:0:0/96"]
    return not any(is_in(block, address) for block in unusable)


@kept
def scope(address):
    if any(is_in(block, address) for block in ["fe80::/10", "::1/128", "169.254.0.0/16", "127.0.0.0/8"]):
        return 2
    return 5 if is_in("fec0::/10", address) else 14


@kept
def common(source, destination):
    """RFC 6724 section 2.2: the length of the common prefix, at most the source's prefix length."""
    apart = (source.address.number ^ destination.number).bit_length()
    return min(source.length, bits_of(destination.family) - apart)


def read_parts(text):
    """An address and a length, as a source has them."""
    match = re.fullmatch("(.*)/(0|[1-9][0-9]{0,2})", text)
    address = read_address(match[1]) if match else None
    if address is None or int(match[2]) > bits_of(address.family):
        return None
    return address, int(match[2])


def read_prefix(text):
    parts = read_parts(text)
    if parts is None:
        return None
    address, length = parts
    if address.number & ((1 << (bits_of(address.family) - length)) - 1):
        return None
    return Prefix(mapped(address), length + 128 - bits_of(address.family))


# The rules of RFC 6724


STANDARD = [Row(read_prefix(text), precedence, label) for text, precedence, label in [
    ("::1/128", 50, 0), ("::/0", 40, 1), ("::ffff:0:0/96", 35, 4), ("2002::/16", 30, 2), ("2001::/32", 5, 5),
    ("fc00::/7", 3, 13), ("::/96", 1, 3), ("fec0::/10", 1, 11), ("3ffe::/16", 1, 12)]]


@kept
def is_v4_prefix(prefix):
    return prefix.length >= 96 and covers(MAPPED_BLOCK, prefix.number)


def longest(matching):
    return max(matching, key=lambda one: one.prefix.length, default=None)


class Host:
    """The policy table, the sources and the routes of a race, and what is known of its addresses."""

    def __init__(self, rows, sources, routes, rtts, used):
        self.rows, self.sources, self.routes = rows or STANDARD, sources, routes
        self.rtts, self.used = rtts, used
        # Kept for this host alone, so that nothing outlives it.
        self.row, self.route, self.ranked = kept(self.row), kept(self.route), kept(self.ranked)

    def row(self, address):
        return longest(row for row in self.rows if covers(row.prefix, mapped(address)))

    def route(self, destination):
        return longest(route for route in self.routes if covers(route.prefix, mapped(destination))
                       and is_v4_prefix(route.prefix) == (destination.family == 4))

    def candidates(self, destination):
        route, is_near = self.route(destination), scope(destination) == 2
        return [source for source in self.sources if route and source.address.family == destination.family
                and (not is_near or source.interface == route.interface)]

    def is_better_source(self, one, two, destination):
        """RFC 6724 section 5: whether one goes before two."""
        own, other = scope(one.address), scope(two.address)
        if (one.address == destination) == (two.address == destination) and own != other:
            return own >= scope(destination) if own < other else other < scope(destination)

        def merits(source):
            """The keys of a source by the other rules, in order: of the first that differs, the greater goes first."""
            is_out = source.interface == self.route(destination).interface
            has_label = self.row(source.address).label == self.row(destination).label
            return (source.address == destination, not source.deprecated, is_out, has_label, source.temporary,
                    common(source, destination))

        return merits(one) > merits(two)

    def source(self, destination):
        candidates = self.candidates(destination)
        return next((source for source in candidates if not any(
            self.is_better_source(other, source, destination) for other in candidates)), None)

    def facts(self, address):
        """The keys of an address by the destination rules."""
        source, route, row = self.source(address), self.route(address), self.row(address)
        return {
            "address": address, "source": source, "scope": scope(address), "label": row.label,
            "source scope": source and scope(source.address), "source label": source and self.row(source.address).label,
            "precedence": row.precedence, "native": route is None or not route.tunnel,
            "rtt": self.rtts.get(address), "used": address in self.used,
            "common": common(source, address) if source else 0,
        }

    def ranked(self, addresses):
        """RFC 6724 section 6: the facts of some addresses (a tuple), each at the place that counts those preferred to
        it."""
        facts = [self.facts(address) for address in addresses]
        places = {sum(is_preferred(other, fact, at < mine) for at, other in enumerate(facts) if at != mine): fact
                  for mine, fact in enumerate(facts)}
        assert len(places) == len(facts)
        return [places[place] for place in range(len(facts))]


# RFC 6724 section 6, with the two rules that RFC 8305 section 4 adds: what each rule asks of an address, by its facts;
# of the first rule that tells two addresses apart, the greater goes first.
MERITS = {
    "1": lambda fact: fact["source"] is not None,
    "2": lambda fact: fact["scope"] == fact["source scope"],
    "3": lambda fact: fact["source"] is not None and not fact["source"].deprecated,
    "5": lambda fact: fact["label"] == fact["source label"],
    "6": lambda fact: fact["precedence"],
    "7": lambda fact: fact["native"],
    "8": lambda fact: -fact["scope"],
    # A round trip time that is not known counts as greater than each that is.
    "8a": lambda fact: -math.inf if fact["rtt"] is None else -fact["rtt"],
    "8b": lambda fact: fact["used"],
    "9": lambda fact: fact["common"],
}


def deciding_rule(one, two):
    """The first rule that tells two addresses apart, and whether one goes first by it (None: the one that stood
    first). Rule 9 compares addresses of one family."""
    for rule, merit in MERITS.items():
        own, other = merit(one), merit(two)
        if own != other and (rule != "9" or one["address"].family == two["address"].family):
            return rule, own > other
    return "10", None


def is_preferred(one, two, stands_first):
    """Whether one goes before two."""
    is_first = deciding_rule(one, two)[1]
    return stands_first if is_first is None else is_first


# The course of a race: RFC 8305 sections 3 to 5


def interlace(addresses, count):
    """RFC 8305 section 4, by the keys of the definition."""
    seen, keyed = {4: 0, 6: 0}, []
    for place, address in enumerate(addresses):
        member = seen[address.family]
        seen[address.family] += 1
        leads = address.family == addresses[0].family
        keyed.append((2 * max(0, member - count + 1) if leads else 2 * member + 1, place))
    return [addresses[place] for _, place in sorted(keyed)]


class Record:
    """The facts of a race's record lines: texts as they are, addresses and numbers as such."""

    def __init__(self):
        self.time = self.target = self.client = self.end = None
        # (families in the order of their lines, as are the addresses)
        self.lookups, self.prefixes, self.servers, self.attempts, self.untried = {}, [], [], {}, []


class Race:
    """A race that begins with this line of its text, counted from 1, or whose record lines do."""

    def __init__(self, line):
        self.line, self.settings, self.answers, self.outcomes, self.rtts = line, {}, {}, {}, {}
        self.rows, self.sources, self.routes, self.pauses, self.used = [], [], [], [], []
        self.record = Record()

    def changed(self, changes):
        """The race with these settings in place of its own; a floor above the attempt delay then is that delay."""
        if not changes:
            return self
        race = copy.copy(self)
        # (another report than its own, which may be kept already)
        vars(race).pop("report", None)
        race.settings = {**self.settings, **changes}
        if race.setting("floor") is not None:
            race.settings["floor"] = min(race.setting("floor"), race.setting("attempt"))
        return race

    def setting(self, name):
        return self.settings.get(name, SETTINGS[name][2])

    @cached_property
    def host(self):
        return Host(self.rows, self.sources, self.routes, self.rtts, self.used)

    def usable(self, name):
        answer = self.answers.get(name)
        return [] if answer is None else [address for address in answer.addresses if is_usable(address)]

    def seen(self, tick):
        for start, end in self.pauses:
            if start <= tick < end:
                tick = end
        return tick

    def is_seen(self, name, tick):
        return name in self.answers and self.seen(self.answers[name].tick) <= tick

    def received(self, tick):
        return [address for name in ("aaaa", "a") if self.is_seen(name, tick) for address in self.usable(name)]

    def listed(self, tick):
        """RFC 8305 section 4: the addresses that are received by then, in the order in which they are tried."""
        ranked = self.host.ranked(tuple(self.received(tick)))
        return interlace([fact["address"] for fact in ranked], self.setting("count"))

    def may_begin(self, tick):
        if self.is_seen("aaaa", tick):
            return bool(self.received(tick))
        return bool(self.received(tick)) and self.seen(self.answers["a"].tick + self.setting("resolution")) <= tick

    def finish(self, start, address):
        """How an attempt ends and when, if ever."""
        outcome = self.outcomes.get(address)
        return None if outcome is None else (outcome[0], self.seen(start + outcome[1]))

    def may_follow(self, made, tick):
        """Whether the attempts that were made leave the tick to a further one."""
        last, floor = made[-1][0], self.setting("floor")
        if tick >= last + self.setting("attempt"):
            return True
        if floor is None or tick < last + floor:
            return False
        finishes = [self.finish(start, address) for start, address in made]
        return all(end is not None and end[0] == "fail" and end[1] <= tick for end in finishes)

    def ticks_after(self, made):
        """The ticks after the last start at which something may change: all, where the race is short."""
        limit, least = self.setting("limit"), made[-1][0] + 1 if made else 0
        if limit <= PLAIN_LIMIT:
            return range(least, limit)
        ticks = {0}
        ticks |= {answer.tick + wait for answer in self.answers.values() for wait in (0, self.setting("resolution"))}
        if made:
            ticks |= {made[-1][0] + self.setting("attempt"), made[-1][0] + (self.setting("floor") or 0)}
            ticks |= {end[1] for end in (self.finish(start, address) for start, address in made) if end}
        return [tick for tick in sorted({self.seen(tick) for tick in ticks}) if least <= tick < limit]

    def attempts(self):
        """Pairs of start and address."""
        tried, made = [], []
        def is_start(tick):
            may_start = self.seen(tick) == tick and (self.may_follow(made, tick) if made else self.may_begin(tick))
            return may_start and not set(self.received(tick)) <= set(tried)

        while len(tried) < len(self.usable("aaaa") + self.usable("a")):
            tick = next(filter(is_start, self.ticks_after(made)), None)
            if tick is None:
                break
            tried.append(next(address for address in self.listed(tick) if address not in tried))
            made.append((tick, tried[-1]))
        return made

    @cached_property
    def report(self):
        """Its transcript."""
        limit, attempts = self.setting("limit"), self.attempts()
        finishes = [end if end and end[1] <= limit else None for end in (self.finish(*attempt) for attempt in attempts)]
        successes = [(end[1], place) for place, end in enumerate(finishes) if end and end[0] == "ok"]
        stop, winner = min(successes, default=(limit, None))

        def fate(place, end):
            if end and end[0] == "fail" and end[1] <= stop:
                return "failed", end[1]
            return "won" if place == winner else "cancelled", stop

        lines = [Line(place, start, address, *fate(place, end))
                 for place, ((start, address), end) in enumerate(zip(attempts, finishes)) if start < stop]
        return Report(lines, self.result(attempts, finishes, stop, winner))

    def result(self, attempts, finishes, stop, winner):
        limit = self.setting("limit")
        if winner is not None:
            return Result("won", winner, stop)
        answered = self.is_seen("aaaa", limit) and self.is_seen("a", limit)
        if answered and all(finishes) and len(attempts) == len(self.usable("aaaa") + self.usable("a")):
            ticks = [self.seen(answer.tick) for answer in self.answers.values()] + [end[1] for end in finishes]
            return Result("exhausted", None, max(ticks))
        return Result("limit", None, limit)

    def lost(self):
        """How long after its winner's answer was seen its attempt started."""
        winner = self.report.winner
        return max(0, winner.start - self.seen(self.answers["aaaa" if winner.address.family == 6 else "a"].tick))

    def ranked(self):
        """The facts of its usable addresses, whatever the ticks of their answers, in order of preference."""
        return self.host.ranked(tuple(self.usable("aaaa") + self.usable("a")))


# The texts that are written of a race


def transcript(race):
    report = race.report
    lines = [f"attempt {line.place} {line.start} {print_address(line.address)} {line.fate} {line.tick}\n"
             for line in report.lines]
    return "".join(lines) + " ".join(str(part) for part in report.result if part is not None) + "\n"


def order(race):
    def source(fact):
        return print_address(fact["source"].address) if fact["source"] else "none"

    return "".join(f"{place} {print_address(fact['address'])} from {source(fact)}\n"
                   for place, fact in enumerate(race.ranked())) + "end\n"


def counted(number, one, many=None):
    """The number with its noun, by default with an s for more or none."""
    return f"{number} {one if number == 1 else many or one + 's'}"


def one_line(value):
    """An object of JSON. Its control characters are written by their numbers."""
    text = json.dumps(value, separators=(",", ":"), ensure_ascii=False)
    return re.sub(r"\\(.)", lambda found: CONTROLS.get(found[1], found[0]), text) + "\n"


CONTROLS = {"b": r"\u0008", "f": r"\u000c", "n": r"\u000a", "r": r"\u000d", "t": r"\u0009"}


# Texts of timelines and their faults, check by check


def number(token, least, most):
    if not re.fullmatch("0|[1-9][0-9]{0,9}", token):
        raise Fault("number")
    if not least <= int(token) <= most:
        raise Fault("range")
    return int(token)


def keyword(token, words):
    if token not in words:
        raise Fault("word")
    return token


def once(value, values):
    if value in values:
        raise Fault("repeated")


def prefix_of(token):
    prefix = read_prefix(token)
    if prefix is None:
        raise Fault("prefix")
    return prefix


class Reader:
    """Reads one race from the lines of a text; a line is its bytes without the line feed, as Latin-1."""

    def __init__(self, version, line):
        self.race, self.version, self.group, self.counts = Race(line), version, 0, Counter()

    def line(self, line, next_line):
        """Reads a line; true for the last one. The next line is None where no whole one of fit length follows."""
        tokens = line.split(" ")
        word, is_answer = tokens[0], tokens[0] in ("aaaa", "a")
        keyword(word, GROUPS[self.group:])
        if self.version == 1 and word in NEW_GROUPS:
            raise Fault("word")
        self.group = GROUPS.index(word)
        self.counts[word] += 1
        if self.counts[word] > MOST_LINES.get(word, math.inf):
            raise Fault("repeated" if is_answer else "too many")
        least, most = LENGTHS[word]
        if not least <= len(tokens) <= most:
            raise Fault("word")
        if is_answer and len(tokens) - 2 > MOST_ADDRESSES:
            raise Fault("too many")
        if is_answer:
            self.answer(*tokens)
        elif word != "end":
            getattr(self, word)(*tokens[1:])
        # (the last of these lines)
        if word in ("policy", "set") and (next_line or "").split(" ")[0] != word:
            self.check_table() if word == "policy" else self.check_floor()
        return word == "end"

    def set(self, name, value):
        keyword(name, [name for name in SETTINGS if SETTINGS[name][3] <= self.version])
        value = number(value, *SETTINGS[name][:2])
        once(name, self.race.settings)
        self.race.settings[name] = value

    def check_floor(self):
        floor = self.race.setting("floor")
        if floor is not None and floor > self.race.setting("attempt"):
            raise Fault("range")

    def policy(self, prefix, precedence, label):
        row = Row(prefix_of(prefix), number(precedence, 0, MOST_WORD), number(label, 0, MOST_WORD))
        once(row.prefix, [other.prefix for other in self.race.rows])
        self.race.rows.append(row)

    def check_table(self):
        rows = self.race.rows
        for prefix, text in ((ALL, "::/0"), (MAPPED_BLOCK, "::ffff:0:0/96")):
            if prefix not in [row.prefix for row in rows]:
                raise Fault(f"policy has no {text}")
        for (one, first), (two, second) in itertools.combinations(enumerate(rows), 2):
            if first.precedence == second.precedence and is_v4_prefix(first.prefix) != is_v4_prefix(second.prefix):
                raise Fault(f"policy rows {one} and {two} share a precedence")

    def source(self, prefix, interface, *marks):
        address, length = read_parts(prefix) or (None, None)
        if address is None:
            raise Fault("prefix")
        if not is_usable(address):
            raise Fault("address")
        interface = number(interface, 1, MOST_WORD)
        keyword(marks, [(), ("deprecated",), ("temporary",), ("deprecated", "temporary")])
        once(address, [source.address for source in self.race.sources])
        self.race.sources.append(Source(address, length, interface, "deprecated" in marks, "temporary" in marks))

    def route(self, prefix, interface, *marks):
        route = Route(prefix_of(prefix), number(interface, 1, MOST_WORD), bool(marks))
        keyword(marks, [(), ("tunnel",)])
        once(route.prefix, [other.prefix for other in self.race.routes])
        self.race.routes.append(route)

    def answer(self, word, tick, *told):
        tick, family = number(tick, 0, MOST_TICK), 6 if word == "aaaa" else 4
        addresses = [] if told == ("none",) else [read_address(text) for text in told]
        if any(address is None or address.family != family for address in addresses):
            raise Fault("address")
        if len(set(addresses)) < len(addresses):
            raise Fault("repeated")
        self.race.answers[word] = Answer(tick, addresses)

    def answered(self, text):
        """An address in one of the race's answers."""
        address = read_address(text)
        if address is None or not any(address in answer.addresses for answer in self.race.answers.values()):
            raise Fault("address")
        return address

    def rtt(self, address, ticks):
        address, ticks = self.answered(address), number(ticks, 1, MOST_TICK)
        once(address, self.race.rtts)
        self.race.rtts[address] = ticks

    def used(self, address):
        once(self.answered(address), self.race.used)
        self.race.used.append(self.answered(address))

    def connect(self, address, kind, duration):
        address, outcome = self.answered(address), (keyword(kind, ["ok", "fail"]), number(duration, 1, MOST_TICK))
        once(address, self.race.outcomes)
        self.race.outcomes[address] = outcome

    def pause(self, start, end):
        start, end = number(start, 0, MOST_TICK), number(end, 1, MOST_PAUSE_END)
        if start >= end or self.race.pauses and start < self.race.pauses[-1][1]:
            raise Fault("range")
        self.race.pauses.append((start, end))


def is_record(line):
    return line.split(" ")[0] == "record"


class RecordReader:
    """Reads the record lines of a race, of which the first is this line of the text."""

    def __init__(self, line):
        self.begin, self.group, self.counts, self.record = line, 0, Counter(), Record()

    def line(self, line):
        _, word, *tokens = (*line.split(" "), "") if line == "record" else line.split(" ")
        group = RECORD_GROUPS.index(CLIENT_ENDS[0] if word in CLIENT_ENDS else keyword(word, RECORD_GROUPS))
        if group < self.group:
            raise Fault("word")
        self.group = group
        self.counts[group] += 1
        most = {"lookup": math.inf, "nat64": MOST_PREFIXES, "server": MOST_SERVERS, "attempt": MOST_TRIED,
                "untried": MOST_TRIED}.get(word, 1)
        if self.counts[group] > most:
            raise Fault("repeated" if most == 1 else "too many")
        if len(tokens) + 2 != RECORD_LENGTHS.get(word, 3):
            raise Fault("word")
        if word in CLIENT_ENDS:
            self.record.end = word, number(*tokens, 0, MOST_TICK)
        else:
            getattr(self, f"say_{word}")(*tokens)

    def say_at(self, time):
        parts = TIME.fullmatch(time)
        if not parts:
            raise Fault("number")
        year, month, day, hour, minute, second = map(int, parts.groups())
        days = [31, 29 if calendar.isleap(year) else 28, 31, 30, 31, 30, 31, 31, 30, 31, 30, 31]
        if not 1 <= month <= 12 or not 1 <= day <= days[month - 1] or hour > 23 or minute > 59 or second > 59:
            raise Fault("range")
        self.record.time = time

    def say_to(self, host, port):
        if not re.fullmatch("[!-~]{1,%d}" % MOST_HOST_BYTES, host):
            raise Fault("word")
        self.record.target = host, number(port, 1, MOST_WORD)

    def say_from(self, text):
        self.record.client = self.address(text)

    def say_lookup(self, family, word):
        keyword(family, ["aaaa", "a"])
        keyword(word, LOOKUP_WORDS)
        once(family, self.record.lookups)
        self.record.lookups[family] = word

    def say_nat64(self, text):
        prefix = prefix_of(text)
        if prefix.length not in NAT64_LENGTHS or is_v4_prefix(prefix):
            raise Fault("range")
        self.record.prefixes.append(prefix)

    def say_server(self, text, word, ticks):
        self.record.servers.append((self.address(text), keyword(word, SERVER_WORDS), number(ticks, 0, MOST_TICK)))

    def say_attempt(self, text, word):
        address, word = self.address(text), keyword(word, ATTEMPT_WORDS)
        self.told_once(address)
        self.record.attempts[address] = word

    def say_untried(self, text):
        address = self.address(text)
        self.told_once(address)
        self.record.untried.append(address)

    def address(self, text):
        address = read_address(text)
        if address is None:
            raise Fault("address")
        return address

    def told_once(self, address):
        once(address, [*self.record.attempts, *self.record.untried])


def whole_lines(text):
    """The lines of a text as pairs of line and whether it is whole; the last one may be the empty rest."""
    parts = text.split("\n")
    return [(part, True) for part in parts[:-1]] + [(parts[-1], False)]


def read_text(text):
    """The races of a text up to its first fault, and the fault, if there is one."""
    lines, races, record, reader, header = whole_lines(text), [], None, None, 0
    for place, (line, is_whole) in enumerate(lines):
        is_first = record is None and reader is None
        if is_first and not is_whole and line == "":
            return races, None
        try:
            if is_first and len(races) == MOST_RACES or len(line) > MOST_LINE_BYTES:
                raise Fault("too many")
            if not is_whole:
                raise Fault("unfinished")
            if reader is None and is_record(line):
                record = record or RecordReader(place + 1)
                record.line(line)
                continue
            if reader is None and line not in HEADERS:
                raise Fault("header")
            next_line, follows = lines[place + 1]
            if reader is None:
                reader, header = Reader(HEADERS[line], record.begin if record else place + 1), place + 1
            elif reader.line(line, next_line if follows and len(next_line) <= MOST_LINE_BYTES else None):
                reader.race.record = record.record if record else reader.race.record
                races.append(reader.race)
                record = reader = None
        except Fault as fault:
            return races, Found(place + 1, str(fault), header if reader else place + 1)
    raise AssertionError("the last line is never whole")


def read_on(text):
    """The first fault of each part of a text: a part begins with the text, or with the next line `race 1` or `race 2`
    or record line after the faulty line, or after the first line of the faulty race where that comes before it. They
    are pairs of a line and a kind."""
    lines, faults, start = whole_lines(text), [], 0
    while start is not None:
        _, found = read_text("\n".join(line for line, _ in lines[start:]))
        if found is None:
            break
        faults.append((start + found.line, found.kind))
        after = range(start + found.after, len(lines))
        start = next((place for place in after if begins_part(*lines[place])), None)
    return faults


def begins_part(line, is_whole):
    return line.startswith("record ") or is_whole and (line == "record" or line in HEADERS)


def fault_line(line, kind):
    """The program's words for a fault."""
    return f"he: line {line}: {kind}\n".encode()


def changes_of(words):
    """The settings of words as `attempt=100`, of which the last one for a name holds."""
    return {name: int(number) for name, number in (word.split("=") for word in words)}


def replayed(races, changes):
    """The output of `he replay` for these races, with these settings in place of their own."""
    return "".join(transcript(race.changed(changes)) for race in races).encode()


def ordered(races, changes):
    """The output of `he order`, which no setting changes."""
    return "".join(order(race.changed(changes)) for race in races).encode()
