#!/usr/bin/env python3
"""Draws races and texts of them, also with something broken.

needs: python3 and its standard library
usage: scripts/drawn.py RACES [--most BYTES | --largest] [--seed N] [--records]
           writes a text of RACES races without a fault, each of at most BYTES or as large as may be; with record lines
           before most of them, which are drawn apart, so that the races stay the same
"""
import argparse
import itertools
import random
import re
import sys

import plain

HEADER = re.compile(rb"^race [12]$", re.MULTILINE)
V6_BLOCKS = ["2001:db8::/32", "2001:db8:1::/64", "2002::/16", "2001::/32", "fc00::/7", "fe80::/10", "fec0::/10",
             "3ffe::/16", "::/96", "::/0", "64:ff9b::/96"]
V4_BLOCKS = ["198.51.100.0/24", "192.0.2.0/24", "10.0.0.0/8", "192.168.0.0/16", "169.254.0.0/16", "127.0.0.0/8",
             "0.0.0.0/0"]
V6_ODD = ["::", "::1", "ff02::1", "::ffff:192.0.2.1", "fe80::1", "fec0::1", "fe80::", "febf::1", "fec0::", "feff::",
          "ffff:ffff:ffff:ffff:ffff:ffff:ffff:ffff", "::ffff:0:0", "::fffe:ffff:ffff", "1:0:0:2:0:0:0:3"]
V4_ODD = ["0.0.0.0", "127.0.0.1", "224.0.0.1", "239.255.255.255", "240.0.0.0", "255.255.255.255", "0.0.0.1",
          "169.254.255.255", "223.255.255.255", "128.0.0.0"]
ODD_NUMBERS = ["", "0", "00", "01", "-1", "+1", "1000000000", "9999999999", "10000000000", "4294967296", "1001",
               "18446744073709551616", "9", "10", "2000", "2001", "65535", "65536", "3600000", "3600001", "3600002"]
ODD_ADDRESSES = ["", "none", "::", "1.2.3", "1.2.3.4.5", "01.2.3.4", "256.1.1.1", "1.2.3.4", "1:2:3:4:5:6:7:8",
                 "1:2:3:4::5:6:7:8", "1:2:3:4:5:6:7::", "::2:3:4:5:6:7:8", "1::2::3", ":::", ":1::", "1::2:",
                 "::1.2.3.4", "1:2:3:4:5:6:1.2.3.4", "1:2:3:4:5:6:7:1.2.3.4", "1.2.3.4::", "g::", "12345::",
                 "fe80::1%1", "[::1]"]
ODD_LENGTHS = ["", "0", "00", "032", "32", "33", "96", "128", "129", "1000", "-1"]
NEEDED_ROWS = ["policy ::/0 40 1", "policy ::ffff:0:0/96 35 4"]  # of each table
DAYS = ["2026-11-28", "0000-01-01", "9999-12-31", "2024-02-29", "2000-02-29", "1900-02-28", "2023-06-30"]
CLOCKS = ["00:00:00.000", "23:59:59.999", "10:54:05.261"]
# Record lines of which most are wrong.
ODD_RECORDS = ["record", "record ", "record at", "records at", "record  at", "record at 2026-11-28T10:54:05Z",
               "record at 2026-02-29T00:00:00.000Z", "record at 2024-02-29T24:00:00.000Z",
               "record at 2026-13-01T00:00:00.000Z", "record at 2026-11-28T10:54:60.000Z",
               "record at 2026-11-28T10:54:05.261z", "record to www.example.com 0", "record to www.example.com 65536",
               "record to a b 1", f"record to {'a' * 256} 1", "record to é 1", "record from none", "record from fe80::1%1",
               "record lookup aaaa no-answer", "record lookup ptr no-answer", "record lookup a silent",
               "record lookup a nat64", "record nat64 64:ff9b::/96", "record nat64 64:ff9b::/95", "record nat64 192.0.2.0/24", "record nat64 0.0.0.0/0", "record nat64 64:ff9b::",
               "record nat64 64:ff9b::1/96", "record nat64 64:ff9b::/96 1",
               "record server 192.0.2.1 silent 3600001", "record server 192.0.2.1 slow 1", "record server a silent x",
               "record attempt 192.0.2.1 refused", "record attempt ::ffff:192.0.2.1 refused", "record untried 192.0.2.1",
               "record connected 3600001", "record connected 1", "record gave-up 01", "record failed", "race 1", "end"]
NAT64_PREFIXES = ["64:ff9b::/96", "2001:db8::/32", "2001:db8:100::/40", "2001:db8:122::/48", "2001:db8:122:300::/56",
                  "2001:db8:122:344::/64", "2001:DB8:122:344::0/96", "::/64"]
ODD_WORDS = ["", " ", "race 1", "race 2", "end", "none", "ok", "fail", "tunnel", "deprecated", "temporary", "set",
             "floor", "policy", "a", "A", "SET", "aaaa", "rtt", "used", "\t", "\r", "\0", "é"]


class Drawer(random.Random):
    """Draws races and texts from one source of chance."""

    def __init__(self, seed):
        super().__init__(seed)
        # The ticks of a race are multiples of its grain: of a coarse one more things come on one tick.
        self.grain = 1
        # Half of all races are of version 2. Of those some have a small floor, and addresses that fail soon.
        self.version = 1
        self.has_small_floor = False

    def is_one_in(self, number):
        return self.randrange(number) == 0

    def between(self, least, most):
        """A number, at times one of the range's ends or beside them."""
        if self.is_one_in(6):
            return self.choice([least, most, min(least + 1, most), max(most - 1, least)])
        # By its size first, so that small numbers come as often as large ones.
        return min(most, least + int((most - least + 1) ** self.random()) - 1 + self.randrange(2))

    def ticks(self, least, most):
        """Some ticks of the race's grain, mostly few."""
        ticks = self.between(least, most) if self.is_one_in(8) else self.randrange(least, 700)
        return max(least, ticks - ticks % self.grain)

    def address_in(self, block):
        first, length = plain.read_parts(block)
        bits = plain.bits_of(first.family) - length
        low = self.choice([self.getrandbits(8), self.getrandbits(128)]) & ((1 << bits) - 1)
        return plain.Address(first.family, first.number | low)

    def address(self, family):
        odd, blocks = (V6_ODD, V6_BLOCKS) if family == 6 else (V4_ODD, V4_BLOCKS)
        if self.is_one_in(8):
            return plain.read_address(self.choice(odd))
        if family == 6 and self.is_one_in(8):
            # Runs of zero groups, at times as long as each other.
            return plain.read_address(":".join(self.choice("0011a") for _ in range(8)))
        return self.address_in(self.choice(blocks[:-1] if self.randrange(4) else blocks))

    def spelled(self, address):
        """One of the address's spellings."""
        if address.family == 4 or self.randrange(4):
            return plain.print_address(address)
        groups = [format(address.number >> shift & 0xFFFF, self.choice(["x", "04x", "X"]))
                  for shift in range(112, -1, -16)]
        if self.is_one_in(3):
            groups[6:] = [plain.print_address(plain.Address(4, address.number & 0xFFFFFFFF))]
        return ":".join(groups)

    def prefix(self):
        address = self.address(self.choice([4, 6]))
        bits = plain.bits_of(address.family)
        length = self.choice([self.between(0, bits), bits // 4, bits // 2, bits])
        number = address.number >> (bits - length) << (bits - length)
        return f"{self.spelled(plain.Address(address.family, number))}/{length}"

    def amount(self, most):
        return self.choice([0, 1, 2, self.randrange(6), self.randrange(6),
                                   self.between(0, most) if self.is_one_in(12) else 3])

    def settings(self):
        known = [name for name, setting in plain.SETTINGS.items() if setting[3] <= self.version]
        values = {name: self.setting(name) for name in known if self.is_one_in(3)}
        if self.has_small_floor:
            values["floor"] = self.choice([10, 10, 20, 50, 100])
        if "floor" in values:
            values["floor"] = min(values["floor"], values.get("attempt", plain.SETTINGS["attempt"][2]))
        names = list(values)
        self.shuffle(names)
        return [f"set {name} {values[name]}" for name in names]

    def changes(self, least):
        """At least this many settings in place of each race's own, as words of a command line."""
        names = self.sample(list(plain.SETTINGS), self.choice([least, 1, 1, 2, 3]))
        values = {name: self.setting(name) for name in names}
        if "floor" in values:
            floors = [10, 10, 50, 100, values["floor"]]
            values["floor"] = min(self.choice(floors), values.get("attempt", plain.SETTINGS["attempt"][1]))
        return [word for name, value in values.items() for word in ("--set", f"{name}={value}")]

    def setting(self, name):
        least, most = plain.SETTINGS[name][:2]
        value = self.between(least, most)
        if name == "limit" and self.randrange(3):
            value = self.randrange(100, 2000)
        return value if name == "count" else max(least, value - value % self.grain)

    def policy(self):
        """An admitted table, or at times one that is not: precedences of the two families are even and odd."""
        if self.randrange(3):
            return []
        texts = [self.prefix() for _ in range(self.amount(plain.MOST_LISTED - 2))]
        prefixes = {plain.read_prefix(text): text for text in texts}
        prefixes.update({plain.ALL: "::/0", plain.MAPPED_BLOCK: self.choice(["0.0.0.0/0", "::ffff:0:0/96"])})
        rows = []
        for prefix, text in prefixes.items():
            half = self.randrange(12)
            half = self.between(0, 65_534) // 2 if self.is_one_in(5) else half
            rows.append(f"policy {text} {2 * half + plain.is_v4_prefix(prefix)} {self.randrange(4)}")
        self.shuffle(rows)
        return rows

    def sources(self):
        lines = {}
        for _ in range(self.amount(plain.MOST_LISTED)):
            address = self.address(self.choice([4, 6]))
            if plain.is_usable(address):
                bits = plain.bits_of(address.family)
                length = self.choice([bits // 2, bits, self.between(0, bits)])
                marks = self.choice(["", "", "", " deprecated", " temporary", " deprecated temporary"])
                lines[address] = f"source {self.spelled(address)}/{length} {self.interface()}{marks}"
        return list(lines.values())

    def routes(self):
        texts = [self.prefix() for _ in range(self.amount(plain.MOST_LISTED - 2))]
        texts += [text for text in ("::/0", "0.0.0.0/0", "fe80::/10") if self.randrange(4)]
        self.shuffle(texts)
        return list({plain.read_prefix(text): f"route {text} {self.interface()}{' tunnel' * self.is_one_in(4)}"
                     for text in texts}.values())

    def interface(self):
        return self.between(1, 65_535) if self.is_one_in(12) else self.randrange(1, 4)

    def answer(self, word, family):
        """An answer's line and its addresses, or nothing."""
        if self.is_one_in(10):
            return [], []
        amount = self.between(0, plain.MOST_ADDRESSES) if self.is_one_in(15) else self.randrange(6)
        addresses = list(dict.fromkeys(self.address(family) for _ in range(amount)))
        told = " ".join(map(self.spelled, addresses)) or "none"
        return [f"{word} {self.ticks(0, plain.MOST_TICK)} {told}"], addresses

    def known(self, addresses):
        """The history of some addresses: round trip times, of few values so that some are equal, and earlier use."""
        if self.version == 1:
            return []
        self.shuffle(addresses)
        timed, used = (self.choice([0, 0.3, 0.7, 1]) for _ in range(2))
        rtts = [f"rtt {self.spelled(address)} {self.round_trip_time()}"
                for address in addresses if self.random() < timed]
        self.shuffle(addresses)
        return rtts + [f"used {self.spelled(address)}" for address in addresses if self.random() < used]

    def round_trip_time(self):
        return self.between(1, plain.MOST_TICK) if self.is_one_in(8) else self.choice([1, 30, 30, 80])

    def outcomes(self, addresses):
        self.shuffle(addresses)
        share = self.choice([0.9, 1, 1] if self.has_small_floor else [0, 0.5, 0.9, 1])
        failing = self.choice([0.8, 1, 1] if self.has_small_floor else [0.3, 0.8, 1])

        def outcome(address):
            end, ticks = "fail" if self.random() < failing else "ok", self.ticks(1, plain.MOST_TICK)
            if self.has_small_floor and self.randrange(4):
                # Before the floor, on it, after it and after the attempt delay.
                ticks = self.choice([1, 5, 10, 20, 50, 99, 100, 101, 150, 250, 300])
            return f"connect {self.spelled(address)} {end} {ticks}"

        return [outcome(address) for address in addresses if self.random() < share]

    def pauses(self):
        lines, last = [], 0
        for _ in range(self.amount(plain.MOST_PAUSES) if self.is_one_in(2) else 0):
            start = last + (self.ticks(0, 700) if self.randrange(5) else 0)
            end = start + self.ticks(1, plain.MOST_TICK if self.is_one_in(4) else 700)
            if self.is_one_in(30):
                end = plain.MOST_PAUSE_END
            if start <= plain.MOST_TICK and end <= plain.MOST_PAUSE_END:
                lines.append(f"pause {start} {end}")
                last = end
        return lines

    def race(self):
        self.grain = self.choice([1, 10, 50])
        self.version = self.choice([1, 2])
        self.has_small_floor = self.version == 2 and self.is_one_in(3)
        aaaa, six = self.answer("aaaa", 6)
        a, four = self.answer("a", 4)
        return [f"race {self.version}", *self.settings(), *self.policy(), *self.sources(), *self.routes(), *aaaa, *a,
                *self.known(six + four), *self.outcomes(six + four), *self.pauses(), "end"]

    def full_race(self):
        """A race with one list as long as it may be, or longer by one."""
        kind, most, line_of = self.choice([
            ("policy", plain.MOST_LISTED,
             lambda place: NEEDED_ROWS[place] if place < 2 else f"policy 2001:{place - 2:x}::/32 40 1"),
            ("source", plain.MOST_LISTED, lambda place: f"source 10.0.{place}.1/24 1"),
            ("route", plain.MOST_LISTED, lambda place: f"route 10.{place}.0.0/16 1"),
            ("aaaa", plain.MOST_ADDRESSES, lambda place: f"2001:{place:x}::1"),
            ("a", plain.MOST_ADDRESSES, lambda place: f"10.{place >> 8}.{place & 255}.1"),
            ("pause", plain.MOST_PAUSES, lambda place: f"pause {2 * place} {2 * place + 1}"),
        ])
        full = [line_of(place) for place in range(most + self.randrange(2))]
        full = [f"{kind} 7 {' '.join(full)}"] if kind in ("aaaa", "a") else full
        first, *others = self.race()
        others = [line for line in others if line.split()[0] not in (kind, "rtt", "used", "connect")] + full
        return [first, *sorted(others, key=lambda line: plain.GROUPS.index(line.split()[0]))]

    def large_race(self):
        """A race with as many addresses and pauses as it may have, the addresses in their longest spelling; half of
        those of version 2 have the history of each address."""
        kept = [line for line in self.race() if line.split()[0] in ("race", "set", "policy", "source", "route")]
        answers, rtts, used, outcomes, pauses, last = [], [], [], [], [], 0
        is_known = kept[0] == "race 2" and self.is_one_in(2)
        for word, family in (("aaaa", 6), ("a", 4)):
            addresses = {}
            while len(addresses) < plain.MOST_ADDRESSES:
                addresses[self.address(family)] = None
            spelled = [longest(address) for address in addresses]
            answers.append(f"{word} {self.randrange(3000)} {' '.join(spelled)}")
            for address in spelled:
                end = "ok" if self.is_one_in(8) else "fail"
                outcomes.append(f"connect {address} {end} {self.randrange(1, 30_000)}")
                if is_known:
                    rtts.append(f"rtt {address} {self.round_trip_time()}")
                    used.append(f"used {address}")
        for _ in range(plain.MOST_PAUSES):
            start = last + self.randrange(400)
            last = start + self.randrange(1, 300)
            pauses.append(f"pause {start} {last}")
        return as_text([*kept, *answers, *rtts, *used, *outcomes, *pauses, "end"])

    def largest_race(self):
        """A large race with as many rows, sources and routes as there may be, half of them of each family."""
        half = range(plain.MOST_LISTED // 2)
        full = [f"policy 2001:{place:x}::/32 {41 + place % 8} {place % 16}" for place in range(plain.MOST_LISTED - 2)]
        for form in ("source 10.0.{0}.1/24 {2}", "source 2001:db8:{0:x}::1/64 {2}", "route {1}.0.0.0/8 {2}",
                     "route 2001:{0:x}::/32 {2}"):
            full += [form.format(place, 10 + place, 1 + place % 4) for place in half]
        lines = self.large_race().decode().splitlines()
        head = [line for line in lines if line.split()[0] in ("race", "set")]
        tail = [line for line in lines if line.split()[0] not in ("race", "set", "policy", "source", "route")]
        return as_text([*head, *NEEDED_ROWS, *full, *tail])

    def record(self):
        """The record lines of a race, none too many; each kind comes or not."""
        lines = [*self.told("at", self.moment), *self.told("to", lambda: f"{self.host()} {self.between(1, 65_535)}"),
                 *self.told("from", self.any_address)]
        families = self.sample(["aaaa", "a"], self.randrange(3))
        lines += [f"record lookup {family} {self.choice(plain.LOOKUP_WORDS)}" for family in families]
        lines += [f"record nat64 {self.choice(NAT64_PREFIXES)}"
                  for _ in range(self.between(0, plain.MOST_PREFIXES) if self.is_one_in(3) else 0)]
        lines += [f"record server {self.any_address()} {self.choice(plain.SERVER_WORDS)} {self.ticks(0, plain.MOST_TICK)}"
                  for _ in range(self.between(0, plain.MOST_SERVERS) if self.is_one_in(3) else 0)]
        texts = [self.any_address() for _ in range(self.amount(2 * plain.MOST_TRIED) if self.is_one_in(2) else 0)]
        addresses = list({plain.read_address(text): text for text in texts}.values())
        cut = min(len(addresses), self.randrange(plain.MOST_TRIED + 1) if self.is_one_in(2) else self.randrange(4))
        lines += [f"record attempt {text} {self.choice(plain.ATTEMPT_WORDS)}" for text in addresses[:cut]]
        lines += [f"record untried {text}" for text in addresses[cut:][:plain.MOST_TRIED]]
        return lines + self.told(self.choice(plain.CLIENT_ENDS), lambda: self.ticks(0, plain.MOST_TICK))

    def told(self, word, say):
        return [f"record {word} {say()}"] * self.randrange(2)

    def any_address(self):
        return self.spelled(self.address(self.choice([4, 6])))

    def host(self):
        """A name, an address, or any bytes that a host may have."""
        if self.is_one_in(4):
            size = self.choice([1, 2, plain.MOST_HOST_BYTES])
            return "".join(chr(self.randrange(33, 127)) for _ in range(size))
        return self.choice(["www.example.com", "localhost", "a", "record", "end", self.any_address()])

    def moment(self):
        """A time, often the first or last one of its day, month or year."""
        day, clock = self.choice(DAYS), self.choice(CLOCKS)
        return f"{day}T{clock}Z"

    def with_records(self, text):
        """The text with record lines before most races."""
        parts = re.split(rb"^(?=race [12]$)", text, flags=re.MULTILINE)
        return parts[0] + b"".join((as_text(self.record()) if self.randrange(5) else b"") + part for part in parts[1:])

    def broken_record(self, text):
        """The text with one of its record lines broken, doubled, dropped or moved."""
        lines = text.split(b"\n")
        places = [place for place, line in enumerate(lines) if line.startswith(b"record ")]
        if not places:
            return text
        place, way = self.choice(places), self.randrange(6)
        if way <= 1:
            lines[place] = self.broken_line(lines[place])
        elif way == 2:
            tokens = lines[place].split(b" ")
            tokens[1] = self.choice([*plain.RECORD_GROUPS, "", "end", "set"]).encode()
            lines[place] = b" ".join(tokens)
        elif way == 3:
            lines[place] = self.choice(ODD_RECORDS).encode()
        elif way == 4:
            return text[:self.randrange(len(text) + 1)]
        else:
            self.move_lines(lines, place, self.choice([8, 9, 10, 11]))
        return b"\n".join(lines)

    def race_text(self):
        return as_text(self.race())

    def sound_text(self, races, most=None):
        """This many races, each of at most `most` bytes."""
        texts = iter(self.race_text, None)
        return b"".join(itertools.islice((text for text in texts if most is None or len(text) <= most), races))

    def text(self):
        """A text of some races; three of four are broken at one place or at two."""
        amount = self.choice([1, 1, 2, 3, 12])
        if self.is_one_in(40):
            amount = self.choice([plain.MOST_RACES - 1, plain.MOST_RACES, plain.MOST_RACES + 1])
            text = b"".join(self.sound_text(1) if self.is_one_in(9) else b"race 1\nend\n" for _ in range(amount))
        else:
            text = self.sound_text(amount)
        if self.is_one_in(10):
            return text + as_text(self.full_race()) + self.sound_text(1)
        for _ in range(self.choice([0, 1, 1, 2])):
            text = self.broken(text)
        return text

    def broken(self, text):
        way = self.randrange(15)
        if way == 0:
            return text[:self.randrange(len(text) + 1)]
        if way == 1:
            place = self.randrange(len(text) + 1)
            return text[:place] + bytes([self.randrange(256)]) + text[place + self.randrange(2):]
        if way == 2:
            return text.replace(b"\n", b"\r\n", self.choice([1, 2, -1]))
        lines = text.split(b"\n")
        place = self.randrange(len(lines))
        if way >= 12:
            lines = (self.broken_table, self.broken_version, self.broken_floor)[way - 12](lines)
        elif way <= 7:
            lines[place] = self.broken_line(lines[place])
        else:
            self.move_lines(lines, place, way)
        return b"\n".join(lines)

    def move_lines(self, lines, place, way):
        """Drops, doubles, exchanges, brings in or multiplies a line."""
        if way == 8:
            del lines[place]
        elif way == 9:
            lines.insert(place, lines[place])
        elif way == 10:
            other = min(len(lines) - 1, max(0, place + self.randrange(-4, 5)))
            lines[place], lines[other] = lines[other], lines[place]
        else:
            line = self.choice(lines + self.race_text().split(b"\n"))
            lines[place:place] = [line] * self.choice([1, 1, 1, 65, 140])

    def broken_table(self, lines):
        """Leaves out a row that each policy table needs, or gives all rows one precedence; at times with a further row
        that is too long or not in its place."""
        way = self.randrange(3)
        left_out = [(b"policy ::/0 ",), (b"policy ::ffff:0:0/96 ", b"policy 0.0.0.0/0 "), ()][way]
        lines = [line for line in lines if not left_out or not line.startswith(left_out)]
        if way == 2:
            lines = [re.sub(rb"^(policy [^ ]* )[0-9]+ ", rb"\g<1>7 ", line) for line in lines]
        rows = [place for place, line in enumerate(lines) if line.startswith(b"policy ")]
        if rows and self.randrange(4):
            long = self.long_line(b"policy ")
            further = self.choice([b"policy", b"policy ::/0 7 7", long, long])
            lines.insert(rows[-1] + self.choice([1, 1, 2]), further)
        return lines

    def long_line(self, begin):
        """A line as long as one may be, or longer by one byte."""
        return begin.ljust(plain.MOST_LINE_BYTES + self.randrange(2), b"0")

    def broken_version(self, lines):
        """Gives one race the other version, or brings in one that is none."""
        headers = [place for place, line in enumerate(lines) if HEADER.match(line)]
        if headers:
            place = self.choice(headers)
            other = b"race 1" if lines[place] == b"race 2" else b"race 2"
            lines[place] = self.choice([other, other, other, b"race 3", b"race 02"])
        return lines

    def broken_floor(self, lines):
        """Sets a floor after a race's first line, which then may have two, one above its delay, or a version without
        floors; at times with a further `set` line, right, wrong or too long."""
        headers = [place for place, line in enumerate(lines) if HEADER.match(line)]
        if headers:
            place = self.choice([place for place in headers if lines[place] == b"race 2"] or headers)
            floor = self.choice([9, 10, 99, 100, 249, 250, 251, 300, 2000, 2001])
            further = self.choice([b"set attempt 300", b"set attempt 250", b"set count 0", b"set", b"sets",
                                   self.long_line(b"set ")])
            lines[place + 1:place + 1] = [b"set floor %d" % floor] + [further] * self.randrange(2)
        return lines

    def odd_word(self, token):
        """A word that looks like the token more often than not."""
        words = ODD_WORDS
        if self.randrange(4):
            words = ODD_ADDRESSES if set(token) & set(b":.") else ODD_NUMBERS if token[:1].isdigit() else ODD_WORDS
        word = self.choice(words)
        if b"/" in token and self.is_one_in(2):
            word = token.split(b"/")[0].decode("latin-1") + "/" + self.choice(ODD_LENGTHS)
        return word.encode()

    def broken_line(self, line):
        """A token changed, doubled, dropped or brought in, or the line made long."""
        tokens, way = line.split(b" "), self.randrange(7)
        place = self.randrange(len(tokens))
        word = self.odd_word(tokens[place])
        if way <= 2:
            tokens[place] = word
        elif way == 3:
            tokens.insert(place, word)
        elif way == 4:
            tokens.insert(place, tokens[place])
        elif way == 5:
            del tokens[place]
        else:
            length = plain.MOST_LINE_BYTES + self.choice([-1, 0, 1, 900])
            fill = self.choice([b" ", b"0", b" ::1", b" 192.0.2.1"])
            return (line + fill * length)[:length]
        return b" ".join(tokens)


def longest(address):
    """The address with all its digits."""
    if address.family == 4:
        return plain.print_address(address)
    return ":".join(re.findall("....", f"{address.number:032x}"))


def as_text(lines):
    return "".join(f"{line}\n" for line in lines).encode()


def main():
    parser = argparse.ArgumentParser(description=__doc__, formatter_class=argparse.RawDescriptionHelpFormatter)
    parser.add_argument("races", type=int)
    parser.add_argument("--most", type=int, metavar="BYTES")
    parser.add_argument("--largest", action="store_true")
    parser.add_argument("--seed", type=int, default=1)
    parser.add_argument("--records", action="store_true")
    options = parser.parse_args()
    drawer = Drawer(options.seed)
    text = (b"".join(drawer.largest_race() for _ in range(options.races)) if options.largest
            else drawer.sound_text(options.races, options.most))
    if options.records:
        text = Drawer(f"{options.seed} records").with_records(text)
    sys.stdout.buffer.write(text)


if __name__ == "__main__":
    main()
