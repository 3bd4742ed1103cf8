"""Draws races, and writes a packet capture of them and what tools/from-capture must make of it.

A folder gets drawn.pcap, drawn.timeline with record lines, drawn.done: what the client did, as transcripts; and
drawn.said: the notes on silent addresses and on connections that are passed over. The races run beside each other, and
some names and some addresses come again. Among their packets are aliases, answers over TCP, answers with what they
don't need, copies as they are captured on two interfaces, repetitions, refusals, ICMP errors that are heeded and such
that are not, attempts that the client gives up, connections that come too late, and further ones after the race is
won.
"""
import datetime
import ipaddress
import random
import struct

import support
from support import wire

CLIENT = {4: ipaddress.ip_address("192.0.2.2"), 6: ipaddress.ip_address("2001:db8::2")}
SERVER = ipaddress.ip_address("192.0.2.53")
ROUTER = {4: ipaddress.ip_address("192.0.2.1"), 6: ipaddress.ip_address("2001:db8::1")}
KINDS = {6: 28, 4: 1}
WORDS = {6: "aaaa", 4: "a"}
SYN, RST, ACK, FIN = 2, 4, 16, 1
START = 1_764_000_000_000_000  # microseconds
LONG_AGO = 70  # races, one in 100 ms
NAMES = 200  # then they come again
HOST = ["source 2001:db8::2/64 1", "source 192.0.2.2/24 1", "route ::/0 1", "route 0.0.0.0/0 1"]


# Packets


def ip(source, target, protocol, payload):
    if source.version == 4:
        return struct.pack("!BBHHHBBH", 0x45, 0, 20 + len(payload), 0, 0, 64, protocol, 0) + (
            source.packed + target.packed + payload)
    return struct.pack("!IHBB", 6 << 28, len(payload), protocol, 64) + source.packed + target.packed + payload


def udp(source, source_port, target, target_port, payload):
    return ip(source, target, 17, struct.pack("!HHHH", source_port, target_port, 8 + len(payload), 0) + payload)


def tcp(source, source_port, target, target_port, sequence, flags, payload=b""):
    return ip(source, target, 6, struct.pack("!HHIIBBHHH", source_port, target_port, sequence, 0, 0x50, flags, 64000, 0,
                                             0) + payload)


# ICMP errors by family: their types and codes (RFC 1812 section 5.2.7, RFC 4443 section 3), and their words.
ERRORS = {4: {(3, 1): "unreachable", (3, 0): "unreachable", (3, 3): "refused", (3, 13): "forbidden"},
          6: {(1, 3): "unreachable", (1, 0): "unreachable", (1, 4): "refused", (1, 1): "forbidden"}}


def icmp(packet, kind=None):
    """The error that a router answers a packet with: by default host, or address, unreachable."""
    version = packet[0] >> 4
    kind, protocol, most = (kind or (3, 1), 1, 28) if version == 4 else (kind or (1, 3), 58, 1000)
    return ip(ROUTER[version], CLIENT[version], protocol, struct.pack("!BBHI", *kind, 0, 0) + packet[:most])


def record(name, kind, payload):
    return support.record(wire(name), kind, payload)


def dns(ident, name, version, records=None, flags=0x8180, others=()):
    """A query, or an answer with its records and others after them that answer nothing."""
    question = wire(name) + struct.pack("!HH", KINDS[version], 1)
    if records is None:
        return struct.pack("!HHHHHH", ident, 0x0100, 1, 0, 0, 0) + question
    counts = struct.pack("!HHHHHH", ident, flags, 1, len(records), 0, len(others))
    return counts + question + b"".join([*records, *others])


# Races


def moment(micros):
    """A time as RFC 3339 has it."""
    time = datetime.datetime.fromtimestamp(micros // 1_000_000, datetime.timezone.utc)
    return f"{time:%Y-%m-%dT%H:%M:%S}.{micros // 1000 % 1000:03}Z"


class Drawn(random.Random):
    """The packets of all races, each with its time in microseconds, and the texts that are expected."""

    def __init__(self, seed):
        super().__init__(seed)
        self.packets, self.port, self.count, self.answered = [], 1024, 0, []
        self.races = []  # of each its start, and the lines of its texts

    def next_port(self):
        self.port = self.port + 1 if self.port < 65000 else 1025
        return self.port

    def add(self, time, packet):
        self.packets.append((time, len(self.packets), packet))
        if self.random() < 0.1:
            self.packets.append((time + 30, len(self.packets), packet))

    def addresses(self, version):
        """Some new addresses."""
        last, base = self.count, ipaddress.ip_address("2001:db8:1::" if version == 6 else "10.0.0.0")
        self.count += self.choice([0, 1, 1, 2, 3, 5])
        return [base + number for number in range(last + 1, self.count + 1)]

    def answers(self):
        """Both answers, None where there is none; now and then those of a race of this or another name that is over."""
        back = self.choice([LONG_AGO, NAMES])
        if len(self.answered) > back and self.random() < 0.3:
            return self.answered[-back]
        return {version: self.addresses(version) if self.random() < 0.9 else None for version in (6, 4)}

    def lookup(self, start, name, version, answer_tick, found):
        """The query and its answer; `found` is None where there is none."""
        ident, port = self.randrange(65536), self.next_port()
        asked = start + (100 if version == 6 else 0)
        query = udp(CLIENT[4], port, SERVER, 53, dns(ident, name, version))
        self.add(asked, query)
        if found is None:
            self.add(asked + 550_000, query)  # again, when attempts may be under way
            return
        alias = self.random() < 0.3
        owner = f"alias.{name}" if alias else name
        records = [record(name, 5, wire(owner))] * alias
        records += [record(owner, KINDS[version], each.packed) for each in found]
        others = [record("ns.test", 1, SERVER.packed)] * self.choice([0, 0, 1])
        time, answer = start + answer_tick * 1000 + 300, dns(ident, name, version, records, 0x8180, others)
        if self.random() < 0.2:
            self.add(asked + 100, udp(SERVER, 53, CLIENT[4], port, dns(ident, name, version, records[:1], 0x8380)))
            self.over_tcp(asked + 200, time, dns(ident, name, version), answer)
        else:
            self.add(time, udp(SERVER, 53, CLIENT[4], port, answer))

    def over_tcp(self, asked, answered, query, answer):
        there = CLIENT[4], self.next_port(), SERVER, 53
        back = there[2:] + there[:2]
        self.add(asked, tcp(*there, 100, SYN))
        self.add(asked + 20, tcp(*back, 900, SYN | ACK))
        self.add(asked + 40, tcp(*there, 101, ACK, struct.pack("!H", len(query)) + query))
        self.add(answered, tcp(*back, 901, ACK, struct.pack("!H", len(answer)) + answer))

    def attempt(self, start, tick, address, fate, duration, stop):
        """The packets of an attempt; gives the word of a failed one. A connection that comes after the race is won is
        reset, or made and closed."""
        there = CLIENT[address.version], self.next_port(), address, 443
        back, sequence = there[2:] + there[:2], self.randrange(1 << 32)
        syn, next_sequence = tcp(*there, sequence, SYN), sequence + 1 & 0xFFFFFFFF
        begun, ended = start + tick * 1000 + 500, start + (tick + (duration or 0)) * 1000 + 500
        self.add(begun, syn)
        if fate is None:
            if self.random() < 0.3:
                self.add(begun + 300_000, icmp(syn))  # not heeded: another SYN follows
            self.add(begun + 1_000_000, syn)
        elif fate in ("ok", "left"):
            self.add(ended, tcp(*back, 7, SYN | ACK))
            if fate == "left" or tick + duration > stop and self.random() < 0.5:
                self.add(ended + 10, tcp(*there, next_sequence, RST))
            else:
                if self.random() < 0.8:  # else it is not captured
                    self.add(ended + 5_000, tcp(*there, next_sequence, FIN | ACK))
                self.add(ended + 9_000, tcp(*there, next_sequence + 1 & 0xFFFFFFFF, RST))
            return "timed-out" if fate == "left" and tick + duration < stop else None
        elif self.random() < 0.5:
            self.add(ended, tcp(*back, 0, RST | ACK))
            return "refused"
        else:
            kind = self.choice(list(ERRORS[address.version]))
            self.add(ended, icmp(syn, kind))
            return ERRORS[address.version][kind]
        return None

    def further(self, start, tick, addresses):
        """Connections that a client makes when the race is won; how many."""
        made = [address for address in addresses if self.random() < 0.1]
        for address in made:
            client, port = CLIENT[address.version], self.next_port()
            self.add(start + (tick + 40) * 1000, tcp(client, port, address, 443, self.randrange(1 << 32), SYN))
        return len(made)

    def race(self, start, name):
        """A race that is drawn."""
        found = self.answers()
        self.answered.append(found)
        known = [address for version in (6, 4) for address in found[version] or []]
        self.shuffle(known)
        tick, attempts = 400 + self.randrange(100), []
        for address in known[:self.randrange(1, len(known) + 1)] if known else []:
            fate = self.choice(["ok", "ok", "ok", "fail", "fail", None, "left"])
            attempts.append((tick, address, fate, self.randrange(1, 900 if fate in ("ok", "left") else 300)))
            tick += self.randrange(10, 400)
        self.tell(start, name, found, {version: self.randrange(1, 400) for version in (6, 4)}, attempts)

    def twins(self, start, name):
        """Races at the same addresses. The second begins when the first has made one attempt, and makes its own one
        shortly before the other goes on; the third is the first name's again, soon after."""
        self.count += 1
        bases = {6: "2001:db8:2::", 4: "11.0.0.0"}
        found = {version: [ipaddress.ip_address(base) + self.count] for version, base in bases.items()}
        for which, begin in (("one", 0), ("two", 140), ("one", 4000)):
            attempts = [(20, found[6][0], None, None), (220, found[4][0], None, None)]
            self.tell(start + begin * 1000, f"{which}.{name}", found, {6: 1, 4: 1}, attempts)

    def tell(self, start, name, found, ticks, attempts):
        """The packets and the texts of a race, with the attempts that begin before it is won."""
        lines, records = ["race 1", *HOST], [f"at {moment(start)}", f"to {name} 443", f"from {CLIENT[4]}"]
        for version in (6, 4):
            self.lookup(start, name, version, ticks[version], found[version])
            if found[version] is not None:
                lines.append(f"{WORDS[version]} {ticks[version]} {' '.join(map(str, found[version])) or 'none'}")
            if not found[version]:
                word = "no-answer" if found[version] is None else "no-address"
                records.append(f"lookup {WORDS[version]} {word}")
        # A query that has no answer is sent again after 550 ms, when attempts are under way.
        records += [f"server {SERVER} silent 550"] * (None in found.values())
        successes = [(tick + duration, place) for place, (tick, _, fate, duration) in enumerate(attempts)
                     if fate == "ok"]
        stop, winner = min(successes, default=(None, None))
        attempts = [each for each in attempts if stop is None or each[0] < stop]
        if not attempts:
            return
        ends = [tick + (1000 if fate is None else duration) for tick, _, fate, duration in attempts]
        last, done, said = max(ends) if stop is None else stop, [], []
        for place, (tick, address, fate, duration) in enumerate(attempts):
            word = self.attempt(start, tick, address, fate, duration, last + (stop is None))
            records += [f"attempt {address} {word}"] if word else []
            is_failed = fate == "fail" and tick + duration <= last
            mark = f"won {stop}" if place == winner else f"cancelled {last}"
            mark = f"failed {tick + duration}" if is_failed else mark
            mark = f"cancelled {min(last, tick + duration)}" if fate == "left" else mark
            done.append(f"attempt {place} {tick} {address} {mark}")
            lines += [f"connect {address} {'ok' if fate == 'left' else fate} {duration}"] if fate else []
            said += [] if fate else [f"{address} was silent: 2 SYNs"]
        known = [address for version in (6, 4) for address in found[version] or []]
        is_over = None not in found.values() and len(attempts) == len(known) and all(
            fate == "fail" for _, _, fate, _ in attempts)
        done.append(f"won {winner} {stop}" if stop else f"exhausted {last}" if is_over else f"limit {last}")
        if further := self.further(start, stop, known) if stop else 0:
            said.append(f"{further} further connection{'s' * (further > 1)} passed over")
        tried = [address for _, address, _, _ in attempts]
        records += [f"untried {address}" for address in known if address not in tried]
        self.races.append((start, records, [*lines, "end"], done, said, self.result(attempts, stop, last)))

    def result(self, attempts, stop, last):
        """The client's own end, and the tick after which this is known: it stops where the next SYN was due, two
        seconds after the second one, and another second later."""
        if stop is not None:
            return f"connected {stop}", 0
        if all(fate == "fail" for _, _, fate, _ in attempts):
            return f"failed {last}", 0
        signs = [tick + {None: 1000, "left": duration}.get(fate, 0) for tick, _, fate, duration in attempts]
        return f"gave-up {max(signs)}", max([tick + 4000 for tick, _, fate, _ in attempts if fate is None], default=0)


def draw_all(races, seed):
    """The texts of the races, in the order of their starts, and their packets."""
    drawn, number = Drawn(seed), 0
    while len(drawn.races) < races:
        start = START + number * 100_000
        if number % 20 == 7 and len(drawn.races) < races - 2:
            drawn.twins(start, f"name{number}.test")
        else:
            drawn.race(start, f"name{number % NAMES}.test")
        number += 1
    told = sorted(drawn.races, key=lambda race: race[0])
    packets, timeline, done, said = sorted(drawn.packets), [], [], []
    for place, (begun, records, lines, did, notes, (result, until)) in enumerate(told, 1):
        is_known = begun + until * 1000 + 500 <= packets[-1][0]
        timeline += [f"record {line}" for line in [*records, *([result] if is_known else [])]] + lines
        done += did
        said += [f"{place}: {note}" for note in notes]
    return {"timeline": timeline, "done": done, "said": said}, packets


def draw_into(folder, races, seed):
    texts, packets = draw_all(races, seed)
    for end, lines in texts.items():
        (folder / f"drawn.{end}").write_text("".join(f"{line}\n" for line in lines))
    with open(folder / "drawn.pcap", "wb") as file:
        file.write(struct.pack("<IHHiIII", 0xA1B2C3D4, 2, 4, 0, 0, 65535, 101))
        for time, _, packet in packets:
            file.write(struct.pack("<IIII", time // 1_000_000, time % 1_000_000, len(packet), len(packet)) + packet)
