"""Tries the lines that libhe writes for a record, and races by them whose events share a millisecond.

needs: the proved library, by `make build-library`; gcc
"""
import ctypes
import ipaddress
import random
import re
import socket

from parts.library import (DONE, EXHAUSTED, FAULT, KINDS, LIMIT, NEVER, NUMBERS, START, TOO_SMALL, WAIT, WON, Script,
                           library)
from support import DATA, OPTIONS, data_of, family_of, run, tell

MOST_TURNS = 4 * 2 * 512  # of a race: for each of its addresses a start, a wait, an end and the wait after it, twice
FIVE = ["127.0.0.1", "127.0.0.2", "::1", "192.0.2.7", "2001:db8::7"]


def line_of(name, *arguments):
    """The answer of a call, its result and its line; a buffer of just the line's size is enough, a smaller one not."""
    answer, result, text = library().example.called(f"he_{name}", *arguments)
    if answer == DONE and text:
        buffer = ctypes.create_string_buffer(len(text))
        call, short = library().call_of(name), library().example.Result()
        exact = call(*arguments, buffer, len(text), ctypes.byref(short)), buffer.raw
        tell(exact == (DONE, text), f"he_{name}: not with just enough room")
        less = call(*arguments, buffer, len(text) - 1, ctypes.byref(short)), short.length, buffer.raw
        tell(less == (TOO_SMALL, len(text), text), f"he_{name}: not with room one byte too small")
    return answer, result, text.decode()


def packed(*ips):
    return b"".join(data_of(ip) for ip in ips)


def step_of(ip, tick, pause=(0, 0)):
    step = library().example.Step(family=6 if ":" in ip else 4, tick=tick)
    step.pause_from, step.pause_until = pause
    step.address[:len(data_of(ip))] = data_of(ip)
    return step


def check_answers():
    """An answer's line has its addresses as Python's ipaddress writes them; what is no answer is refused."""
    drawn = random.Random(OPTIONS.seed)
    for count in (0, 1, 2, 40, 256):
        for word, number, size in (("a", 4, 4), ("aaaa", 6, 16)):
            ips = [bytes(drawn.choice((0, 0, 1, 255, 9)) for _ in range(size)) for _ in range(count)]
            tick = drawn.randrange(1 << 32)
            answer, _, line = line_of("answer_line", number, b"".join(ips), size * count, tick)
            words = " ".join(str(ipaddress.ip_address(ip)) for ip in ips) or "none"
            tell((answer, line) == (DONE, f"{word} {tick} {words}\n"), f"he_answer_line: {answer}, {line}")
    for number, text in ((4, b"abc"), (6, b"abcd"), (6, bytes(17)), (5, b""), (0, bytes(4))):
        answer, result, line = line_of("answer_line", number, text, len(text), 3)
        tell((answer, result.kind, line) == (FAULT, NUMBERS["KIND_ADDRESS"], ""), f"he_answer_line {number}: {answer}")


def check_ends():
    """An end has the ticks since the start, at least one."""
    for ip in FIVE:
        for connected, start, tick, words in ((1, 100, 135, "ok 35"), (0, 7, 7, "fail 1"), (1, 9, 3, "ok 1"),
                                              (0, 0, 1 << 40, f"fail {1 << 40}"), (5, 1, 3, "ok 2")):
            answer, _, line = line_of("connect_line", ctypes.byref(step_of(ip, start)), connected, tick)
            tell((answer, line) == (DONE, f"connect {ip} {words}\n"), f"he_connect_line: {answer}, {line}")
    for pause, line in (((0, 0), ""), ((0, 9), "pause 0 9\n"), ((250, 254), "pause 250 254\n")):
        found = line_of("pause_line", ctypes.byref(step_of("::1", 3, pause)))
        tell((found[0], found[2]) == (DONE, line), f"he_pause_line: {found}")


def check_settings():
    for name, value in (("limit", 300), ("floor", 10), ("attempt", 0)):
        found = line_of("setting_line", name.encode(), len(name), value)
        tell((found[0], found[2]) == (DONE, f"set {name} {value}\n"), f"he_setting_line: {found}")


def check_ways():
    for family, to, source, length in ((4, "127.0.0.2", "127.0.0.1", 8), (6, "2001:db8::7", "2001:db8::1", 64)):
        for deprecated, tunnel in ((0, 0), (1, 0), (0, 3)):
            way = library().example.way_of(data_of(to), data_of(source), 9, length)
            way.deprecated, way.tunnel = deprecated, tunnel
            lines = [line_of(f"{word}_line", ctypes.byref(way))[2] for word in ("source", "route")]
            wanted = [f"source {source}/{length} 9{' deprecated' * deprecated}\n",
                      f"route {to}/{32 if family == 4 else 128} 9{' tunnel' * (tunnel > 0)}\n"]
            tell(lines == wanted, f"the lines of a way: {lines}")


def check_records():
    """Each record line of the examples is written as it is; any other line is refused."""
    sound = [file for file in DATA.glob("*.timeline") if not file.with_suffix(".fault").exists()]
    lines = {line for file in sound for line in file.read_text().splitlines() if line.startswith("record ")}
    lines |= {"record to example.org 443", "record attempt 192.0.2.1 refused", "record untried ::1"}
    for line in sorted(lines):
        words = line.removeprefix("record ").encode()
        answer, _, found = line_of("record_line", words, len(words))
        tell((answer, found) == (DONE, f"{line}\n"), f"he_record_line {line}: {answer}, {found}")
    for words, kind in ((b"to example.org 70000", "RANGE"), (b"to a 1\nrecord untried ::1", "WORD"), (b"", "WORD"),
                        (b"to a 1\nrace 1", "WORD"), (b"attempt 192.0.2 refused", "ADDRESS"), (b"at noon", "WORD")):
        answer, result, found = line_of("record_line", words, len(words))
        good = answer == FAULT and found == "" and (result.kind == NUMBERS[f"KIND_{kind}"] or kind == "WORD")
        tell(good, f"he_record_line {words}: {answer}, {result.kind}, {found}")


def check_records_are_passed_over():
    """A step is the same with record lines before the race."""
    record = b"race 2\nset floor 10\naaaa 5 none\na 5 192.0.2.1\n"
    said = b"record to example.org 443\nrecord attempt 192.0.2.1 refused\n"
    for now in (5, 9):
        found = [library().step(text, 0, now) for text in (record, said + record)]
        same = [(answer, bytes(step)) for answer, step, _ in found]
        tell(same[0] == same[1] and same[0][0] == DONE, f"he_next at {now} with record lines: {found[1][0]}")


def check_kinds():
    """The words of a kind are those that the program prints; a number of no kind has none."""
    for kind in range(NUMBERS["KIND_SHARED_PRECEDENCE"] + 3):
        answer, _, text = line_of("kind_text", kind)
        tell((answer, text) == (DONE, KINDS.get(kind, "")), f"he_kind_text {kind}: {answer}, {text}")


def by_address(lines):
    """The source and route lines, without the interfaces' numbers, and the source of each route by these."""
    sources = {words[2]: words[1] for words in map(str.split, lines) if words[0] == "source"}
    return {words[1]: sources.get(words[2]) for words in map(str.split, lines) if words[0] == "route"}


def check_hosts():
    """he_host_lines has the sources that `he host --for` has; a second call changes nothing."""
    ips = [ip for ip in FIVE if ip != "::1"] + ["::1"]
    record, host = b"race 1\n", ""
    for word, number, family in (("aaaa", 6, socket.AF_INET6), ("a", 4, socket.AF_INET)):
        own = [ip for ip in ips if family_of(ip) == family]
        text = record + host.encode() + f"{word} 3 {' '.join(own)}\n".encode()
        answer, _, host = line_of("host_lines", number, text, len(text))
        tell(answer == DONE, f"he_host_lines: {answer}")
        text = record + host.encode() + f"{word} 3 {' '.join(own)}\n".encode()
        again = line_of("host_lines", number, text, len(text))[2]
        tell(again == host, f"he_host_lines again:\n{host}{again}")
    wanted = by_address(run(OPTIONS.program, "host", "--for", *ips).stdout.splitlines())
    tell(by_address(host.splitlines()) == wanted, f"he_host_lines:\n{host}he host --for: {wanted}")
    order = [line.split()[0] for line in host.splitlines()]
    tell(order == sorted(order, reverse=True), f"he_host_lines: routes before sources:\n{host}")
    print(f"    {len(wanted)} destinations with a route")


class OneByOne:
    """A client with a clock that stands still for several turns: it records one event in each turn, at the clock's tick
    or, if that is not after the last start, at the tick after it."""

    def __init__(self, script):
        self.script = script
        self.answers, self.connects, self.pauses, self.running = {}, "", "", []
        self.starts, self.after, self.end = [], 0, None
        self.pending = sorted((tick, word) for word, (tick, _) in script.answers.items())

    def record(self, end=""):
        answers = "".join(self.answers.get(word, "") for word in ("aaaa", "a"))
        there = {data_of(ip) for line in self.answers.values() for ip in line.split()[2:] if ip != "none"}
        known = "".join(line for ip, line in self.script.known if ip in there)
        return "".join([*self.script.head, answers, known, self.connects, self.pauses, end]).encode()

    def ends(self):
        """The ends of the attempts that are under way, as tick, step and word."""
        for step in self.running:
            ip = bytes(step.address[:16 if step.family == 6 else 4])
            word, duration = self.script.outcomes.get(ip, (None, NEVER))
            yield step.tick + duration, step, word

    def happen(self, now):
        """Records the first event that has come by now; whether there is one."""
        tick = max(now, self.after)
        if self.pending and self.pending[0][0] <= now:
            word = self.pending.pop(0)[1]
            ips = [ip for ip in self.script.answers[word][1].split()[2:] if ip != "none"]
            self.answers[word] = line_of(
                "answer_line", 6 if word == "aaaa" else 4, packed(*ips), len(packed(*ips)), tick)[2]
            return True
        for end, step, word in self.ends():
            if end <= now:
                self.running.remove(step)
                self.connects += line_of("connect_line", ctypes.byref(step), word == "ok", tick)[2]
                return True
        return False

    def next_event(self):
        return min([*(tick for tick, _ in self.pending), *(end for end, _, _ in self.ends())], default=NEVER)

    def run(self):
        now = 0
        for _ in range(MOST_TURNS):
            happened = self.happen(now)
            answer, step, result = library().step(self.record(), len(self.starts), now)
            if answer != DONE:
                return f"answer {answer}, line {result.line}, kind {result.kind}"
            self.pauses += line_of("pause_line", ctypes.byref(step))[2]
            if step.action == START:
                self.running.append(step)
                self.starts.append((step.place, step.tick, bytes(step.address[:16 if step.family == 6 else 4])))
                self.after = step.tick + 1
            elif step.action == WAIT and not happened:
                if step.tick <= now:
                    return f"waits for {step.tick} in a turn at {now}"
                now = min(step.tick, self.next_event())
            elif step.action != WAIT:
                word = {WON: f"won {step.place}", EXHAUSTED: "exhausted", LIMIT: "limit"}[step.action]
                self.end = f"{word} {step.tick}"
                return None
        return f"not over after {MOST_TURNS} turns"


def check_one_event_a_turn():
    """With one event in each turn, at a tick that several turns may have, the attempts that were started and the end
    are those of the replay of the record."""
    tried = set()  # texts: many of the examples are copies of a few
    for timeline in sorted(DATA.glob("*.timeline")):
        if timeline.with_suffix(".fault").exists():
            continue
        for text in re.findall(r"race [12]\n(?:.*\n)*?end\n", timeline.read_text()):
            if text in tried:
                continue
            tried.add(text)
            client = OneByOne(Script(text))
            fault = client.run()
            answer, result, buffer = library().text("replay", client.record("end\n"), 1 << 16)
            lines = buffer[:result.length].decode().splitlines()
            attempts = re.findall(r"^attempt (\d+) (\d+) (\S+)", "\n".join(lines), re.M)
            starts = [(int(place), int(tick), data_of(ip)) for place, tick, ip in attempts]
            same = fault is None and answer == DONE and (starts, lines[-1]) == (client.starts, client.end)
            tell(same, f"{timeline.name}: {fault}, {client.end}:\n{text}-- driven:\n{client.record().decode()}")
    print(f"    {len(tried)} races with one event a turn")
