"""The record of a race that is being run."""
from __future__ import annotations

import errno
import ipaddress
import time
from ctypes import byref

from ._library import START, HeError, Step, next_step, text_of, way_of, written

FAMILIES = (6, 4)  # in the order of a record
REASONS = {
    errno.ECONNREFUSED: "refused", errno.ENETUNREACH: "unreachable", errno.EHOSTUNREACH: "unreachable",
    errno.ETIMEDOUT: "timed-out", errno.ECONNRESET: "reset", errno.EACCES: "forbidden", errno.EPERM: "forbidden",
    errno.EADDRNOTAVAIL: "no-source",
}


class Race:
    """A race: its record, and the tick of its turn.

    `limit` is the milliseconds after which the race is given up, `attempt` those from one start to the next, and
    `count` the number of addresses of the first family that lead. Without them the values of RFC 8305 apply.
    """

    def __init__(self, limit: int = 30000, *, attempt: int | None = None, count: int | None = None) -> None:
        settings = {"limit": limit, "floor": 10, "attempt": attempt, "count": count}
        self.head = "race 2\n" + "".join(
            written("he_setting_line", name.encode(), len(name), value)
            for name, value in settings.items() if value is not None)
        self.records: list[str] = []
        self.host = ""
        self.answers: dict[int, str] = {}  # by family, 4 or 6
        self.connects: list[str] = []
        self.pauses: list[str] = []
        self.started = 0
        self.now = 0
        self.after = 0  # the tick after the last start: the first one for an event
        self.begun = time.monotonic()

    def ticks(self) -> int:
        return int((time.monotonic() - self.begun) * 1000)

    def turn(self) -> None:
        """Begins a turn at the present tick, which may be the last turn's."""
        self.now = self.ticks()

    def event_tick(self) -> int:
        return max(self.now, self.after)

    def record(self, end: str = "end\n") -> bytes:
        """The race's record: a text that `he replay` takes."""
        answers = "".join(self.answers.get(family, "") for family in FAMILIES)
        parts = (*self.records, self.head, self.host, answers, *self.connects, *self.pauses, end)
        return "".join(parts).encode()

    def transcript(self) -> str:
        return text_of("he_replay", self.record())

    def note(self, words: str) -> None:
        """Adds a record line, as `to example.org 443`. One that libhe refuses is left out."""
        try:
            self.records.append(text_of("he_record_line", words.encode()))
        except HeError:
            pass

    def answered(self, family: int, addresses: list[bytes], source: bytes | None = None) -> None:
        """Records the answer of a family, and the lines of this machine for its addresses.

        `source` is the address that the client binds to, if it does.
        """
        addresses = list(dict.fromkeys(addresses))
        packed = b"".join(addresses)
        self.answers[family] = written("he_answer_line", family, packed, len(packed), self.event_tick())
        if source is None:
            record = self.record(end="")
            self.host = written("he_host_lines", family, record, len(record))
        elif addresses:
            self.host = self.host_of(family, addresses, source)

    def host_of(self, family: int, addresses: list[bytes], source: bytes) -> str:
        """The lines of this machine, with those for addresses that are reached from this source."""
        old = self.host.splitlines(keepends=True)
        ways = [way_of(one, source, 1 if family == 6 else 2, 8 * len(source)) for one in addresses]
        sources = [line for line in old if line.startswith("source ")] + [written("he_source_line", byref(ways[0]))]
        routes = [line for line in old if line.startswith("route ")]
        return "".join(sources + routes + [written("he_route_line", byref(way)) for way in ways])

    def ended(self, start: Step, fault: OSError | None) -> None:
        """Records that an attempt connected, or failed by this fault."""
        self.connects.append(written("he_connect_line", byref(start), fault is None, self.event_tick()))
        if fault is not None:
            self.note(f"attempt {ipaddress.ip_address(start.packed())} {REASONS.get(fault.errno or 0, 'other')}")

    def next_step(self) -> Step:
        """The step that is due in this turn. A start counts as done."""
        step = next_step(self.record(end=""), self.started, self.now)
        self.pauses.append(written("he_pause_line", byref(step)))
        if step.action == START:
            self.started += 1
            self.after = step.tick + 1
        return step
