"""Tests of happy_eyeballs on this machine alone: 127.0.0.1 and ::1 answer, 127.0.0.2 refuses, 127.0.0.3 is silent.

    HE_LIBRARY=PREFIX/lib/libhe.so.1 python3 -m unittest test_happy_eyeballs        or pytest

With HE=PROGRAM, the program `he` must replay each record to the same transcript.
"""
from __future__ import annotations

import asyncio
import contextlib
import errno
import os
import re
import socket
import subprocess
import time
import unittest

import happy_eyeballs
from happy_eyeballs import HeError, Race, open_connection, start_connection


def silent_listener(address: str, port: int, held: contextlib.ExitStack) -> None:
    """A listener whose queue is full: whoever connects then waits."""
    held.enter_context(socket.create_server((address, port), backlog=0))
    with contextlib.suppress(TimeoutError):
        while True:
            held.enter_context(socket.create_connection((address, port), timeout=0.1))


def infos_of(*ips: str, port: int):
    return [(socket.AF_INET6 if ":" in ip else socket.AF_INET, socket.SOCK_STREAM, 6, "", (ip, port)) for ip in ips]


def judged(race: Race) -> tuple[list[str], str]:
    """What became of each attempt, and the last line of the transcript, which `he` must write too."""
    transcript = race.transcript()
    if program := os.environ.get("HE"):
        replayed = subprocess.run([program, "replay"], input=race.record(), capture_output=True)
        assert replayed.stdout.decode() == transcript, race.record()
    return re.findall(r"^attempt \d+ \d+ \S+ (\w+) \d+$", transcript, re.M), transcript.splitlines()[-1]


class Races(unittest.IsolatedAsyncioTestCase):
    def setUp(self) -> None:
        held = contextlib.ExitStack()
        self.addCleanup(held.close)
        self.server = held.enter_context(socket.create_server(("127.0.0.1", 0)))
        self.port = self.server.getsockname()[1]
        self.has_six = False
        with contextlib.suppress(OSError):
            held.enter_context(socket.create_server(("::1", self.port), family=socket.AF_INET6))
            self.has_six = True
        silent_listener("127.0.0.3", self.port, held)

    async def race(self, *ips: str, limit: int = 10_000, **more) -> tuple[str | None, list[str], str]:
        """A race of these addresses: the one that it connected to, and what `judged` returns."""
        race, peer = Race(limit), None
        with contextlib.suppress(OSError):
            with await start_connection(infos_of(*ips, port=self.port), race=race, **more) as sock:
                peer = sock.getpeername()[0]
        return peer, *judged(race)

    async def test_connects_past_refused_and_silent_addresses(self) -> None:
        for ips, marks in [
            (["127.0.0.1"], ["won"]), (["127.0.0.2", "127.0.0.1"], ["failed", "won"]),
            (["127.0.0.3", "127.0.0.1"], ["cancelled", "won"]),
            (["127.0.0.3", "127.0.0.2", "127.0.0.1"], ["cancelled", "failed", "won"]),
            (["127.0.0.1", "127.0.0.1"], ["won"]),
        ]:
            with self.subTest(ips):
                peer, found, last = await self.race(*ips)
                assert (peer, found) == ("127.0.0.1", marks)
                assert re.fullmatch(rf"won {len(marks) - 1} \d+", last)

    async def test_a_silent_address_costs_one_delay(self) -> None:
        begun = time.monotonic()
        await self.race("127.0.0.3", "127.0.0.1")
        assert 0.25 <= time.monotonic() - begun < 2

    async def test_ipv6_goes_first(self) -> None:
        if not self.has_six:
            self.skipTest("no ::1")
        peer, found, last = await self.race("127.0.0.2", "::1")
        assert (peer, found) == ("::1", ["won"])

    async def test_errors_have_the_errno_and_all_causes(self) -> None:
        with self.assertRaises(ConnectionRefusedError) as caught:
            await start_connection(infos_of("127.0.0.2", "127.0.0.4", port=self.port))
        assert caught.exception.errno == errno.ECONNREFUSED
        assert [cause.errno for cause in caught.exception.exceptions] == [errno.ECONNREFUSED] * 2
        assert caught.exception.__cause__ is caught.exception.exceptions[0]
        with self.assertRaises(ConnectionRefusedError):
            await start_connection(infos_of("127.0.0.2", port=self.port))
        with self.assertRaises(OSError) as caught:
            await start_connection([])
        assert caught.exception.errno == errno.EADDRNOTAVAIL

    async def test_limit(self) -> None:
        race = Race(300)
        with self.assertRaises(TimeoutError) as caught:
            await start_connection(infos_of("127.0.0.3", port=self.port), race=race)
        assert caught.exception.errno == errno.ETIMEDOUT
        assert judged(race) == (["cancelled"], "limit 300")

    async def test_binds_to_a_local_address(self) -> None:
        race = Race()
        with await start_connection(infos_of("127.0.0.1", "::1", port=self.port), race=race,
                                    local_addr_infos=infos_of("127.0.0.8", port=0)) as sock:
            assert sock.getsockname()[0] == "127.0.0.8"
        assert "\nsource 127.0.0.8/32 2\nroute 127.0.0.1/32 2\naaaa " in race.record().decode()
        assert judged(race)[0] == ["won"]

    async def test_settings_act_on_the_race(self) -> None:
        race_of = happy_eyeballs._connect.race_of
        assert race_of(None, 0.1, 2).head == "race 2\nset limit 30000\nset floor 10\nset attempt 100\nset count 2\n"
        assert race_of(None, 0, None).head == "race 2\nset limit 30000\nset floor 10\nset attempt 10\n"

    async def test_open_connection(self) -> None:
        race = Race()
        reader, writer = await open_connection(
            "127.0.0.1", self.port, race=race, family=socket.AF_INET, local_addr=("127.0.0.7", 0), flags=0)
        assert writer.get_extra_info("sockname")[0] == "127.0.0.7"
        peer = self.server.accept()[0]
        peer.sendall(b"hi\n")
        assert await reader.readline() == b"hi\n"
        peer.close()
        writer.close()
        await writer.wait_closed()
        assert race.record().decode().startswith(f"record to 127.0.0.1 {self.port}\nrace 2\n")
        assert judged(race)[0] == ["won"]

    async def test_no_name(self) -> None:
        race = Race()
        with self.assertRaises(OSError):
            await open_connection("no-such-name.invalid", self.port, race=race)
        marks, last = judged(race)
        assert marks == [] and re.fullmatch(r"exhausted \d+", last)

    async def test_records_why_an_attempt_failed(self) -> None:
        race = Race()
        with self.assertRaises(OSError):
            await start_connection(infos_of("127.0.0.2", port=self.port), race=race)
        assert race.record().decode().startswith("record attempt 127.0.0.2 refused\nrace 2\n")
        assert re.search(r"(?m)^connect 127\.0\.0\.2 fail \d+$", race.record().decode())

    async def test_a_cancelled_race_closes_its_sockets(self) -> None:
        before = len(os.listdir("/proc/self/fd"))
        task = asyncio.ensure_future(start_connection(infos_of("127.0.0.3", port=self.port)))
        await asyncio.sleep(0.1)
        task.cancel()
        with self.assertRaises(asyncio.CancelledError):
            await task
        await asyncio.sleep(0)
        assert len(os.listdir("/proc/self/fd")) == before

    async def test_a_refused_record_has_its_fault(self) -> None:
        race = Race()
        race.head = race.head.replace("floor", "roof")
        with self.assertRaises(HeError) as caught:
            race.transcript()
        assert (caught.exception.line, caught.exception.kind) == (3, "word")


if __name__ == "__main__":
    unittest.main()
