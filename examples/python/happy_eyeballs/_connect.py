"""Connections by races."""
from __future__ import annotations

import asyncio
import contextlib
import errno
import os
import socket
from collections.abc import Callable, Sequence
from typing import Any, Tuple, Union

from ._library import LIMIT, START, WAIT, WON, Step
from ._race import FAMILIES, Race

SocketAddress = Union[Tuple[str, int], Tuple[str, int, int, int]]
AddressInfo = Tuple[int, int, int, str, SocketAddress]
NUMBERS = {6: socket.AF_INET6, 4: socket.AF_INET}
LEAST_DELAY, MOST_DELAY, MOST_COUNT, MOST_ADDRESSES = 10, 2000, 8, 256


def packed_of(address: SocketAddress, number: int) -> bytes:
    return socket.inet_pton(number, address[0].partition("%")[0])


class Dialing:
    """The attempts of a race, and the addresses that they may connect to."""

    def __init__(self, race: Race, local: Sequence[AddressInfo]) -> None:
        self.race = race
        self.local = {info[0]: info[4] for info in reversed(local)}  # by family
        self.infos: dict[bytes, AddressInfo] = {}  # by address; with its port and its zone
        self.attempts: dict[asyncio.Task[socket.socket], Step] = {}
        self.sockets: dict[int, socket.socket] = {}  # that connected, by place
        self.faults: list[OSError] = []

    def answered(self, family: int, infos: Sequence[AddressInfo]) -> None:
        """Records the addresses of a family: none if the client binds to an address of the other family only."""
        number = NUMBERS[family]
        if self.local and number not in self.local:
            infos = []
        own = {packed_of(info[4], number): info for info in reversed(infos) if info[0] == number}
        order = list(dict.fromkeys(packed_of(info[4], number) for info in infos if info[0] == number))
        self.infos |= own
        source = packed_of(self.local[number], number) if number in self.local else None
        self.race.answered(family, order[:MOST_ADDRESSES], source)

    def start(self, step: Step) -> None:
        info = self.infos[step.packed()]
        self.attempts[asyncio.ensure_future(dial(info, self.local.get(info[0])))] = step

    def look(self) -> None:
        """Records the attempts that have ended."""
        for task in [task for task in self.attempts if task.done()]:
            step, fault = self.attempts.pop(task), task.exception()
            if fault is None:
                self.sockets[step.place] = task.result()
            elif isinstance(fault, OSError):
                self.faults.append(fault)
            else:
                raise fault
            self.race.ended(step, fault)

    def close(self) -> None:
        """Gives up all attempts, and closes what they connected."""
        for task in self.attempts:
            task.add_done_callback(drop)
            task.cancel()
        for sock in self.sockets.values():
            sock.close()


async def dial(info: AddressInfo, local: SocketAddress | None) -> socket.socket:
    family, kind, protocol, _, address = info
    sock = socket.socket(family, kind or socket.SOCK_STREAM, protocol)
    try:
        sock.setblocking(False)
        if local is not None:
            sock.bind(local)
        await asyncio.get_running_loop().sock_connect(sock, address)
    except BaseException:
        sock.close()
        raise
    return sock


def drop(task: asyncio.Task[Any]) -> None:
    if not task.cancelled() and task.exception() is None:
        task.result().close()


Lookup = Callable[[int], "asyncio.Task[list[AddressInfo]]"]


async def run(race: Race, dialing: Dialing, lookups: dict[asyncio.Task[list[AddressInfo]], int]) -> socket.socket:
    """Runs the race, whose answers are those of these tasks, each for a family, and returns the socket that won."""
    try:
        while True:
            step = race.next_step()
            if step.action == START:
                dialing.start(step)
            elif step.action == WAIT:
                await wait([*lookups, *dialing.attempts], max(0, step.tick - race.ticks()) / 1000)
                race.turn()
                for task in [task for task in lookups if task.done()]:
                    dialing.answered(lookups.pop(task), task.result())
                dialing.look()
            elif step.action == WON:
                return dialing.sockets.pop(step.place)
            else:
                raise fault_of(dialing.faults, step)
    finally:
        dialing.close()
        for task in lookups:
            task.cancel()


async def wait(tasks: list[asyncio.Task[Any]], seconds: float) -> None:
    if tasks:
        await asyncio.wait(tasks, timeout=seconds, return_when=asyncio.FIRST_COMPLETED)
    else:
        await asyncio.sleep(seconds)


def fault_of(faults: list[OSError], step: Step) -> OSError:
    """The fault of a race without a winner: that of its only attempt, or one with the errno of the first failure, which
    is its cause; `exceptions` has all of them."""
    if step.action != LIMIT and len(faults) == 1:
        return faults[0]
    if step.action == LIMIT:
        fault = TimeoutError(errno.ETIMEDOUT, os.strerror(errno.ETIMEDOUT))
    elif faults:
        fault = OSError(faults[0].errno, "Multiple exceptions: " + ", ".join(map(str, faults)))
    else:
        fault = OSError(errno.EADDRNOTAVAIL, "no address to connect to")
    fault.__cause__ = faults[0] if faults else None
    fault.exceptions = tuple(faults)  # type: ignore[attr-defined]
    return fault


def race_of(race: Race | None, delay: float | None, interleave: int | None) -> Race:
    if race is not None:
        return race
    return Race(
        attempt=None if delay is None else min(max(round(delay * 1000), LEAST_DELAY), MOST_DELAY),
        count=None if interleave is None else min(max(interleave, 1), MOST_COUNT))


async def start_connection(
    addr_infos: Sequence[AddressInfo],
    *,
    local_addr_infos: Sequence[AddressInfo] | None = None,
    happy_eyeballs_delay: float | None = None,
    interleave: int | None = None,
    loop: asyncio.AbstractEventLoop | None = None,
    race: Race | None = None,
) -> socket.socket:
    """A socket that is connected to one of the addresses, which are entries as getaddrinfo gives them.

    The rules order them (RFC 6724, RFC 8305): their order decides only between addresses that are equal otherwise.
    `local_addr_infos` has an address of each family to bind to; addresses of another family are left out. The delay
    from one start to the next is in seconds, 0.25 if not given; `interleave` addresses of the first family lead.
    Without a `race` a new one is run; the last two settings are a given race's own. `loop` must be the running one.

    OSError if none connects, with errno: that of the only attempt; or one with the errno of the first, and a tuple
    `exceptions` of all. TimeoutError at the race's limit.
    """
    race = race_of(race, happy_eyeballs_delay, interleave)
    dialing = Dialing(race, local_addr_infos or ())
    race.turn()
    for family in FAMILIES:
        dialing.answered(family, addr_infos)
    return await run(race, dialing, {})


async def look_up(host: str, port: int | str, family: int, flags: int) -> list[AddressInfo]:
    with contextlib.suppress(socket.gaierror):
        return await asyncio.get_running_loop().getaddrinfo(
            host, port, family=family, type=socket.SOCK_STREAM, flags=flags)
    return []


async def connect(
    race: Race, host: str, port: int | str, family: int, flags: int, local_addr: tuple[str, int] | None
) -> socket.socket:
    loop = asyncio.get_running_loop()
    local: Sequence[AddressInfo] = ()
    if local_addr is not None:
        local = await loop.getaddrinfo(*local_addr, family=family, type=socket.SOCK_STREAM, flags=socket.AI_PASSIVE)
    dialing = Dialing(race, local)
    race.turn()
    lookups = {}
    for one in FAMILIES:
        if family in (socket.AF_UNSPEC, NUMBERS[one]):
            lookups[asyncio.ensure_future(look_up(host, port, NUMBERS[one], flags))] = one
        else:
            dialing.answered(one, [])
    return await run(race, dialing, lookups)


async def open_connection(
    host: str,
    port: int | str,
    *,
    race: Race | None = None,
    family: int = socket.AF_UNSPEC,
    flags: int = socket.AI_ADDRCONFIG,
    local_addr: tuple[str, int] | None = None,
    happy_eyeballs_delay: float | None = None,
    interleave: int | None = None,
    **streams: Any,
) -> tuple[asyncio.StreamReader, asyncio.StreamWriter]:
    """A (reader, writer) pair, as asyncio.open_connection has it.

    `family` leaves out the look-up of the other family, `flags` are getaddrinfo's, and `local_addr` is an address to
    bind to. OSError if no address could be connected to, as `start_connection` has it.
    """
    race = race_of(race, happy_eyeballs_delay, interleave)
    race.note(f"to {host} {port}")
    sock = await connect(race, host, port, family, flags, local_addr)
    if streams.get("ssl"):
        streams.setdefault("server_hostname", host)
    try:
        return await asyncio.open_connection(sock=sock, **streams)
    except BaseException:
        sock.close()
        raise
