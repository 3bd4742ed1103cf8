"""Connections for asyncio by races of IPv6 and IPv4 addresses (RFC 8305) as libhe runs them.

`start_connection` takes addresses as getaddrinfo gives them, and returns the connected socket, as aiohttp's and
asyncio's callers expect it. `open_connection` takes a host, and is to be used in place of asyncio.open_connection: both
families are looked up at once, and each answer takes part in the race when it comes. Once it is over, a `Race` has the
race's record, a text that `he replay` takes:

    race = Race()
    reader, writer = await open_connection("example.org", 80, race=race)
    print(race.transcript())
"""
from ._connect import open_connection, start_connection
from ._library import HeError, library_version
from ._race import Race

__all__ = ["HeError", "Race", "library_version", "open_connection", "start_connection"]
