"""Connects through a built program's `he proxy` as a client of SOCKS 4 and of its extension 4A, whole and in pieces,
and looks at the reply, at what the server gets, and at what is kept of it.

needs: what parts/proxy.py needs, and curl
"""
import json
import pathlib
import random
import re
import select
import socket
import struct
import tempfile
import time

import support
from parts.proxy import RECORD, SOON, Proxy, all_of, echo, get
from support import DEAD_FOUR, DEAD_SIX, FOUR, TIMEOUT, comes, greet, must, needs, serving, silent, timed, unused_port

SETUP = support.NETWORK
GRANTED, REJECTED = b"\0\x5a" + bytes(6), b"\0\x5b" + bytes(6)
USER = b"s3cret-user"
SIGN = b"\0\0\0\7"  # an address by which a name comes after the user


def old(host, port, user=b"", command=1, sign=SIGN):
    """The request for an IPv4 address, or by 4A for a name."""
    begin = struct.pack(">BBH", 4, command, port)
    try:
        return begin + socket.inet_pton(socket.AF_INET, host) + user + b"\0"
    except OSError:
        return begin + sign + user + b"\0" + host.encode() + b"\0"


def named(name, port, user=b""):
    """The request for a name by 4A, also where it is an address."""
    return struct.pack(">BBH", 4, 1, port) + SIGN + user + b"\0" + name.encode() + b"\0"


def check_takes():
    """The address that answers is taken, each record has its target in its name and replays to it; an address may come
    as a name."""
    for make in (old, named):
        for address, host, wanted in support.TAKEN:
            with Proxy() as proxy, serving(greet, address) as port, proxy.connect() as client:
                client.sendall(make(host, port, USER))
                got, what = all_of(client), f"{make.__name__} {host}:"
                must(got == GRANTED + b"hello\n", what, got, repr(proxy.said()))
                must(comes(lambda: len(proxy.files()) == 1, SOON), what, "records", proxy.files())
                record, = proxy.files()
                found = RECORD.fullmatch(str(record.relative_to(proxy.records)))
                name = re.sub(r"[^A-Za-z0-9.:-]", "_", host)
                must(found and found.groups() == (name, str(port)), what, "record", record)
                transcript = support.replayed(record.read_text())
                must(support.attempts_of(transcript)[-1][1:] == (wanted, "won"), what, transcript)


def check_pieces():
    """A request that is cut anywhere is read, and what comes after its last NUL is the server's, also in one piece with
    it."""
    with Proxy() as proxy, serving(echo) as port:
        for given in (old(FOUR, port, USER), old("both.test", port), old("both.test", port, USER, sign=b"\0\0\0\xff")):
            given += b"\0early\0"
            for at in range(1, len(given) + 1):
                with proxy.connect() as client:
                    client.sendall(given[:at])
                    time.sleep(0.003)
                    client.sendall(given[at:])
                    got = get(client, 8 + 7)
                must(got == GRANTED + b"\0early\0", at, given, got, repr(proxy.said()))
            with proxy.connect() as client:
                for byte in given:
                    client.sendall(bytes([byte]))
                    time.sleep(0.001)
                got = get(client, 8 + 7)
            must(got == GRANTED + b"\0early\0", given, got, repr(proxy.said()))


def check_early():
    """Whatever a client sends with its request goes to the server first, however much it is."""
    early = random.Random(4).randbytes(9_000)
    with Proxy() as proxy, serving(echo) as port, proxy.connect() as client:
        client.sendall(old("both.test", port, USER) + early)
        got = get(client, 8 + len(early))
    must(got == GRANTED + early, f"{len(got)} bytes", got[:8])


LONG = b"a" * 255  # as many octets as a user and a name may have


def rejected(port, own):
    """What is refused, and the word for it in the log: one for another command, one for a request that cannot be read or
    names no host."""
    commands = [old(FOUR, port, command=2), old("four.test", port, command=2), b"\4\2", b"\4\0"]
    unread = [
        named("", port, USER), named("four .test", port), named("four\x7f.test", port), old("four.test", 0), old(FOUR, 0),
        named("a" * 256, port), named("a" * 256, port)[:-1], old(FOUR, port, LONG + b"a"),
        old(FOUR, port, LONG + b"a")[:-1], old("four.test", port, LONG + b"a"),
    ]
    return [
        *((given, "command") for given in commands), *((given, "address-kind") for given in unread),
        (named("a" * 255, port), "not-a-name"), (old(FOUR, own), "forbidden"), (named(FOUR, own), "forbidden"),
    ]


def check_rejected():
    """Other commands and what cannot be read are refused by 91, before any race, and so the log says."""
    came = []
    with Proxy("--log-json") as proxy, serving(lambda connection: came.append(1)) as port:
        for given, word in rejected(port, proxy.port):
            before = len(proxy.said().splitlines())
            got = proxy.answer(given)
            must(got == REJECTED, given, got)
            must(comes(lambda: len(proxy.said().splitlines()) > before, SOON), given, "no line")
            said = json.loads(proxy.said().splitlines()[-1])
            must((said["end"], said["fault"]) == ("refused", word), given, said)
        must(not came, "a server was connected to")


def check_longest():
    """A user of 255 octets is taken."""
    with Proxy() as proxy, serving(greet) as port:
        for host in (FOUR, "four.test"):
            got = proxy.answer(old(host, port, LONG))
            must(got == GRANTED + b"hello\n", host, got, repr(proxy.said()))


def check_without_end():
    """A request without a NUL of its own is waited for, and gets no answer and no race if the client ends."""
    with Proxy() as proxy, serving(greet) as port:
        for given in (old(FOUR, port, USER)[:-1], old("four.test", port, USER)[:-1], named("", port)[:-1],
                      old(FOUR, port)[:8], b"\4\1", b"\4", old(FOUR, port, LONG)[:-1], named("a" * 255, port)[:-1]):
            with proxy.connect(SOON) as client:
                client.sendall(given)
                is_answered = bool(select.select([client], [], [], 0.3)[0])
                client.shutdown(socket.SHUT_WR)
                got = all_of(client)
            must(not is_answered and not got, given, got)
        must(not proxy.files(), "a race", proxy.files())


@timed
def check_failures():
    """Where nothing connects the reply is 91, whatever the cause, and the log says which."""
    refused = unused_port()
    with Proxy("--timeout", 400, "--log-json") as proxy, silent(DEAD_SIX, refused), silent(DEAD_FOUR, refused):
        for host, port, word in [("four.test", refused, "all-failed"), (FOUR, refused, "all-failed"),
                                 ("dead.test", refused, "timed-out"), ("a..b", refused, "not-a-name"),
                                 ("203.0.113.9", refused, "no-network")]:
            before = len(proxy.said().splitlines())
            got = proxy.answer(old(host, port, USER))
            must(got == REJECTED, host, got, proxy.said())
            must(comes(lambda: len(proxy.said().splitlines()) > before, SOON), host, "no line")
            said = proxy.said().splitlines()[-1]
            must(f'"host":"{host}"' in said and f'"fault":"{word}"' in said, host, said)


def check_user():
    """No octet of the user is in the log or in a record."""
    for words in ((), ("--log-json",)):
        with Proxy(*words) as proxy, serving(greet) as port:
            for given in (old(FOUR, port, USER), old("both.test", port, USER), old(FOUR, port, USER, command=2),
                          named("", port, USER), old(FOUR, unused_port(), USER), old(FOUR, port, USER * 24)):
                proxy.answer(given)
            key = '"client":' if words else "client="
            must(comes(lambda: proxy.said().count(key) == 6, SOON), proxy.said())
            texts = [proxy.said(), *(path.read_text() for path in proxy.files())]
            must(len(texts) == 4, proxy.files())
            for text in texts:
                must("s3cret" not in text and "user" not in text, text)


def check_curl():
    """curl gets a page by SOCKS 4, and by 4A also from a name whose IPv6 address refuses."""
    needs("curl")
    with tempfile.TemporaryDirectory() as folder, Proxy() as proxy:
        pathlib.Path(folder, "page.txt").write_text("page\n")
        with support.web_server(folder) as port:
            for scheme, host in (("socks4", "four.test"), ("socks4", FOUR), ("socks4a", "both.test"),
                                 ("socks4a", "four.test")):
                for user in ("", "me@"):
                    at = f"{scheme}://{user}{FOUR}:{proxy.port}"
                    done = support.run("curl", "-sS", "--noproxy", ",", "--proxy", at,
                                       f"http://{host}:{port}/page.txt", timeout=TIMEOUT)
                    must((done.returncode, done.stdout) == (0, "page\n"), scheme, host, done, proxy.said())
