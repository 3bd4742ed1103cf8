"""Sends drawn beginnings to a built program's `he proxy`, in a network of its own: what its clients say, with octets
changed, cut off, doubled and joined, each over a connection of its own whose sending then ends. Looks at each reply, at
what came to the servers and to the name server, and at what the proxy is left with.

With --full these are 100,000 beginnings.
"""
import collections
import contextlib
import ipaddress
import os
import random
import re
import socket
import struct
import time
import unittest.mock

import support
from parts.proxy import HE, RECORD, SOON, Proxy, all_of, destination, must_close, socks, tunnel
from parts.proxy_http import wrong_with
from support import FOUR, NOERROR, NXDOMAIN, OPTIONS, NameServer, addresses, comes, labels_of, message, must, serving

SETUP = support.NETWORK
DRAWN = 100_000 if OPTIONS.full else 10_000  # beginnings
MOST_OF_ONE = 2  # seconds of processor time of one, and of each in the mean, of a build without optimization too
MOST_IN_MEAN = 0.02
MOST_MEMORY = 8_000  # kB at the end, beyond what it took after three tenths of them
# A checked build keeps what it frees, for a while: little of it.
CHECKED = {"ASAN_OPTIONS": "quarantine_size_mb=1"}
NAME, HOST = "drawn.test", "four.test"  # of the name server, and of the file of hosts; both are FOUR
ANSWER = b"HTTP/1.1 200 OK\r\nContent-Length: 3\r\nConnection: close\r\n\r\nyes"
HEAD = b"HTTP/1.1 200 OK\r\nContent-Length: 3\r\nVia: 1.1 he\r\nConnection: close\r\n\r\n"
OWN = b"a connection of this check's own"
RETURNED = (HEAD + b"yes", HEAD)  # as a client gets it whose request was forwarded, or was HEAD

# What the proxy may answer


STATUSES = {400: b"Bad Request", 403: b"Forbidden", 500: b"Internal Server Error", 501: b"Not Implemented",
            502: b"Bad Gateway", 504: b"Gateway Timeout"}
LAST = (b"Cache-Control: no-store\r\nX-Frame-Options: DENY\r\nCross-Origin-Resource-Policy: same-origin\r\n"
        b"Connection: close\r\n\r\n")
MESSAGE = re.compile(rb"HTTP/1\.1 (\d{3}) ([A-Za-z ]+)\r\nContent-Type: ([^\r\n]+)\r\nContent-Length: (\d+)\r\n" + LAST)
PAGES = (b"application/x-ns-proxy-autoconfig", b"text/html; charset=utf-8")
CONNECTED = b"HTTP/1.1 200 Connection established\r\n\r\n"
SOCKS = re.compile(rb"\x05\x00\x05([\x00-\x05\x07\x08])\x00(\x01.{6}|\x04.{18})", re.S)
OLD_GRANTED = b"\x00\x5a" + bytes(6)  # by SOCKS 4
KINDS = ("none", "short", "forwarded", "page", "refused", "tunnel", "SOCKS 4", "SOCKS", "refused by SOCKS")
SERVED = ("forwarded", "tunnel", "SOCKS 4", "SOCKS")  # (the server's answer comes with these)
SHORT = (b"", b"\x05\xff", b"\x05\x00", b"\x00\x5b" + bytes(6))  # no reply, one to a greeting, one to SOCKS 4


def is_message(reply):
    """Whether it is one response of the proxy's own, with its body; none to HEAD."""
    found = MESSAGE.match(reply)
    if not found:
        return False
    code, phrase, media, length = int(found[1]), *found.groups()[1:3], int(found[4])
    is_known = media in PAGES if (code, phrase) == (200, b"OK") else (
        STATUSES.get(code) == phrase and media == b"text/plain")
    return is_known and len(reply) - found.end() in (0, length)


def kind_of_reply(reply):
    """Which reply of which protocol it is, with the server's whole answer where it is a success; None if it is no such
    reply."""
    if reply in SHORT:
        return "short" if reply else "none"
    if reply in RETURNED:
        return "forwarded"
    if is_message(reply):
        return "page" if reply.startswith(b"HTTP/1.1 200 ") else "refused"
    if reply.startswith(CONNECTED):
        return "tunnel" if reply == CONNECTED + ANSWER else None
    if reply.startswith(OLD_GRANTED):
        return "SOCKS 4" if reply == OLD_GRANTED + ANSWER else None
    found = SOCKS.match(reply)
    if found and found[1] == b"\0":
        return "SOCKS" if reply[found.end():] == ANSWER else None
    return "refused by SOCKS" if found and found.end() == len(reply) else None


# What a beginning asks for


def is_here(host):
    """Whether it is the address of the servers, or a name of theirs, in one of the forms that programs take."""
    host = host.removesuffix(".").lower()
    if host in (NAME, HOST) or host == "localhost" or host.endswith(".localhost"):
        return True
    with contextlib.suppress(ValueError):
        ip = ipaddress.ip_address(host)
        return FOUR in (str(ip), str(getattr(ip, "ipv4_mapped", None)))
    with contextlib.suppress(OSError, ValueError):
        return socket.inet_aton(host) == socket.inet_aton(FOUR)
    return False


def socks_in(given):
    """The host, the port and what follows, of a request of SOCKS 5 (RFC 1928)."""
    if len(given) < 2 or given[0] != 5 or 0 not in given[2:2 + given[1]]:
        return None
    rest = given[2 + given[1]:]
    if rest[:3] != b"\5\1\0" or len(rest) < 5:
        return None
    size = {1: 4, 3: rest[4], 4: 16}.get(rest[3])
    if size is None:
        return None
    at = 5 if rest[3] == 3 else 4
    host, port, after = rest[at:at + size], rest[at + size:at + size + 2], rest[at + size + 2:]
    if len(port) < 2:
        return None
    family = {1: socket.AF_INET, 4: socket.AF_INET6}.get(rest[3])
    name = socket.inet_ntop(family, host) if family else host.decode("latin-1")
    return name, struct.unpack("!H", port)[0], after


def old_in(given):
    """The host, the port and what follows, of a request of SOCKS 4 or 4A, whose texts have at most 255 octets."""
    user, is_ended, after = given[8:].partition(b"\0")
    if given[:2] != b"\4\1" or not is_ended or len(user) > 255:
        return None
    port, address = struct.unpack("!H4s", given[2:8])
    if address[:3] != bytes(3) or not address[3]:
        return socket.inet_ntoa(address), port, after
    name, is_ended, after = after.partition(b"\0")
    return (name.decode("latin-1"), port, after) if is_ended and len(name) <= 255 else None


def http_in(given):
    """The host and the port of a request of HTTP, and what follows its head."""
    found = re.match(rb"(\S+) (\S+) HTTP/1\.[01]\r?\n(?:.*\n)*?\r?\n", given)
    if not found:
        return None
    url = found[2] if found[1] == b"CONNECT" else re.sub(rb"(?i)^http://", b"", found[2])
    authority = re.match(rb"(?:[^/?#@]*@)?(\[[^\]]*\]|[^:/?#]*)(?::0*(\d{1,5})(?!\d))?", url)
    host = authority[1].decode("latin-1").strip("[]")
    return host, int(authority[2] or 80), given[found.end():]


def authority_of(given):
    """What the field Host of the request has that goes to the server: the authority of the target (RFC 9112 section
    3.2.2)."""
    found = re.match(rb"\S+ http://(?:[^/?#@ ]*@)?([^/?# ]+)", given, re.I)
    return found[1] if found else b""


def target_of(given):
    """The host and the port that a beginning asks for, and what follows its request; None where it asks for none."""
    return {b"\4": old_in, b"\5": socks_in}.get(given[:1], http_in)(given)


# Beginnings


def seeds(proxy, port):
    """What clients say: greetings and requests of SOCKS, heads of CONNECT, requests to forward with bodies, and
    requests for the proxy's pages."""
    own, at = f"{FOUR}:{proxy.port}".encode(), f"{HOST}:{port}".encode()
    for host in (FOUR, NAME, HOST, f"::ffff:{FOUR}", "::1", "no.test"):
        yield b"\5\1\0\5\1\0" + destination(host, port) + b"early octets"
        yield b"\5\3\0\1\2\5\1\0" + destination(host, port)
        yield b"\4\1" + struct.pack("!H", port) + b"\0\0\0\1user\0" + host.encode() + b"\0early octets"
        name = f"[{host}]" if ":" in host else host
        at_name = f"{name}:{port}".encode()
        yield b"CONNECT %s HTTP/1.1\r\nHost: %s\r\nUser-Agent: x/1\r\n\r\n\x16\3\1early" % (at_name, at_name)
        yield b"GET http://%s/a?b HTTP/1.1\r\nHost: %s\r\nAccept: */*\r\n\r\n" % (at_name, at_name)
    for host in (FOUR, HOST):
        yield b"\5\1\0\5\1\0" + destination(host, 1)  # (nothing listens there)
        yield b"\5\1\0\5\2\0" + destination(host, port)
    yield from (b"\4\1" + struct.pack("!H", port) + b"\x7f\0\0\1user\0", b"\5\1\2", b"\5\xff" + bytes(range(1, 256)))
    post = b"POST http://%s/ HTTP/1.1\r\nHost: %s\r\n" % (at, at)
    yield post + b"Content-Length: 12\r\n\r\ntwelve bytes"
    yield post + b"Transfer-Encoding: chunked\r\n\r\n5;a=b\r\ndrawn\r\n0\r\n\r\n"
    yield b"PUT http://%s/ HTTP/1.0\r\nProxy-Connection: close\r\nContent-Length: 0\r\n\r\n" % at
    for line in (b"GET /", b"GET /proxy.pac", b"HEAD /proxy.pac", b"GET /wpad.dat", b"GET /no",
                 b"GET http://%s/" % own):
        yield b"%s HTTP/1.1\r\nHost: %s\r\nConnection: close\r\n\r\n" % (line, own)


PIECES = (b"\r", b"\n", b"\r\n", b"\0", b" ", b"\t", b":", b"/", b"@", b"%", b"[", b"]", b"-", b".", b"\xff", b"\5",
          b"\5\1\0", b"\r\n\r\n", b"HTTP/1.1", b"CONNECT ", b"GET ", b"http://", b"Host: x\r\n", b"Content-Length: 7\r\n",
          b"Transfer-Encoding: chunked\r\n")


def changed(draw, given, known):
    """One change: a bit, an octet, a cut, a part twice, a piece more, a long field, or a part of another beginning."""
    place, end = sorted(draw.randrange(len(given) + 1) for _ in range(2))
    kind = draw.randrange(8)
    if kind == 0 and given:
        at = draw.randrange(len(given))
        return given[:at] + bytes([given[at] ^ 1 << draw.randrange(8)]) + given[at + 1:]
    if kind == 1:
        return given[:place] + draw.randbytes(1) + given[place + 1:]
    if kind == 2:
        return given[:end] if draw.randrange(2) else given[:place] + given[min(end, place + 9):]
    if kind == 3:
        return given[:end] + given[place:]
    if kind == 4:
        return given[:place] + draw.choice(PIECES) + given[place:]
    if kind == 5:
        more = draw.choice((b"a", b"0", b"\0", b" ", b"%", b"\xff", b"a: b\r\n", b"x."))
        return given[:place] + more * draw.choice((9, 99, 255, 999, 9_999)) + given[place:]
    other = draw.choice(known)
    at = draw.randrange(len(other) + 1)
    return given[:place] + other[at:] if kind == 6 else other[:at] + given[place:]


def drawn(draw, known):
    """A beginning, and its parts: each is a write of its own."""
    given = draw.choice(known)
    for _ in range(draw.choice((0, 0, 1, 1, 1, 2, 2, 3))):
        given = changed(draw, given, known)
    if draw.randrange(3):
        return given, [given]
    places = sorted(draw.randrange(len(given) + 1) for _ in range(draw.randint(1, 4)))
    return given, [given[one:other] for one, other in zip([0, *places], [*places, len(given)])]


# The servers and the client


class Server:
    """A server that answers each connection at once and keeps what comes, with the number of the beginning then."""

    def __init__(self):
        self.number, self.got, self.ended = None, [], 0

    def take_all(self, port):
        """Waits until each connection that was made before is taken: they are taken one after the other."""
        with socket.create_connection((FOUR, port), timeout=SOON) as last:
            last.sendall(OWN)
            must(all_of(last) == ANSWER, "the server is late")

    def __call__(self, connection):
        came = [self.number, b""]
        self.got.append(came)
        connection.settimeout(SOON)
        try:
            connection.sendall(ANSWER)
            connection.shutdown(socket.SHUT_WR)
            while piece := connection.recv(1 << 16):
                came[1] += piece
        finally:
            self.ended += 1


class Names(NameServer):
    """A name server at which one name has the address of the servers, and no other is known; it answers at once."""

    def take(self, query, peer):
        self.send(query, self.put_to(peer), False)

    def replies(self, query, _):
        is_known = ".".join(labels_of(query)) == NAME
        found = addresses(support.kind_of(query), FOUR) if is_known else ()
        return [(0, message(query, found, NOERROR if is_known else NXDOMAIN))]


def reply_to(proxy, parts, draw):
    """All that the proxy answers, the client's sending having ended, or what ends it; and whether that was a reset."""
    got = b""
    with proxy.connect() as client:
        with contextlib.suppress(OSError):  # (it may have answered, and read no more)
            for part in parts:
                client.sendall(part)
                if len(parts) > 1 and not draw.randrange(8):
                    time.sleep(0.0005)
            client.shutdown(socket.SHUT_WR)
        try:
            while piece := client.recv(1 << 16):
                got += piece
        except ConnectionResetError:  # (it closed before it had read all)
            return got, True
        except OSError as error:
            return got + repr(error).encode(), False
    return got, False


def must_serve(proxy, port):
    """By both protocols a request is served."""
    for ask, wanted in ((socks, 0), (tunnel, 200)):
        with proxy.connect(SOON) as client:
            code, got = ask(client, HOST, port), all_of(client)
        must(code == wanted and got == ANSWER, ask.__name__, code, got, proxy.said()[-300:])


def wrong_of(given, is_served, port, came):
    """What is wrong with octets that came to the server at this port from the client that began so, and was served or
    not; to one that was not, the proxy may have connected, and sent nothing."""
    target = target_of(given)
    if not target or not is_here(target[0]) or target[1] != port:
        return "it does not name the server"
    if not came and not is_served:
        return None
    if re.match(rb"[\4\5]|CONNECT ", given):
        return None if came == target[2] else "not what follows its request"
    return wrong_with(came, authority_of(given))


def named(number, given):
    return f"beginning {number}, {given[:400]!r}"


class Told:
    """What comes of the beginnings: the kinds of the replies, the processor time of the longest."""

    def __init__(self):
        self.kinds, self.longest = collections.Counter(), 0

    def add(self, number, given, reply, is_reset, used):
        kind = kind_of_reply(reply)
        # (it closes without a reply, and reads no more, where the first octet is of no protocol)
        is_right = kind and not (is_reset and (reply or re.match(rb"[\4\5A-Za-z]", given)))
        if not is_right or used > MOST_OF_ONE:
            end = " and a reset" if is_reset else ""
            raise ValueError(f"{named(number, given)}: {reply[:400]!r}{end}, {used:.3f} s of processor time")
        self.kinds[kind] += 1
        self.longest = max(self.longest, used)
        return kind in SERVED


def send_all(proxy, server, port, told):
    """Sends all beginnings, one after the other; gives those that ask for the server's port, each with whether it was
    served, and the memory after each tenth."""
    draw, known, asking, memories = random.Random(OPTIONS.seed), list(seeds(proxy, port)), {}, []
    for number in range(DRAWN):
        given, parts = drawn(draw, known)
        server.number, before = number, proxy.seconds_used()
        reply, is_reset = reply_to(proxy, parts, draw)
        is_served = told.add(number, given, reply, is_reset, proxy.seconds_used() - before)
        target = target_of(given)
        if target and target[1] == port:
            asking[number] = given, is_served
            if not is_served:
                server.take_all(port)
        if number % (DRAWN // 10) == DRAWN // 10 - 1:
            server.number = None
            must_serve(proxy, port)
            memories.append(proxy.memory())
    return asking, memories


def check_drawn():
    """To each beginning it gives a reply of its protocol or none, in little processor time, and then serves others; it
    has no more descriptors than before, little more memory, and records that replay. A server gets octets only of
    clients that name it: what follows the request, or the request that is forwarded; what nobody names gets nothing."""
    server, other, told = Server(), Server(), Told()
    with (unittest.mock.patch.dict(os.environ, CHECKED), Names(FOUR) as names, serving(server) as port,
          serving(other),
          Proxy("--resolver", names.at, "--set", "limit=5000", "--max-records", 200) as proxy):
        idle = proxy.descriptors()
        must_serve(proxy, port)
        comes(lambda: proxy.descriptors() <= idle, SOON)  # (the sessions end a little later)
        held, before, began = proxy.descriptors(), proxy.seconds_used(), time.monotonic()
        asking, memories = send_all(proxy, server, port, told)
        took, mean = time.monotonic() - began, (proxy.seconds_used() - before) / DRAWN
        must_close(proxy, held)
        must(comes(lambda: server.ended == len(server.got), SOON), server.ended, len(server.got))
        status = proxy.running.poll()
        must(status is None, status, proxy.said()[-300:])
        records = proxy.files()
        must(all(RECORD.fullmatch(str(record.relative_to(proxy.records))) for record in records), records)
        done = support.run(HE, "replay", *records)
        must(records and done.returncode == 0, len(records), done.stderr[:400])
    print(f"    {DRAWN} from seed {OPTIONS.seed} in {took:.0f} s, {1000 * mean:.2f} ms of processor each, at most"
          f" {1000 * told.longest:.0f}; {memories} kB after each tenth; {dict(told.kinds)}")
    for number, came in server.got:
        given, is_served = asking.get(number, (b"", False))
        wrong = number is not None and came != OWN and wrong_of(given, is_served, port, came)
        must(not wrong, named(number, given), wrong, came[:400])
    must(not other.got, other.got[:3])
    must(mean <= MOST_IN_MEAN, f"{1000 * mean:.2f} ms of processor each")
    must(memories[9] <= memories[2] + MOST_MEMORY, f"{memories} kB of memory")
    must(all(told.kinds[kind] >= DRAWN // 500 for kind in KINDS), dict(told.kinds))
