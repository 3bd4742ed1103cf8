"""Sends plain HTTP through a built program's `he proxy`, in a network of its own, to servers of its own, and compares
with what these got: the head, the body to its last octet, and nothing else; also for known forms of request smuggling,
and for drawn ones.

needs: curl and wget for single checks
"""
import contextlib
import json
import pathlib
import random
import re
import select
import socket
import tempfile
import threading
import time
from concurrent.futures import ThreadPoolExecutor

import support
from parts.proxy import RECORD, SOON, Proxy, all_of, get, must_close
from support import (DEAD_SIX, FOUR, OPTIONS, TIMEOUT, comes, must, needs, serving, set_to_reset, silent, timed,
                     unused_port)

SETUP = support.NETWORK
HOST = "four.test"
QUIET = 0.3  # seconds in which a server of one request gets nothing more
MARK = b"SMUGGLED"
SECOND = b"GET http://four.test:1/" + MARK + b" HTTP/1.1\r\nHost: four.test:1\r\n\r\n"
ANSWER = b"HTTP/1.1 200 OK\r\nContent-Length: 3\r\nConnection: close\r\n\r\nyes"
RETURNED = b"HTTP/1.1 200 OK\r\nContent-Length: 3\r\nVia: 1.1 he\r\nConnection: close\r\n\r\nyes"  # for its client
DRAWN = 20_000 if OPTIONS.full else 1_500  # mutated requests
MOST_OF_REQUEST = 0.004  # seconds of processor time of a small request, of a build without optimization ten times that
TOKEN = rb"[!#$%&'*+\-.^_`|~0-9A-Za-z]+"
TEXT = rb"[\t\x20-\x7e\x80-\xff]*"


# A request as a server reads it, strictly


class Wrong(Exception):
    """It is not one request."""

    def __init__(self, what, lines=b""):
        super().__init__(what)
        self.lines = lines  # what came of its body up to there that is no data


def body_in(fields, octets):
    """Where the body ends whose head has these fields (RFC 9112 section 6.3), None where more has to come; and what
    came of it that is no data, as the lines of its chunks."""
    lengths, codings = ([value.strip() for name, value in fields if name.lower() == wanted]
                        for wanted in (b"content-length", b"transfer-encoding"))
    if len(lengths) + len(codings) > 1:
        raise Wrong("framed twice")
    if lengths:
        if not re.fullmatch(rb"\d+", lengths[0]):
            raise Wrong("length")
        return int(lengths[0]) if len(octets) >= int(lengths[0]) else None, b""
    if not codings:
        return 0, b""
    if codings[0].lower() != b"chunked":
        raise Wrong("coding")
    at, lines = 0, b""
    while True:
        found = re.compile(rb"([0-9A-Fa-f]{1,16})(;%s)?\r\n" % TEXT).match(octets, at)
        if not found:
            if b"\n" in octets[at:]:
                raise Wrong("chunk", lines + octets[at:])
            return None, lines + octets[at:]
        at, size, lines = found.end(), int(found[1], 16), lines + found[0]
        if not size:
            break
        end = octets[at + size:at + size + 2]
        if not b"\r\n".startswith(end):
            raise Wrong("chunk's end", lines + octets[at + size:])
        lines += end
        if len(end) < 2:
            return None, lines
        at += size + 2
    found = re.compile(rb"(%s:%s\r\n)*\r\n" % (TOKEN, TEXT)).match(octets, at)
    if not found:
        if b"\r\n\r\n" in octets[at:]:
            raise Wrong("trailer", lines + octets[at:])
        return None, lines + octets[at:]
    return found.end(), lines + found[0]


def head_in(octets):
    """The request line, the fields and what follows them; None where more has to come."""
    head, found, rest = octets.partition(b"\r\n\r\n")
    if not found:
        return None
    first, *lines = head.split(b"\r\n")
    if not re.fullmatch(rb"%s [!-~]+ HTTP/1\.[01]" % TOKEN, first):
        raise Wrong(f"request line {first!r}")
    fields = []
    for line in lines:
        found = re.fullmatch(rb"(%s): ?(%s)" % (TOKEN, TEXT), line)
        if not found:
            raise Wrong(f"field {line!r}")
        fields.append((found[1], found[2]))
    return first, fields, rest


def request_in(octets):
    """The request line, the fields, the body and the rest of what a server got; None where more has to come."""
    if not (head := head_in(octets)):
        return None
    first, fields, rest = head
    end, _ = body_in(fields, rest)
    return None if end is None else (first, fields, rest[:end], rest[end:])


def without_data(octets):
    """The server's view of one request, without the data of its body."""
    head = head_in(octets)
    return octets.partition(b"\r\n\r\n")[0] + body_in(*head[1:])[1] if head else octets


class Origin:
    """A server of one request a connection: it answers when it has read one, and keeps all that it got, and whether
    its client had ended its sending by then."""

    def __init__(self, answer=ANSWER, wait=0.0):
        self.answer, self.wait, self.got, self.was_ended = answer, wait, [], []

    def __call__(self, connection):
        got, place = b"", len(self.got)
        self.got.append(b"")
        connection.settimeout(SOON)
        try:
            while True:
                piece = connection.recv(1 << 16)
                got += piece
                self.got[place] = got
                with contextlib.suppress(Wrong):
                    if request_in(got):
                        break
                if not piece:
                    return
            time.sleep(self.wait)
            ready, _, _ = select.select([connection], [], [], 0)
            more = connection.recv(1 << 16) if ready else None
            self.was_ended.append(more == b"")
            self.got[place] = got + (more or b"")
            connection.sendall(self.answer)
            connection.shutdown(socket.SHUT_WR)
            while piece := connection.recv(1 << 16):
                self.got[place] += piece
        except OSError:
            pass


def sent(proxy, given, ends=False, seconds=SOON):
    """All that the proxy answers to these octets, or what ends it."""
    with proxy.connect(seconds) as client:
        with contextlib.suppress(OSError):
            client.sendall(given)
            if ends:
                client.shutdown(socket.SHUT_WR)
        got = b""
        try:
            while piece := client.recv(1 << 16):
                got += piece
        except ConnectionResetError:
            return got + b"(reset)"
        except TimeoutError:
            return got + b"(no end)"
        return got


# Heads


def head_for(port, lines, line="GET / HTTP/1.1"):
    """The head that a server at this port is to get, in which HOST is what the target has."""
    lines = [line, f"Host: {HOST}:{port}", *lines, f"Via: {line[-3:]} he", "Connection: close", "", ""]
    return "\r\n".join(lines).encode()


# The target's rest, the version and the fields of a request; the request line and the fields that the server gets.
HEADS = [
    ("GET", "", "1.1", ["Host: x"], "GET / HTTP/1.1", []),
    ("GET", "?a=b/c", "1.1", ["Host: x"], "GET /?a=b/c HTTP/1.1", []),
    ("HEAD", "/a?b#".rstrip("#"), "1.1", ["Host: x", "Accept: */*"], "HEAD /a?b HTTP/1.1", ["Accept: */*"]),
    ("GET", "/", "1.0", [], "GET / HTTP/1.0", []),
    ("GET", "/", "1.0", ["Host: other", "Connection: keep-alive"], "GET / HTTP/1.0", []),
    ("OPTIONS", "", "1.1", ["Host: x"], "OPTIONS * HTTP/1.1", []),
    ("OPTIONS", "?", "1.1", ["Host: x"], "OPTIONS /? HTTP/1.1", []),
    ("PURGE", "/a", "1.1", ["host:x", "B:2", "a: 1", "b: 3"], "PURGE /a HTTP/1.1", ["B: 2", "a: 1", "b: 3"]),
    ("GET", "/", "1.1", ["Host: x", "Connection: close, X-One ,x-two", "x-one: 1", "X-Two: 2", "X-Three: 3"],
     "GET / HTTP/1.1", ["X-Three: 3"]),
    ("GET", "/", "1.1", ["Host: x", "Proxy-Connection: keep-alive", "Proxy-Authorization: Basic eDp5", "TE: trailers",
                         "Proxy-Anything: 1", "Keep-Alive: timeout=5", "Upgrade: h2c", "Cookie: a=b", "ProxyA: 1"],
     "GET / HTTP/1.1", ["Cookie: a=b", "ProxyA: 1"]),
    ("GET", "/", "1.1", ["Host: x", "Connection: Upgrade, HTTP2-Settings", "Upgrade: h2c", "HTTP2-Settings: AAMAAABk"],
     "GET / HTTP/1.1", []),
    ("GET", "/", "1.1", ["Host: x", "Connection: content-length, host", "Content-Length: 0"], "GET / HTTP/1.1",
     ["Content-Length: 0"]),
    ("GET", "/", "1.1", ["Host: x", "Via: 1.0 other", "Empty:", "Spaces:   a  b \t"], "GET / HTTP/1.1",
     ["Via: 1.0 other", "Empty: ", "Spaces: a  b"]),
    ("GET", "/", "1.1", ["Host: x", "Cookie: " + "c" * 12_000], "GET / HTTP/1.1", ["Cookie: " + "c" * 12_000]),
]


def check_heads():
    """The server gets the head without the fields that are for the proxy, in order, with the target's authority as its
    Host, whatever the client's was; the client gets the response, to HEAD its head alone."""
    origin = Origin()
    with serving(origin) as port, Proxy() as proxy:
        for method, rest, version, fields, line, kept in HEADS:
            head = [f"{method} http://{HOST}:{port}{rest} HTTP/{version}", *fields, "", ""]
            answer = sent(proxy, "\r\n".join(head).encode())
            must(answer == (RETURNED[:-3] if method == "HEAD" else RETURNED), head[0], answer)
            must(origin.got[-1] == head_for(port, kept, line), head, origin.got[-1])
        for name in ("FOUR.test", FOUR, "both.test"):
            sent(proxy, f"GET HTTP://{name}:{port}/ HTTP/1.1\r\nHost: x\r\n\r\n".encode())
            must(f"\r\nHost: {name}:{port}\r\n".encode() in origin.got[-1], name, origin.got[-1])
    with serving(origin, port=80), Proxy() as proxy:
        must(sent(proxy, b"GET http://four.test/ HTTP/1.1\r\nHost: x\r\n\r\n") == RETURNED, proxy.said())
        must(b"\r\nHost: four.test\r\n" in origin.got[-1], origin.got[-1])


# Bodies


def chunked(draw, body):
    """The body in chunks, with extensions and trailer fields."""
    given = b""
    while body:
        size = draw.randint(1, min(len(body), 5_000))
        extension = draw.choice([b"", b";a", b';a="b c"', b";" + b"x" * 50])
        given += draw.choice([b"%x", b"%X", b"00%x"]) % size + extension + b"\r\n" + body[:size] + b"\r\n"
        body = body[size:]
    return given + draw.choice([b"0", b"000", b"0;last"]) + b"\r\n" + draw.choice([b"", b"A: b\r\nC:\r\n"]) + b"\r\n"


def check_bodies():
    """A body goes to the server to its end, however it is cut into pieces, and what comes after it does not."""
    draw, origin = random.Random(OPTIONS.seed), Origin()
    with serving(origin) as port, Proxy() as proxy:
        for number in range(60):
            body = draw.randbytes(draw.choice([0, 1, 7, 100, 3_000, 40_000]))
            is_chunked = draw.random() < 0.5
            framed = chunked(draw, body) if is_chunked else body
            field = "Transfer-Encoding: chunked" if is_chunked else f"Content-Length: {len(body)}"
            line = f"POST http://{HOST}:{port}/{number} HTTP/1.1\r\nHost: x\r\n{field}\r\n\r\n"
            given, pieces = line.encode() + framed + SECOND, []
            while given and len(pieces) < 300:
                size = draw.choice([1, 5, 700, 1 << 16])
                pieces.append(given[:size])
                given = given[size:]
            with proxy.connect(SOON) as client:
                with contextlib.suppress(OSError):
                    for piece in [*pieces, given]:
                        client.sendall(piece)
                answer = all_of(client)
            must(answer == RETURNED, number, answer[:100], proxy.said()[-300:])
            wanted = head_for(port, [field], f"POST /{number} HTTP/1.1") + framed
            comes(lambda: len(origin.got[-1]) >= len(wanted), 1)
            must(origin.got[-1] == wanted, number, len(origin.got[-1]), len(wanted), MARK in origin.got[-1])


@timed
def check_not_ended():
    """The server does not learn that its client ended, neither at the body's end nor when more is dropped, until the
    client ends."""
    for after in (b"", SECOND):
        origin = Origin(wait=QUIET)
        with serving(origin) as port, Proxy() as proxy:
            line = f"POST http://{HOST}:{port}/ HTTP/1.1\r\nHost: x\r\nContent-Length: 2\r\n\r\nab"
            must(sent(proxy, line.encode() + after) == RETURNED, proxy.said())
        must(origin.was_ended == [False], after, origin.was_ended)


def check_expects():
    """A body that waits for 100 is sent after it, and both responses come; an earlier final one comes as well."""
    def asked(connection):
        got = get_head(connection)
        must(b"\r\nExpect: 100-continue\r\n" in got, got)
        connection.sendall(b"HTTP/1.1 100 Continue\r\n\r\n")
        body = get(connection, 5)
        connection.sendall(b"HTTP/1.1 200 OK\r\nConnection: close\r\n\r\n" + body)

    def refused(connection):
        get_head(connection)
        connection.sendall(b"HTTP/1.1 417 Expectation Failed\r\nContent-Length: 0\r\nConnection: close\r\n\r\n")

    for serve, first, last in ((asked, b"HTTP/1.1 100 ", b"\r\n\r\nhello"), (refused, b"HTTP/1.1 417 ", b"\r\n\r\n")):
        with serving(serve) as port, Proxy() as proxy, proxy.connect(SOON) as client:
            client.sendall(f"PUT http://{HOST}:{port}/ HTTP/1.1\r\nHost: x\r\nContent-Length: 5\r\n"
                           "Expect: 100-continue\r\n\r\n".encode())
            head = get_head(client)
            must(head.startswith(first), head)
            if serve is asked:
                client.sendall(b"hello")
                head = all_of(client)
            must(head.endswith(last), head)


def get_head(connection):
    head = b""
    while not head.endswith(b"\r\n\r\n") and (piece := connection.recv(1)):
        head += piece
    return head


@timed
def check_early_answers():
    """The answer of a server that reads no further arrives, though the client still sends."""
    head = b"HTTP/1.1 413 Content Too Large\r\n"
    answer, returned = (head + via + b"Connection: close\r\n\r\n" + bytes(60_000) for via in (b"", b"Via: 1.1 he\r\n"))

    def serve(connection):
        connection.recv(1000)
        connection.sendall(answer)

    for field, piece in (("Content-Length: 9000000", bytes(1 << 14)), ("Transfer-Encoding: chunked",
                                                                       b"4000\r\n" + bytes(1 << 14) + b"\r\n")) * 3:
        with serving(serve) as port, Proxy() as proxy, proxy.connect(SOON) as client:
            client.sendall(f"PUT http://{HOST}:{port}/ HTTP/1.1\r\nHost: x\r\n{field}\r\n\r\n".encode())
            got = b""
            with contextlib.suppress(ConnectionResetError, BrokenPipeError):
                for _ in range(200):
                    client.sendall(piece)
            with contextlib.suppress(ConnectionResetError):
                while more := client.recv(1 << 16):
                    got += more
            must(got == returned, field, len(got), proxy.said())


@timed
def check_cut():
    """A cut transfer does not look whole: a server that resets has its client's connection reset, a client that resets
    has the server's, and a body that is malformed later on as well."""
    def serve(connection):
        get_head(connection)
        connection.sendall(b"HTTP/1.1 200 OK\r\n\r\n" + bytes(5_000))
        time.sleep(QUIET)
        set_to_reset(connection)

    with serving(serve) as port, Proxy() as proxy:
        got = sent(proxy, f"GET http://{HOST}:{port}/ HTTP/1.1\r\nHost: x\r\n\r\n".encode())
        must(got.endswith(b"(reset)"), got[-60:], len(got))
    for last in (None, b"zz\r\n"):
        ends = []

        def take(connection):
            try:
                while connection.recv(1 << 16):
                    pass
                ends.append("end")
            except ConnectionResetError:
                ends.append("reset")

        with serving(take) as port, Proxy() as proxy:
            client = proxy.connect(SOON)
            client.sendall(f"PUT http://{HOST}:{port}/ HTTP/1.1\r\nHost: x\r\nTransfer-Encoding: chunked\r\n\r\n"
                           "5\r\nhello\r\n".encode())
            time.sleep(QUIET)
            if last:
                client.sendall(last)
            else:
                set_to_reset(client)
                client.close()
            must(comes(lambda: ends, SOON) and ends == ["reset"], last, ends, proxy.said())
            client.close()


def check_half_closed():
    """A client that ends its sending after its request gets the response, also where IPv6 is silent."""
    origin = Origin()
    with serving(origin) as port, Proxy() as proxy:
        for host in (HOST, "dead6.test"):
            got = sent(proxy, f"GET http://{host}:{port}/ HTTP/1.1\r\nHost: x\r\n\r\n".encode(), ends=True)
            must(got == RETURNED, host, got, proxy.said())


def check_lost():
    """Where no connection is made the client gets the status, and a line that says why; the log has the method."""
    refused = unused_port()
    with serving(Origin()) as port, Proxy("--set", "limit=400") as proxy, silent(DEAD_SIX, refused):
        for target, status, reason in [
            (f"four.test:{refused}", 502, b"each address of the host refused the connection: 127.0.0.1\n"),
            (f"dead.test:{port}", 504, b"no address of the host answered in time: 2001:db8:1e::9, 127.0.0.9\n"),
            (f"{FOUR}:{proxy.port}", 403, b"this proxy makes no connection to that target\n"),
        ]:
            got = sent(proxy, f"GET http://{target}/secret?key HTTP/1.1\r\nHost: x\r\n\r\n".encode())
            must(got.startswith(b"HTTP/1.1 %d " % status) and got.split(b"\r\n\r\n", 1)[1] == reason, target, got)
        comes(lambda: len(proxy.lines()) == 3, SOON)
        lines = proxy.lines()
        must(len(lines) == 3 and all(" method=GET " in line and " fault=" in line for line in lines), lines)
        must("secret" not in proxy.said(), proxy.said())


def check_told():
    """A request that is forwarded has a record that replays, a line with its method and the bytes of both ways, and
    none of its path; with --log-json an object."""
    for words in ((), ("--log-json",)):
        origin = Origin()
        with serving(origin) as port, Proxy(*words) as proxy:
            given = f"POST http://{HOST}:{port}/secret HTTP/1.1\r\nHost: x\r\nContent-Length: 3\r\n\r\nabc"
            must(sent(proxy, given.encode()) == RETURNED, proxy.said())
            must(comes(lambda: "end" in proxy.said(), SOON), proxy.said())
            line = proxy.said().splitlines()[-1]
            wanted = {"method": "POST", "host": HOST, "port": port, "winner": FOUR, "sent": len(origin.got[0]),
                      "received": len(RETURNED), "end": "closed"}
            found = json.loads(line) if words else dict(word.split("=", 1) for word in line.split(" "))
            must({name: str(found.get(name)) for name in wanted} == {name: str(is_) for name, is_ in wanted.items()},
                 line, wanted)
            must("secret" not in line and "target" not in found, line)
            record, = proxy.files()
            must(RECORD.fullmatch(str(record.relative_to(proxy.records))), record)
            must("\nwon " in support.replayed(record.read_text()), record.read_text())


# Known forms of request smuggling and splitting

CODINGS = [b"chunked, identity", b"identity, chunked", b"xchunked", b"chunkedx", b"\x0bchunked", b"chunked\x0b",
           b"\x00chunked", b"chunked\x00", b'"chunked"', b"'chunked'", b"chunked;q=1", b"chunked ,", b",chunked",
           b"chunked,chunked", b"gzip, chunked", b"cow", b"", b"chunk", b"chunke\x64\xc2\xa0", b"chun\tked",
           b"chunked\r", b"\x0cchunked", b"chunked\x7f", b"\xef\xbb\xbfchunked", b"[chunked]", b"Chunk\xc5\xbfd"]
TAKEN_CODINGS = [b"chunked", b"CHUNKED", b" chunked", b"\tchunked", b"chunked \t", b"ChUnKeD"]
CODING_LINES = [b"Transfer-Encoding : chunked", b"Transfer-Encoding\t: chunked", b" Transfer-Encoding: chunked",
                b"Transfer-Encoding:\r\n chunked", b"Transfer-Encoding:\n chunked",
                b"X: y\nTransfer-Encoding: chunked", b"X: y\rTransfer-Encoding: chunked",
                b"X:\r\n\tTransfer-Encoding: chunked", b"\x00Transfer-Encoding: chunked",
                b"Transfer-Encoding\x00: chunked", b"Transfer-Encoding\r\n: chunked",
                b"Transfer-Encoding: chunked\r\nTransfer-Encoding: chunked",
                b"Transfer-Encoding: chunked\r\nTransfer-encoding: identity",
                b"Transfer-Encoding: identity\r\nTransfer-Encoding: chunked", b"Transfer-Encoding chunked",
                b": chunked", b"Transfer\xadEncoding: chunked", b"Transfer-\xc4\x96ncoding: chunked"]
LENGTHS = [b"+4", b"-4", b"0x4", b"4,4", b"4, 4", b"4 4", b"4;", b"4.0", b"4e0", b"", b" ", b"\xd9\xa4", b"4\x00",
           b"4\x0b", b"\x0c4", b"18446744073709551620", b"18446744073709551616", b"99999999999999999999999", b"four",
           b"0b100", b"4_", b"\"4\"", b"-0", b"4\r", b"004h"]
LENGTH_LINES = [b"Content-Length: 4\r\nContent-Length: 5", b"Content-Length: 4\r\nContent-Length: 4",
                b"Content-Length: 5\r\ncontent-length: 4", b"Content-Length : 4", b" Content-Length: 4",
                b"Content-Length:\r\n 4", b"X: y\nContent-Length: 4", b"X: y\rContent-Length: 4",
                b"Content-Length\x00: 4", b"Content-Length\t: 4", b"Content-Length 4"]
BOTH_LINES = [first + b"\r\n" + second for one in (b"Content-Length: 4", b"Content-Length: 0", b"content-length:30")
              for other in (b"Transfer-Encoding: chunked", b"transfer-encoding:chunked", b"Transfer-Encoding: identity",
                            b"Transfer-Encoding: xchunked") for first, second in ((one, other), (other, one))]
HOST_LINES = [b"Host: a\r\nHost: b", b"Host: a\r\nhost: a", b"Host : a", b" Host: a", b"Host: a\nHost: b",
              b"Host:\r\n a", b"Host\x00: a", b"X-Y: z", b"Host: a\rX: b"]
FIRST_LINES = [b"POST http://AT/ HTTP/1.2", b"POST http://AT/ HTTP/2.0", b"POST http://AT/ http/1.1",
               b"POST http://AT/  HTTP/1.1", b"POST  http://AT/ HTTP/1.1", b"POST\thttp://AT/ HTTP/1.1",
               b"POST http://AT/ HTTP/1.1 HTTP/1.1", b"POST http://AT/a b HTTP/1.1", b"POST http://AT/\x00 HTTP/1.1",
               b"POST http://AT/\tHTTP/1.1", b"POST http://AT/\r HTTP/1.1", b"POST http://AT/#a HTTP/1.1",
               b"POST http://user@AT/ HTTP/1.1", b"POST http://AT@evil.test/ HTTP/1.1",
               b"POST http://AT\\@evil.test/ HTTP/1.1", b"POST http:///AT/ HTTP/1.1", b"POST http://AT:1/ HTTP/1.1",
               b"POST http://AT/\x7f HTTP/1.1", b"POST http://AT/\xff HTTP/1.1", b"POST http://AT/ HTTP/1.1\r",
               b"POST http://AT/ HTTP/11", b"POST http://AT/ HTTP/1.", b"PO ST http://AT/ HTTP/1.1",
               b"P\x00ST http://AT/ HTTP/1.1", b"POST http://[::1/ HTTP/1.1", b"POST http://AT/ HTTP/1.1\n",
               b"POST http://AT:/ HTTP/1.1", b"POST http://%41T/ HTTP/1.1", b"POST http://AT/ HTTP/1.1\r\n ",
               b"POST http://AT/", b"POST http://AT/ HTTP", b"P(ST http://AT/ HTTP/1.1"]
FIELD_LINES = [b"A: b\x00c", b"A: b\x01c", b"A: b\x7fc", b"A: b\rc", b"A: b\nc", b"A\x00: b", b"A b: c", b"A(: b",
               b"A\xff: b", b"A:\x00", b": b", b"A", b"\tA: b", b"A: b\r\n c", b"A: b\n", b"A:\x0b", b"A: b\r\r",
               b"A\r: b", b"@A: b"]
CHUNKS = [b"0x4", b"-4", b"+4", b" 4", b"4 ", b"4\t", b"4 ;a", b"g", b"", b"10000000000000004", b"100000000000000004",
          b"4;a\x00", b"4;a\nb", b"4\n", b"4;\x7f", b"4.", b"4,4", b"\x004", b"4\x0b", b"0004x", b"ffffffffffffffff1",
          b"4;a\rb", b"\xd9\xa4", b"4\r", b"04 4"]
CHUNK_ENDS = [b"\n", b"", b"\r", b"\r\r\n", b"x\r\n", b" \r\n", b"\n\n", b"\x00\r\n"]
LASTS = [b"0\r\nA\r\n\r\n", b"0\r\nA : b\r\n\r\n", b"0\r\n A: b\r\n\r\n", b"0\r\nA: b\n\r\n", b"0\n\n", b"0\r\n\n",
         b"0\n\r\n", b"0\r\nA: b\x00\r\n\r\n", b"0\r\n: b\r\n\r\n", b"0\r\nA\x00: b\r\n\r\n", b"-0\r\n\r\n",
         b"0x0\r\n\r\n", b"0 \r\n\r\n"]


def smuggled(at):
    """Each form: whether it is one that may be served, and its octets. A server that reads it in another way than the
    proxy finds a second request."""
    def request(line=b"POST http://AT/ HTTP/1.1", host=b"Host: a", fields=b"", body=b""):
        fields = b"".join(text + b"\r\n" for text in (host, fields) if text)
        return line.replace(b"AT", at) + b"\r\n" + fields + b"\r\n" + body

    both = b"0\r\n\r\n" + SECOND
    ends = b"4\r\nabcd\r\n0\r\n\r\n" + SECOND
    for value in CODINGS:
        yield False, request(fields=b"Transfer-Encoding: " + value, body=both)
        yield False, request(fields=b"Content-Length: 4\r\nTransfer-Encoding: " + value, body=both)
    for value in TAKEN_CODINGS:
        yield True, request(fields=b"Transfer-Encoding:" + value, body=ends)
    for lines in CODING_LINES + LENGTH_LINES + BOTH_LINES:
        yield False, request(fields=lines, body=both)
    for value in LENGTHS:
        yield False, request(fields=b"Content-Length: " + value, body=both)
    for value in (b"4", b"04", b" 4\t", b"0000000000000000000000004"):
        yield True, request(fields=b"Content-Length:" + value, body=b"abcd" + SECOND)
    for lines in HOST_LINES:
        yield False, request(host=lines, body=SECOND)
    for line in FIRST_LINES:
        yield False, request(line, fields=b"Content-Length: 4", body=b"abcd" + SECOND)
    for lines in FIELD_LINES:
        yield False, request(fields=lines + b"\r\nContent-Length: 4", body=b"abcd" + SECOND)
    coded = b"Transfer-Encoding: chunked"
    for size in CHUNKS:
        yield False, request(fields=coded, body=size + b"\r\nabcd\r\n0\r\n\r\n" + SECOND)
    for end in CHUNK_ENDS:
        yield False, request(fields=coded, body=b"4\r\nabcd" + end + b"0\r\n\r\n" + SECOND)
    for last in LASTS:
        yield False, request(fields=coded, body=b"4\r\nabcd\r\n" + last + SECOND)
    for body in (b"4;a=b\r\nabcd\r\n0\r\n\r\n", b"0\r\nA: b\r\n\r\n", b"004\r\nabcd\r\n0;b\r\n\r\n"):
        yield True, request(fields=coded, body=body + SECOND)
    for method in (b"GET", b"HEAD", b"DELETE", b"TRACE", b"OPTIONS", b"GIT"):
        yield True, request(method + b" http://AT/ HTTP/1.1", body=SECOND)
        yield True, request(method + b" http://AT/ HTTP/1.1", fields=b"Content-Length: 4", body=b"abcd" + SECOND)
    yield True, request(fields=b"\r\nA: b\r\nContent-Length: 4", body=SECOND)
    yield False, request(b"POST http://AT/ HTTP/1.0", fields=coded, body=ends)
    yield False, request(b"OPTIONS http://AT/ HTTP/1.1", fields=b"Max-Forwards: 0", body=SECOND)


def wrong_with(got, at):
    """The faults of what a server got, which is to be one request at most, for it."""
    if not got:
        return None
    try:
        found = request_in(got)
        if found is None:
            return "a part with the second request" if MARK in without_data(got) else None
    except Wrong as wrong:
        # A body that becomes malformed later is cut off there.
        is_cut = str(wrong) in ("chunk", "chunk's end", "trailer")
        return None if is_cut and MARK not in wrong.lines else str(wrong)
    _, fields, body, rest = found
    hosts = [value for name, value in fields if name.lower() == b"host"]
    head = got.partition(b"\r\n\r\n")[0]
    if rest or MARK in got.replace(body, b"") or hosts != [at] or b"\n" in head.replace(b"\r\n", b""):
        return f"{found!r}"
    return None


def must_be_one(proxy, origin, given, is_taken, at):
    """The server gets one request or nothing, and the client the response or a refusal; where the form may not be
    served, the server got no whole request."""
    before = len(origin.got)
    answer = sent(proxy, given)
    got = [one for one in origin.got[before:] if one]
    wrong = [wrong_with(one, at) for one in got]
    must(len(got) <= 1 and not any(wrong), repr(given), wrong, got, answer)
    if is_taken:
        wanted = RETURNED[:-3] if given.startswith(b"HEAD ") else RETURNED
        must(answer == wanted and got, repr(given), answer, got)
    elif is_taken is not None:
        is_refused = answer == b"" or re.match(rb"HTTP/1\.1 (400|403|501|502) |\(reset\)", answer)
        must(is_refused, repr(given), answer, got)
        if got:
            with contextlib.suppress(Wrong):
                must(request_in(got[0]) is None, repr(given), got)


def check_smuggled():
    """Known forms of request smuggling and splitting: none brings a second request to a server, and those that servers
    read in different ways are refused."""
    origin = Origin()
    with serving(origin) as port, Proxy() as proxy:
        at = f"{HOST}:{port}".encode()
        forms = list(smuggled(at))
        must(len(forms) >= 200, len(forms))
        for is_taken, given in forms:
            must_be_one(proxy, origin, given, is_taken, at)
        must(not any(MARK in got for got in origin.got), "a second request")
        print(f"    {len(forms)} forms")


# Transfer codings of a request, and the status: 501 where chunked is the last one and another one comes before it (RFC
# 9112 section 6.1), 400 where the end of the body isn't known (section 6.3) or chunked comes twice (section 7.1).
CODED = [(b"gzip, chunked", 501), (b"identity, chunked", 501), (b"x;a=b ,gzip,\t Chunked ", 501),
         (b"gzip,,chunked", 501), (b"gzip", 400), (b"cow", 400), (b"identity", 400), (b"chunked, gzip", 400),
         (b"gzip, chunked, gzip", 400), (b"gzip chunked", 400), (b"gzip, xchunked", 400), (b"chunked, chunked", 400),
         (b"gzip, chunked, chunked", 400), (b",chunked", 400), (b"chunked,", 400), (b"chunked;q=1", 400), (b"", 400)]


def check_codings():
    """A body with another transfer coding before chunked gets 501, and any other one that isn't chunked alone 400; no
    server gets the request, and the log has its method and its fault."""
    origin = Origin()
    with serving(origin) as port, Proxy("--log-json") as proxy:
        for value, status in CODED:
            before = len(proxy.said().splitlines())
            given = b"POST http://%s:%d/ HTTP/1.1\r\nHost: a\r\nTransfer-Encoding: %s\r\n\r\n"
            answer = sent(proxy, given % (HOST.encode(), port, value) + b"0\r\n\r\n" + SECOND)
            must(answer.startswith(b"HTTP/1.1 %d " % status), value, answer)
            must(comes(lambda: len(proxy.said().splitlines()) > before, SOON), value, "no line")
            said = json.loads(proxy.said().splitlines()[-1])
            fault = {400: "address-kind", 501: "coding"}[status]
            must((said["end"], said["method"], said["fault"]) == ("refused", "POST", fault), value, said)
        for lines in (b"Transfer-Encoding: gzip\r\nTransfer-Encoding: chunked",
                      b"Content-Length: 5\r\nTransfer-Encoding: gzip, chunked"):
            given = b"POST http://%s:%d/ HTTP/1.1\r\nHost: a\r\n%s\r\n\r\n" % (HOST.encode(), port, lines)
            answer = sent(proxy, given)
            must(answer.startswith(b"HTTP/1.1 400 "), lines, answer)
        must(not any(origin.got), origin.got)


def mutated(draw, given):
    """Some octets changed, inserted, removed or doubled."""
    given = bytearray(given)
    for _ in range(draw.randint(1, 4)):
        place = draw.randrange(len(given) + 1)
        piece = draw.choice([b"\r", b"\n", b"\r\n", b" ", b"\t", b"\0", b":", b",", b";", b"0", b"4", b"chunked", b"x",
                             b"Host: a\r\n", b"Content-Length: 4\r\n", b"Transfer-Encoding: chunked\r\n", b"\r\n\r\n"])
        kind = draw.randrange(4)
        if kind == 0:
            given[place:place] = piece
        elif kind == 1:
            given[place:place + 1] = piece
        elif kind == 2:
            del given[place:place + draw.randint(1, 5)]
        else:
            given[place:place] = given[max(0, place - draw.randint(1, 30)):place]
    return bytes(given)


def check_drawn():
    """Mutated requests: a server gets one request at most, for it and well-formed; the proxy's descriptors, memory and
    processor time stay small."""
    draw, origin = random.Random(OPTIONS.seed), Origin()
    with serving(origin) as port, Proxy("--set", "limit=300") as proxy:
        at = f"{HOST}:{port}".encode()
        forms = [given for is_taken, given in smuggled(at) if is_taken]
        held, before = proxy.descriptors(), proxy.seconds_used()
        lock, found = threading.Lock(), []

        def attempt(given):
            answer = sent(proxy, given, ends=True, seconds=SOON)
            if not answer.endswith(b"(no end)"):
                return
            with lock:
                found.append((given, answer))

        with ThreadPoolExecutor(8) as pool:
            list(pool.map(attempt, [mutated(draw, draw.choice(forms)) for _ in range(DRAWN)]))
        used = proxy.seconds_used() - before
        wrong = [(got, told) for got in origin.got if (told := wrong_with(got, at))]
        must(not wrong, len(wrong), wrong[:3])
        must(not found, len(found), found[:2])
        must_close(proxy, held)
        must(used < DRAWN * MOST_OF_REQUEST * 10, f"{used:.1f} s of processor time")
        print(f"    {DRAWN} drawn, {len(origin.got)} at the server, {used * 1000 / DRAWN:.2f} ms of processor each")


@timed
def check_many():
    """Two hundred requests, twenty at a time, are served in order of their connections, with little processor time, and
    leave no descriptors."""
    origin = Origin()
    with serving(origin) as port, Proxy() as proxy:
        held, before, began = proxy.descriptors(), proxy.seconds_used(), time.monotonic()
        given = f"GET http://{HOST}:{port}/ HTTP/1.1\r\nHost: x\r\n\r\n".encode()
        with ThreadPoolExecutor(20) as pool:
            answers = list(pool.map(lambda _: sent(proxy, given), range(200)))
        used, took = proxy.seconds_used() - before, time.monotonic() - began
        must(answers == [RETURNED] * 200 and len(origin.got) == 200, set(answers), len(origin.got))
        must_close(proxy, held)
        must(took < 20 and used < 200 * MOST_OF_REQUEST * 10, f"{took:.1f} s, {used:.2f} s of processor time")


def check_dropped():
    """A client that sends on and on after its request is cut off, and the server gets none of it."""
    origin = Origin(wait=2)
    with serving(origin) as port, Proxy() as proxy, proxy.connect(SOON) as client:
        client.sendall(f"GET http://{HOST}:{port}/ HTTP/1.1\r\nHost: x\r\n\r\n".encode())
        time.sleep(QUIET)
        with contextlib.suppress(OSError):
            for _ in range(100):
                client.sendall(MARK * 1_000)
                time.sleep(0.005)
            client.recv(1 << 16)
        must(comes(lambda: proxy.lines(), SOON) and MARK not in b"".join(origin.got), proxy.said())


def check_as_before():
    """A request for the proxy itself, or for a scheme that it does not forward, is answered as ever."""
    with Proxy() as proxy:
        for given, status in [(b"GET https://four.test/ HTTP/1.1\r\nHost: four.test\r\n\r\n", 501),
                              (b"POST https://four.test/ HTTP/1.1\r\nHost: four.test\r\n\r\n", 501),
                              (b"GET ftp://four.test/ HTTP/1.1\r\nHost: four.test\r\n\r\n", 501),
                              (b"GET / HTTP/1.1\r\nHost: evil.test\r\n\r\n", 501), (b"BREW / HTTP/1.1\r\n\r\n", 501),
                              (b"GET / HTTP/1.1\r\nHost: %s:%d\r\n\r\n" % (FOUR.encode(), proxy.port), 200),
                              (b"CONNECT http://four.test/ HTTP/1.1\r\n\r\n", 400)]:
            got = sent(proxy, given)
            must(got.startswith(b"HTTP/1.1 %d " % status), given, got[:80])


# Programs


FETCHES = {
    "curl": "curl -sS --noproxy , --proxy http://AT http://both.test:PORT/page.txt",
    "curl that posts": "curl -sS --noproxy , --proxy http://AT -T FILE http://both.test:PUT/",
    "curl of two pages": "curl -sS --noproxy , --proxy http://AT http://both.test:PORT/page.txt "
                         "http://both.test:PORT/page.txt",
    "wget": "wget -qO- -e use_proxy=yes -e http_proxy=http://AT http://both.test:PORT/page.txt",
    "python": "python3 -c import\turllib.request\tas\tu;o=u.build_opener(u.ProxyHandler({'http':'http://AT'}));"
              "print(o.open('http://both.test:PORT/page.txt').read().decode(),end='')",
}


def check_programs():
    """Programs that are pointed at the proxy by http_proxy get a page of a name whose IPv6 address refuses."""
    needs("curl", "wget")
    page = "".join(f"line {number}\n" for number in range(20_000))
    got = []

    def take(connection):
        head = get_head(connection)
        if b"100-continue" in head:
            connection.sendall(b"HTTP/1.1 100 Continue\r\n\r\n")
        length = int(re.search(rb"(?i)content-length: (\d+)", head)[1])
        got.append(get(connection, length))
        connection.sendall(b"HTTP/1.1 200 OK\r\nContent-Length: %d\r\n\r\n" % length + got[-1])

    with tempfile.TemporaryDirectory() as folder, Proxy() as proxy:
        pathlib.Path(folder, "page.txt").write_text(page)
        with support.web_server(folder) as port, serving(take) as put:
            values = {"AT": f"{FOUR}:{proxy.port}", "PORT": str(port), "PUT": str(put), "FILE": f"{folder}/page.txt"}
            for name, line in FETCHES.items():
                words = [re.sub(r"\b[A-Z]{2,}\b", lambda found: values.get(found[0], found[0]), word).replace("\t", " ")
                         for word in line.split(" ")]
                done = support.run(*words, timeout=TIMEOUT)
                wanted = page * 2 if "two" in name else page
                must(done.stdout == wanted, name, len(done.stdout), done.stderr[-300:])
