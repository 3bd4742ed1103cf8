"""Plain HTTP through a built program's `he proxy`: what a client gets of its server's response, by servers of the
test's own, and where it ends, also if the server keeps its connection open.

needs: curl for single checks
"""
import itertools
import socket
import time

import support
from parts.proxy import SOON, Proxy, all_of, get, must_close
from parts.proxy_http import HOST, MARK, SECOND, get_head, sent
from support import TIMEOUT, comes, must, needs, serving, set_to_reset, timed

SETUP = support.NETWORK
SOONER = 1.0  # seconds in which a response that is whole has ended
VIA = b"Via: 1.1 he\r\n"
CLOSE = b"Connection: close\r\n"
LAST = VIA + CLOSE
MANY = b"".join(b"Set-Cookie: n%d=%s\r\n" % (number, b"v" * 60) for number in range(120))
LONG = b"A: " + b"x" * 15_000 + b"\r\n"


def asked(port, method="GET", version="1.1"):
    return f"{method} http://{HOST}:{port}/ HTTP/{version}\r\nHost: x\r\n\r\n".encode()


class Keeper:
    """A server that answers one request and then keeps its connection open; what comes after the request is kept."""

    def __init__(self, answer, piece=1 << 16):
        self.answer, self.piece, self.after = answer, piece, b""

    def __call__(self, connection):
        get_head(connection)
        for at in range(0, len(self.answer), self.piece):
            connection.sendall(self.answer[at:at + self.piece])
            time.sleep(0.001)
        while piece := connection.recv(1 << 16):
            self.after += piece


class Closer(Keeper):
    """A server that closes after its answer."""

    def __call__(self, connection):
        get_head(connection)
        connection.sendall(self.answer)
        connection.shutdown(socket.SHUT_WR)
        while connection.recv(1 << 16):
            pass


# The method, the server's octets, and the client's. After the response the server sends more, or keeps its connection
# open.
ENDED = [
    ("GET", b"HTTP/1.1 200 OK\r\nContent-Length: 3\r\n\r\nyes",
     b"HTTP/1.1 200 OK\r\nContent-Length: 3\r\n" + LAST + b"\r\nyes"),
    ("GET", b"HTTP/1.1 200 OK\r\nContent-Length: 3\r\n\r\nyesHTTP/1.1 200 OK\r\nContent-Length: 2\r\n\r\nno",
     b"HTTP/1.1 200 OK\r\nContent-Length: 3\r\n" + LAST + b"\r\nyes"),
    ("GET", b"HTTP/1.1 200 OK\r\nConnection: keep-alive\r\nKeep-Alive: timeout=5\r\nContent-Length: 0\r\n\r\n",
     b"HTTP/1.1 200 OK\r\nContent-Length: 0\r\n" + LAST + b"\r\n"),
    ("HEAD", b"HTTP/1.1 200 OK\r\nContent-Length: 3\r\n\r\n",
     b"HTTP/1.1 200 OK\r\nContent-Length: 3\r\n" + LAST + b"\r\n"),
    ("HEAD", b"HTTP/1.1 200 OK\r\nTransfer-Encoding: chunked\r\n\r\n",
     b"HTTP/1.1 200 OK\r\nTransfer-Encoding: chunked\r\n" + LAST + b"\r\n"),
    ("HEAD", b"HTTP/1.1 200 OK\r\n\r\nbody of an odd server", b"HTTP/1.1 200 OK\r\n" + LAST + b"\r\n"),
    ("GET", b"HTTP/1.1 204 No Content\r\n\r\n", b"HTTP/1.1 204 No Content\r\n" + LAST + b"\r\n"),
    ("GET", b"HTTP/1.1 304 Not Modified\r\nContent-Length: 500\r\n\r\n",
     b"HTTP/1.1 304 Not Modified\r\nContent-Length: 500\r\n" + LAST + b"\r\n"),
    ("GET", b"HTTP/1.1 200 OK\r\nTransfer-Encoding: chunked\r\nTrailer: A\r\n\r\n5;x=y\r\nhello\r\n0\r\nA: b\r\n\r\n"
     + MARK,
     b"HTTP/1.1 200 OK\r\nTransfer-Encoding: chunked\r\nTrailer: A\r\n" + LAST
     + b"\r\n5;x=y\r\nhello\r\n0\r\nA: b\r\n\r\n"),
    ("GET", b"HTTP/1.1 103 Early Hints\r\nLink: </a>\r\nConnection: X-A\r\nX-A: 1\r\n\r\n"
     b"HTTP/1.1 103 Early Hints\r\n\r\nHTTP/1.1 200 OK\r\nContent-Length: 5\r\n\r\nhello",
     b"HTTP/1.1 103 Early Hints\r\nLink: </a>\r\n" + VIA + b"\r\nHTTP/1.1 103 Early Hints\r\n" + VIA
     + b"\r\nHTTP/1.1 200 OK\r\nContent-Length: 5\r\n" + LAST + b"\r\nhello"),
    ("GET", b"HTTP/1.1 200 OK\r\nA: 1\r\nConnection: b, C , content-length\r\nB: 2\r\nc: 3\r\nBc: 4\r\nTE: x\r\n"
     b"Proxy-Connection: keep-alive\r\nProxy-Authenticate: Basic\r\nProxy-Authentication-Info: x\r\nUpgrade: h2c\r\n"
     b"Proxy-Status: x\r\nVia: 1.0 other\r\nSet-Cookie: a\r\nset-cookie: b\r\nContent-Length: 1\r\n\r\nx",
     b"HTTP/1.1 200 OK\r\nA: 1\r\nBc: 4\r\nProxy-Status: x\r\nVia: 1.0 other\r\nSet-Cookie: a\r\nset-cookie: b\r\n"
     b"Content-Length: 1\r\n" + LAST + b"\r\nx"),
    ("GET", b"HTTP/1.1 404\r\nContent-Length: 0\r\n\r\n", b"HTTP/1.1 404 \r\nContent-Length: 0\r\n" + LAST + b"\r\n"),
    ("GET", b"HTTP/1.1 200 OK\r\n" + MANY + b"Content-Length: 1\r\n\r\nx",
     b"HTTP/1.1 200 OK\r\n" + MANY + b"Content-Length: 1\r\n" + LAST + b"\r\nx"),
    ("GET", b"HTTP/1.1 200 OK\r\n" + LONG + b"Content-Length: 1\r\n\r\nx",
     b"HTTP/1.1 200 OK\r\n" + LONG + b"Content-Length: 1\r\n" + LAST + b"\r\nx"),
    ("GET", b"HTTP/1.0 200 OK\r\nContent-Length: 200000\r\n\r\n" + bytes(200_000),
     b"HTTP/1.1 200 OK\r\nContent-Length: 200000\r\nVia: 1.0 he\r\n" + CLOSE + b"\r\n" + bytes(200_000)),
]


@timed
def check_ended():
    """A response goes to its client with the connection's last field and to its last octet, and then the connection
    ends, though the server keeps its own open or sends more; also if its octets come one by one."""
    for (method, answer, wanted), piece in itertools.product(ENDED, (1 << 16, 1)):
        if piece == 1 and len(answer) > 1_000:
            continue
        server = Keeper(answer, piece)
        with serving(server) as port, Proxy() as proxy:
            held, began = proxy.descriptors(), time.monotonic()
            got, took = sent(proxy, asked(port, method)), time.monotonic() - began
            must(got == wanted, method, answer[:80], got[:300], len(got), proxy.said()[-300:])
            must(took < SOONER + len(answer) / 5_000, method, answer[:80], f"{took:.1f} s")
            must_close(proxy, held)
            must(comes(lambda: "end=closed" in proxy.said(), SOON), proxy.said()[-300:])


def check_to_the_end():
    """A response without a length ends with its server's connection."""
    for first, via in ((b"HTTP/1.1 200 OK\r\n", VIA), (b"HTTP/1.0 200 OK\n", b"Via: 1.0 he\r\n")):
        end = first[-1:] if first.endswith(b"K\n") else b"\r\n"
        body = bytes(200_000) + b"0\r\n\r\nHTTP/1.1 200 OK\r\n\r\n"
        with serving(Closer(first + b"Server: odd" + end + end + body)) as port, Proxy() as proxy:
            got = sent(proxy, asked(port))
            wanted = b"HTTP/1.1 200 OK\r\nServer: odd\r\n" + via + CLOSE + b"\r\n" + body
            must(got == wanted, first, got[:200], len(got))


def check_asks_again():
    """A client that asks again on its connection gets no second response, and neither it nor its server waits: the
    server gets one request."""
    server = Keeper(b"HTTP/1.1 200 OK\r\nContent-Length: 3\r\n\r\nyes")
    for second_first in (False, True):
        with serving(server) as port, Proxy() as proxy, proxy.connect(SOON) as client:
            client.sendall(asked(port) + (SECOND if second_first else b""))
            must(get_head(client).endswith(b"\r\n" + CLOSE + b"\r\n") and get(client, 3) == b"yes", proxy.said())
            began = time.monotonic()
            if not second_first:
                client.sendall(SECOND)
            must(not client.recv(1), "a second response")
            took = time.monotonic() - began
        must(took < SOONER and not server.after, f"{took:.1f} s", server.after)


# Octets that are no response which can be returned, or none that is whole.
REFUSED = [
    b"", b"hello\n", b"HTTP/1.1 200 OK\r\nA: b\r\n", b"HTTP/2 200 OK\r\n\r\n", b"HTTP/1.1 2000 OK\r\n\r\n",
    b"HTTP/1.1 099 Low\r\n\r\n",
    b"HTTP/1.1 101 Switching Protocols\r\nUpgrade: x\r\nConnection: Upgrade\r\n\r\n" + MARK,
    b"HTTP/1.1 200 OK\r\nA : b\r\n\r\n", b"HTTP/1.1 200 OK\r\nA: b\r\n c\r\n\r\n", b"HTTP/1.1 200 OK\r\nA: \0\r\n\r\n",
    b"HTTP/1.1 200 OK\r\nContent-Length: 4\r\nContent-Length: 5\r\n\r\n" + MARK,
    b"HTTP/1.1 200 OK\r\nContent-Length: 4\r\nTransfer-Encoding: chunked\r\n\r\n0\r\n\r\n" + MARK,
    b"HTTP/1.1 200 OK\r\nTransfer-Encoding: gzip, chunked\r\n\r\n0\r\n\r\n",
    b"HTTP/1.0 200 OK\r\nTransfer-Encoding: chunked\r\n\r\n0\r\n\r\n",
    b"HTTP/1.1 200 OK\r\n" + 2 * MANY + b"\r\n", b"HTTP/1.1 200 OK\r\n" + 3 * LONG + b"\r\n",
    b"HTTP/1.1 200 OK\r\nTransfer-Encoding: chunked\r\n\r\nhello\r\n",
]


def check_refused():
    """Where the server gives no response that can be returned, the client gets 502 with a line, and the log says so,
    with the winner of the race."""
    for answer, kind in itertools.product(REFUSED, (Closer, Keeper)):
        if kind is Keeper and answer in REFUSED[:3]:
            continue  # it is waited for
        with serving(kind(answer)) as port, Proxy() as proxy:
            held = proxy.descriptors()
            got = sent(proxy, asked(port))
            must(got.startswith(b"HTTP/1.1 502 Bad Gateway\r\n") and got.endswith(b"this proxy can read\n")
                 and got.count(b"HTTP/") == 1 and MARK not in got, answer[:80], got[:300])
            must_close(proxy, held)
            must(comes(lambda: " end=no-response" in proxy.said(), SOON) and " winner=" in proxy.said(), proxy.said())


def check_reset():
    """A server that resets before its response has its client get 502 as well."""
    def serve(connection):
        get_head(connection)
        set_to_reset(connection)

    with serving(serve) as port, Proxy() as proxy:
        must(sent(proxy, asked(port)).startswith(b"HTTP/1.1 502 "), proxy.said())


# Responses that end before they are whole, or stop being one.
CUT = [
    b"HTTP/1.1 200 OK\r\nContent-Length: 5\r\n\r\nhell",
    b"HTTP/1.1 200 OK\r\nTransfer-Encoding: chunked\r\n\r\n5\r\nhello\r\n",
    b"HTTP/1.1 103 Early Hints\r\n\r\n",
]


def check_cut():
    """A response that is cut does not look whole: its client's connection is reset."""
    for answer in CUT:
        with serving(Closer(answer)) as port, Proxy() as proxy:
            got = sent(proxy, asked(port))
            must(got.endswith(b"(reset)") and got.startswith(answer[:15]), answer, got)
            must(comes(lambda: " end=server-broke" in proxy.said(), SOON), proxy.said())


def check_continues():
    """A body that waits for 100 gets it before it is sent, and the final response after it."""
    def serve(connection):
        get_head(connection)
        connection.sendall(b"HTTP/1.1 100 Continue\r\n\r\n")
        body = get(connection, 5)
        connection.sendall(b"HTTP/1.1 200 OK\r\nContent-Length: 5\r\n\r\n" + body)
        connection.recv(1)

    with serving(serve) as port, Proxy() as proxy, proxy.connect(SOON) as client:
        client.sendall(f"PUT http://{HOST}:{port}/ HTTP/1.1\r\nHost: x\r\nContent-Length: 5\r\n"
                       "Expect: 100-continue\r\n\r\n".encode())
        must(get_head(client) == b"HTTP/1.1 100 Continue\r\n" + VIA + b"\r\n", proxy.said())
        client.sendall(b"hello")
        must(all_of(client) == b"HTTP/1.1 200 OK\r\nContent-Length: 5\r\n" + LAST + b"\r\nhello", proxy.said())


@timed
def check_curl():
    """curl, which asks for two pages of a server that keeps its connection open, gets both, each on a connection of its
    own."""
    needs("curl")
    server = Keeper(b"HTTP/1.1 200 OK\r\nContent-Length: 3\r\n\r\nyes")
    with serving(server) as port, Proxy() as proxy:
        url = f"http://{HOST}:{port}/"
        began = time.monotonic()
        done = support.run("curl", "-sS", "--noproxy", ",", "--proxy", f"http://{support.FOUR}:{proxy.port}", url, url,
                           timeout=TIMEOUT)
        took = time.monotonic() - began
        must(done.stdout == "yesyes" and took < SOONER, done.stdout, done.stderr[-300:], f"{took:.1f} s")
