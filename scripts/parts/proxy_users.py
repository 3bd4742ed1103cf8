"""Connects through a built program's `he proxy --users` as a client with a name and a password, and without one: by
SOCKS 5 as RFC 1929 has it, by HTTP as RFC 7617 has it, by SOCKS 4, and for its pages; and looks at the reply, at what
the server gets, at the log, and at files of users that are wrong.

needs: what parts/proxy.py needs, and curl
"""
import base64
import contextlib
import json
import os
import pathlib
import tempfile

import support
from parts.proxy import HE, SOON, Proxy, all_of, destination, get
from support import FOUR, TIMEOUT, comes, greet, must, needs, serving, unused_port

SETUP = support.NETWORK
NAME, PASSWORD = b"me", b"s3cret-password"
OTHER, OTHERS_PASSWORD = "Zoë".encode(), b"a:b \xff"
USERS = b"# the office\n\n%b:%b\n%b:%b" % (NAME, PASSWORD, OTHER, OTHERS_PASSWORD)
CHALLENGE = b'Proxy-Authenticate: Basic realm="he", charset="UTF-8"\r\n'


@contextlib.contextmanager
def users(text=USERS, mode=0o600):
    """The path of a file of users."""
    with tempfile.TemporaryDirectory() as folder:
        path = pathlib.Path(folder, "users")
        path.write_bytes(text)
        path.chmod(mode)
        yield path


@contextlib.contextmanager
def proxy_of(*words, text=USERS, mode=0o600):
    """A proxy with these users."""
    with users(text, mode) as path, Proxy("--users", path, *words) as proxy:
        yield proxy


@contextlib.contextmanager
def web():
    """The port of a web server with a page."""
    with tempfile.TemporaryDirectory() as folder:
        pathlib.Path(folder, "page").write_text("page\n")
        with support.web_server(folder) as port:
            yield port


def message(name, password):
    """A name and a password for SOCKS 5 (RFC 1929 section 2)."""
    return bytes([1, len(name)]) + name + bytes([len(password)]) + password


def by_socks(client, given, host, port):
    """All replies to a client of SOCKS 5 that offers this method alone: to its greeting, to its name and password, and
    to its request."""
    client.sendall(b"\5\1\2")
    if (method := get(client, 2)) != b"\5\2":
        return method
    client.sendall(given)
    if (status := get(client, 2)) != b"\1\0":
        return method + status + all_of(client)
    client.sendall(b"\5\1\0" + destination(host, port))
    return method + status + get(client, 10)


def basic(name, password):
    """The field with a name and a password (RFC 7617 section 2)."""
    return b"Proxy-Authorization: Basic " + base64.b64encode(name + b":" + password) + b"\r\n"


def connect_head(port, field=b""):
    return b"CONNECT four.test:%d HTTP/1.1\r\nHost: four.test:%d\r\n%b\r\n" % (port, port, field)


def get_head(port, field=b""):
    return b"GET http://four.test:%d/page HTTP/1.1\r\nHost: four.test:%d\r\n%b\r\n" % (port, port, field)


PAIRS = [(NAME, PASSWORD), (OTHER, OTHERS_PASSWORD)]

# A password that is wrong, or another user's, or a part of the right one, or none; a name of nobody, or with the colon.
WRONG = [(NAME, b"S3cret-password"), (NAME, OTHERS_PASSWORD), (OTHER, PASSWORD), (NAME, PASSWORD[:-1]),
         (NAME, PASSWORD + b"s"), (NAME, b""), (b"", PASSWORD), (b"you", PASSWORD), (NAME + b":", PASSWORD),
         (OTHER + b":a", b"b \xff"), (b"# the office", b""), (NAME.upper(), PASSWORD)]


def lone(name, password):
    """Whether a name and a password make the pair of a user by HTTP, which splits at the first colon."""
    return (name + b":" + password) in [one + b":" + another for one, another in PAIRS]


def check_socks():
    """By SOCKS 5 a name and its password are admitted, and nothing else is (RFC 1929 section 2)."""
    with proxy_of() as proxy, serving(greet) as port:
        for name, password in PAIRS:
            with proxy.connect() as client:
                got = by_socks(client, message(name, password), "four.test", port)
                must(got[:6] == b"\5\2\1\0\5\0", name, got, proxy.said())
                must(all_of(client) == b"hello\n", name, proxy.said())
        before = len(proxy.files())
        for name, password in WRONG:
            with proxy.connect() as client:
                got = by_socks(client, message(name, password), "four.test", port)
            must(got == b"\5\2\1\1", name, password, got)
        for given in (b"\5" + message(NAME, PASSWORD)[1:], b"\0\0\0\0"):
            with proxy.connect() as client:
                must(by_socks(client, given, "four.test", port) == b"\5\2\1\1", given)
        must(len(proxy.files()) == before, "a race", proxy.files())


def check_socks_pieces():
    """The messages of SOCKS 5 may be cut anywhere, and come at once."""
    with proxy_of() as proxy, serving(greet) as port:
        given = b"\5\2\0\2" + message(NAME, PASSWORD) + b"\5\1\0" + destination("four.test", port)
        for at in range(1, len(given) + 1):
            with proxy.connect() as client:
                client.sendall(given[:at])
                client.sendall(given[at:])
                got = get(client, 14 + 6)
            must(got[:6] + got[14:] == b"\5\2\1\0\5\0hello\n", at, got, proxy.said())


def check_socks_without():
    """A client of SOCKS 5 that offers no password, and one of SOCKS 4, are refused before any race."""
    with proxy_of() as proxy, serving(greet) as port:
        for given in (b"\5\1\0", b"\5\0", b"\5\3\0\1\3"):
            got = proxy.answer(given + b"\5\1\0" + destination("four.test", port))
            must(got == b"\5\xff", given, got)
        got = proxy.answer(b"\4\1" + port.to_bytes(2) + b"\0\0\0\1" + NAME + b"\0four.test\0")
        must(got == b"\0\x5b" + bytes(6), got)
        must(not proxy.files(), "a race", proxy.files())


def check_http():
    """By HTTP the credentials of a user are admitted, and nothing else is (RFC 9110 section 15.5.8)."""
    with proxy_of() as proxy, web() as port:
        for name, password in PAIRS:
            got = proxy.answer(get_head(port, basic(name, password)))
            must(got.endswith(b"page\n"), name, got, proxy.said())
            must(proxy.answer(connect_head(port, basic(name, password).lower())).startswith(b"HTTP/1.1 407 "), name)
        before = len(proxy.files())
        fields = [basic(name, password) for name, password in WRONG if not lone(name, password)]
        right = base64.b64encode(NAME + b":" + PASSWORD)
        fields += [b"", b"Proxy-Authorization: Bearer " + right + b"\r\n", b"Authorization: Basic " + right + b"\r\n",
                   b"Proxy-Authorization: Basic" + right + b"\r\n", b"Proxy-Authorization: Basic \r\n",
                   b"Proxy-Authorization: Basic " + right[:-1] + b"\r\n",
                   b"Proxy-Authorization: Basic " + right + b"=\r\n",
                   b"Proxy-Authorization: Basic " + base64.b64encode(NAME) + b"\r\n"]
        for field in fields:
            for head in (connect_head, get_head):
                got = proxy.answer(head(port, field))
                must(got.startswith(b"HTTP/1.1 407 Proxy Authentication Required\r\n"), field, got)
                must(CHALLENGE in got and b"\r\nConnection: close\r\n" in got, field, got)
        must(len(proxy.files()) == before, "a race", proxy.files())


def check_http_forms():
    """The scheme's case does not matter, nor how many spaces follow it (RFC 9110 section 11.1)."""
    right = base64.b64encode(NAME + b":" + PASSWORD)
    with proxy_of() as proxy, serving(greet) as port:
        for begin in (b"Proxy-Authorization: BASIC ", b"proxy-authorization:basic   ", b"PROXY-AUTHORIZATION: Basic "):
            got = proxy.answer(connect_head(port, begin + right + b"\r\n"))
            must(got.startswith(b"HTTP/1.1 200 ") and got.endswith(b"hello\n"), begin, got, proxy.said())


def check_not_sent_on():
    """The server gets neither name nor password."""
    came = []

    def note(connection):
        came.append(connection.recv(65_536))
        connection.sendall(b"HTTP/1.1 200 OK\r\nContent-Length: 0\r\n\r\n")

    with proxy_of() as proxy, serving(note) as port:
        must(proxy.answer(get_head(port, basic(NAME, PASSWORD))).startswith(b"HTTP/1.1 200 "), proxy.said())
    must(came and b"roxy" not in came[0] and base64.b64encode(NAME + b":" + PASSWORD)[:-4] not in came[0], came)


def check_pages():
    """The proxy's own pages need no user."""
    with proxy_of() as proxy:
        for path in (b"/", b"/proxy.pac", b"/wpad.dat"):
            got = proxy.answer(b"GET %b HTTP/1.1\r\nHost: %b:%d\r\n\r\n" % (path, FOUR.encode(), proxy.port))
            must(got.startswith(b"HTTP/1.1 200 "), path, got)


def check_log():
    """The log has the name of a client that was admitted, and never a password; and why one was refused."""
    for words in ((), ("--log-json",)):
        with proxy_of(*words) as proxy, serving(greet) as port:
            with proxy.connect() as client:
                by_socks(client, message(NAME, PASSWORD), "four.test", port)
            proxy.answer(connect_head(port, basic(OTHER, OTHERS_PASSWORD)))
            proxy.answer(connect_head(port, basic(NAME, b"wrong-password")))
            with proxy.connect() as client:
                by_socks(client, message(NAME, b"wrong-password"), "four.test", port)
            key = '"client":' if words else "client="
            must(comes(lambda: proxy.said().count(key) == 4, SOON), proxy.said())
            said = proxy.said()
        must("s3cret" not in said and "wrong-password" not in said and "a:b" not in said, said)
        must(base64.b64encode(NAME + b":" + PASSWORD).decode()[:8] not in said, said)
        if words:
            lines = [json.loads(line) for line in said.splitlines() if line.startswith("{")]
            must(sorted((it.get("user", ""), it.get("fault", "")) for it in lines)
                 == [("", "no-user"), ("", "no-user"), ("Zoë", ""), ("me", "")], lines)
        else:
            must(said.count(" user=me ") == 1 and said.count(" user=Zoë ") == 1 and said.count("fault=no-user") == 2,
                 said)


def check_begin_lines():
    """The line of a race that begins has the name too, and the method of a request that is forwarded, as the line of its
    session has them."""
    with proxy_of("--log-begin", "--log-json") as proxy, serving(greet) as port:
        with proxy.connect() as client:
            by_socks(client, message(NAME, PASSWORD), "four.test", port)
        proxy.answer(get_head(port, basic(OTHER, OTHERS_PASSWORD)))
        must(comes(lambda: proxy.said().count('"end":') == 2, SOON), proxy.said())
        lines = [json.loads(line) for line in proxy.said().splitlines() if line.startswith("{")]
    for key in ("begin", "end"):
        said = {it["user"]: it.get("method") for it in lines if key in it}
        must(said == {NAME.decode(): None, OTHER.decode(): "GET"}, key, lines)


def check_without_users():
    """Without the option a client needs no password, and one that offers a password alone is refused as before."""
    with Proxy() as proxy, serving(greet) as port:
        must(proxy.answer(b"\5\1\2") == b"\5\xff", proxy.said())
        must(proxy.ask("four.test", port)[0] == 0, proxy.said())
        got = proxy.answer(connect_head(port, basic(NAME, PASSWORD)))
        must(got.startswith(b"HTTP/1.1 200 ") and "user=" not in proxy.said(), got, proxy.said())


FAULTS = [
    (b"me:secret\nyou\n", "line 2 has no colon"), (b"me:\n", "line 1 has a name or a password"),
    (b":secret\n", "line 1 has a name or a password"), (b"\n#\nme:" + b"a" * 256, "line 3 has a name or a password"),
    (b"a" * 256 + b":a", "line 1 has a name or a password"), (b"me:secret\r\n", "line 1 has a control character"),
    (b"me:a\tb\n", "line 1 has a control character"), (b"", "there is no user"), (b"\n# me:secret\n", "there is no user"),
]


def check_faults():
    """A wrong line is a fault with its number and a sentence that says what to do; so is a file that cannot be read."""
    for text, wanted in FAULTS:
        with users(text) as path:
            done = support.run(HE, "proxy", "--listen", f"{FOUR}:{unused_port()}", "--users", path, timeout=TIMEOUT)
        must(done.returncode == 1 and f"he: {path}: {wanted}" in done.stderr, text, done)
        must(done.stderr.count("\n") == 1 and done.stdout == "", text, done)
    missing = "/nonexistent/users"
    done = support.run(HE, "proxy", "--listen", f"{FOUR}:{unused_port()}", "--users", missing, timeout=TIMEOUT)
    must(done.returncode == 1 and missing in done.stderr and "cannot read" in done.stderr, done)


def check_longest():
    """A name and a password of 255 octets each are a user's."""
    name, password = b"n" * 255, b"p" * 255
    with proxy_of(text=name + b":" + password) as proxy, serving(greet) as port:
        with proxy.connect() as client:
            must(by_socks(client, message(name, password), "four.test", port)[:6] == b"\5\2\1\0\5\0", proxy.said())
        must(proxy.answer(connect_head(port, basic(name, password))).endswith(b"hello\n"), proxy.said())


def check_mode():
    """A file that others can read is told of once, and one that they cannot is not."""
    for mode, count in ((0o600, 0), (0o400, 0), (0o640, 1), (0o644, 1)):
        with proxy_of(mode=mode) as proxy:
            must(proxy.said().count("chmod 600") == count, oct(mode), proxy.said())


def check_curl():
    """curl gives a name and a password by each of its ways."""
    needs("curl")
    with proxy_of(text=b"me:s3cret\n") as proxy, web() as port:
        for scheme in ("http", "socks5", "socks5h"):
            for user, status in (("me:s3cret@", 0), ("me:wrong@", None), ("", None)):
                for more in ((), ("--proxytunnel",))[: 2 if scheme == "http" else 1]:
                    done = support.run("curl", "-sSf", *more, "--noproxy", ",", "--proxy",
                                       f"{scheme}://{user}{FOUR}:{proxy.port}", f"http://four.test:{port}/page",
                                       timeout=TIMEOUT, env={**os.environ, "HOME": "/nonexistent"})
                    is_right = (done.returncode, done.stdout) == (0, "page\n")
                    must(is_right == (status == 0), scheme, user, more, done, proxy.said())
