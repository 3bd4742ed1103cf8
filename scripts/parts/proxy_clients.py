"""Connects to a built program's `he proxy` as many clients and as odd ones do: silent, answered and not closing,
reset, vanished, and beside a log that nobody reads; and looks at who waits, what ends how, and what it says.

needs: what parts/proxy.py needs; of loopback also 127.0.0.2 and 127.0.0.3
"""
import contextlib
import errno
import fcntl
import os
import pathlib
import re
import select
import socket
import struct
import subprocess
import time

import support
from parts.proxy import ALL, DEFAULT_PORT, HE, SOON, Proxy, all_of, destination, echo, get, head_of, socks, tunnel
from support import (FOUR, TIMEOUT, WIDE_FOUR, comes, greet, must, serving, set_to_reset, timed, unused_port)

SETUP = support.NETWORK
AT_ONCE = 1.0  # seconds within which a client is answered beside others that say nothing
SILENT = 1_000  # clients that say nothing
OTHERS = ("127.0.0.2", "127.0.0.3")  # addresses of this machine from which clients come
QUARTER = 100  # clients of one address that have asked for nothing
SETTLES = 2  # seconds within which those that came last have their places
MOST_HEAD = 16_384  # bytes of a request's head
MOST_IDLE = 20  # kB of memory of a tunnel on which nothing moves
SIOCOUTQ = 0x5411
KEEPALIVE = 2  # the timer of a socket in /proc/net/tcp


def opened(proxy, source=FOUR, seconds=TIMEOUT):
    """A client that comes from that address."""
    return socket.create_connection((FOUR, proxy.port), seconds, source_address=(source, 0))


def arrives(connection):
    """Waits until all that was sent has arrived in the other system."""
    must(comes(lambda: struct.unpack("i", fcntl.ioctl(connection, SIOCOUTQ, bytes(4)))[0] == 0), "not sent")


def read_to_reset(connection):
    """How many bytes come, and whether a reset ends them."""
    count = 0
    try:
        while piece := connection.recv(1 << 16):
            count += len(piece)
    except ConnectionResetError:
        return count, True
    return count, False


# Resets


@timed
def check_server_resets():
    """A reset of the server is one for the client, once it has all that came before, also where it reads late."""
    for size in (6, 1 << 20):
        def reset(connection):
            connection.recv(1)
            connection.sendall(bytes(size))
            arrives(connection)
            set_to_reset(connection)

        for ask in (socks, tunnel):
            with Proxy() as proxy, serving(reset) as port, proxy.connect(SOON) as client:
                code = ask(client, FOUR, port)
                client.sendall(b"x")
                time.sleep(0.5 if size > 6 else 0)
                got = read_to_reset(client)
                must(code in (0, 200) and got == (size, True), ask.__name__, code, got, proxy.said())
                must(comes(proxy.lines, SOON), "no line")
                must("server" in proxy.lines()[0].split("end=")[1], proxy.lines())


@timed
def check_client_resets():
    """A reset of the client is one for the server, once it has all that came before, also where it reads late."""
    for size in (6, 1 << 20):
        found = []

        def read(connection):
            time.sleep(0.5 if size > 6 else 0)
            found.append(read_to_reset(connection))

        with Proxy() as proxy, serving(read) as port:
            with proxy.connect(SOON) as client:
                code = socks(client, FOUR, port)
                client.sendall(bytes(size))
                arrives(client)
                set_to_reset(client)
            must(comes(lambda: found, SOON) and found == [(size, True)], code, found, proxy.said())
            must(comes(proxy.lines, SOON) and "client" in proxy.lines()[0].split("end=")[1], proxy.lines())


# Who waits


def must_answer_soon(proxy, port, what):
    began = time.monotonic()
    code, got = proxy.ask(FOUR, port, ALL)
    seconds = time.monotonic() - began
    print(f"    {what}: {seconds:.2f} s")
    must(code == 0 and got == b"hello\n" and seconds < AT_ONCE, what, code, got, f"{seconds:.2f} s")


@timed
def check_silent():
    """Beside a thousand clients that say nothing the next one is answered soon."""
    with serving(greet) as port:
        for sources in ((FOUR,), OTHERS):
            with Proxy("-q") as proxy, contextlib.ExitStack() as held:
                for number in range(SILENT):
                    held.enter_context(opened(proxy, sources[number % len(sources)]))
                must_answer_soon(proxy, port, f"silent from {', '.join(sources)}")


@timed
def check_answered():
    """Clients that were answered and do not close keep nobody waiting."""
    with serving(greet) as port, Proxy("-q") as proxy, contextlib.ExitStack() as held:
        for number in range(5 * QUARTER):
            client = held.enter_context(opened(proxy))
            host = f"{FOUR}:{proxy.port}" if number % 2 else "another"
            client.sendall(f"GET /proxy.pac HTTP/1.1\r\nHost: {host}\r\n\r\n".encode())
            must(get(client, 5) == b"HTTP/", "not answered")
        must_answer_soon(proxy, port, "answered, and open")


@timed
def check_quarter():
    """Clients of one address take no place of another one's client that is slow; of its own the first makes room."""
    with Proxy() as proxy, contextlib.ExitStack() as held:
        slow = held.enter_context(opened(proxy, FOUR, SOON))
        slow.sendall(b"\5")
        first, *_ = [held.enter_context(opened(proxy, OTHERS[0], SOON)) for _ in range(8 * QUARTER)]
        must(first.recv(1) == b"" and comes(lambda: "end=displaced" in proxy.said(), SOON), proxy.said()[-300:])
        slow.sendall(b"\1\0")
        must(get(slow, 2) == b"\5\0", "the slow client of another address was sent away")


@timed
def check_places():
    """Of the clients of one address that have asked for nothing a hundred keep their places."""
    with Proxy("-q") as proxy, contextlib.ExitStack() as held:
        before = proxy.descriptors()
        for _ in range(QUARTER + 20):
            held.enter_context(opened(proxy, OTHERS[0]))
        comes(lambda: proxy.descriptors() - before >= QUARTER, SOON)
        time.sleep(SETTLES)
        must(proxy.descriptors() - before == QUARTER, proxy.descriptors() - before)


@timed
def check_most_said():
    """The log says when as many sessions run as may, and when that is over, once each."""
    with Proxy("--max-clients", 3) as proxy, serving(echo) as port:
        with contextlib.ExitStack() as held:
            clients = [held.enter_context(proxy.connect()) for _ in range(3)]
            for client in clients:
                must(socks(client, FOUR, port) == 0, proxy.said())
            must(comes(lambda: "he: 3 sessions run" in proxy.said(), SOON), proxy.said())
        must(comes(lambda: "he: fewer than 3 sessions" in proxy.said(), SOON), proxy.said())
        must(proxy.said().count("sessions run") == 2, proxy.said())


# Clients that vanish


def timers_of(port, column):
    """The timers of the connections at this port of this machine, or of their other ends."""
    rows = map(str.split, pathlib.Path("/proc/net/tcp").read_text().splitlines())
    is_at = f":{port:04X}"
    return [int(row[5].split(":")[0], 16) for row in rows if row[3] == "01" and row[column].endswith(is_at)]


def check_keepalive():
    """A client or a server that vanished is noticed: the system asks each one now and then."""
    with Proxy() as proxy, serving(echo) as port, proxy.connect() as client:
        socks(client, FOUR, port)
        client.sendall(b"x")
        get(client, 1)
        for at, column in ((proxy.port, 1), (port, 2)):
            must(comes(lambda: KEEPALIVE in timers_of(at, column), SOON), column, timers_of(at, column))


@timed
def check_idle_seconds():
    """With --idle 2 a tunnel is closed two seconds after its last byte."""
    with Proxy("--idle", 2) as proxy, serving(echo) as port, proxy.connect(SOON) as client:
        socks(client, FOUR, port)
        time.sleep(0.2)
        client.sendall(b"x")
        must(get(client, 1) == b"x", "not echoed")
        began = time.monotonic()
        got, seconds = client.recv(1), time.monotonic() - began
    must(got == b"" and 1.8 < seconds < 2.8, got, f"{seconds:.1f} s")


@timed
def check_idle_memory():
    """A tunnel on which nothing moves takes little memory, also after many bytes went through it."""
    count = 400
    with Proxy("-q", "--max-clients", 2 * count) as proxy, serving(echo) as port, contextlib.ExitStack() as held:
        def add():
            client = held.enter_context(proxy.connect())
            must(socks(client, FOUR, port) == 0, proxy.said())
            client.sendall(bytes(30_000))
            must(len(get(client, 30_000)) == 30_000, "not echoed")

        for _ in range(50):  # (the first ones take what all share)
            add()
        before = proxy.memory()
        for _ in range(count):
            add()
        each = (proxy.memory() - before) / count
    print(f"    {each:.1f} kB a tunnel")
    must(each <= MOST_IDLE, f"{each:.1f} kB a tunnel")


# The log's flow


@timed
def check_stalled_log():
    """A log that nobody reads stops no client; once it is read again it says how many lines it lacks."""
    port_of_proxy, read, write = unused_port(), *os.pipe()
    fcntl.fcntl(write, fcntl.F_SETPIPE_SZ, 8192)
    with serving(greet) as port, subprocess.Popen([HE, "proxy", "--listen", f"{FOUR}:{port_of_proxy}"],
                                                  stdin=subprocess.DEVNULL, stdout=subprocess.DEVNULL,
                                                  stderr=write) as running:
        os.close(write)
        try:
            must(support.is_up(running, lambda: support.is_listening(port_of_proxy)), "does not listen")

            def asks(times):
                for _ in range(times):
                    with socket.create_connection((FOUR, port_of_proxy), SOON) as client:
                        must(socks(client, FOUR, port) == 0 and all_of(client) == b"hello\n", "not served")

            def taken():
                text = b""
                while select.select([read], [], [], 0.5)[0] and (piece := os.read(read, 1 << 16)):
                    text += piece
                return text.decode()

            asks(100)
            first = taken()
            asks(3)
            second = taken()
        finally:
            running.kill()
            os.close(read)
    lines = [line for line in (first + second).splitlines() if line.startswith("time=")]
    dropped = [int(count) for count in re.findall(r"(?m)^he: (\d+) lines? of the log dropped: .*$", first + second)]
    must(dropped and len(lines) > 3 and len(lines) + sum(dropped) == 103, len(lines), dropped, repr(second))


# Requests and pages at their edges


def request(proxy, *lines):
    return proxy.answer("".join(f"{line}\r\n" for line in (*lines, "")).encode())


def check_requests():
    """HEAD is answered as GET without a body, two fields Host are refused, and nothing keeps the page."""
    with Proxy() as proxy:
        own = f"Host: {FOUR}:{proxy.port}"
        for path in ("/", "/proxy.pac", "/wpad.dat"):
            whole, head = (request(proxy, f"{method} {path} HTTP/1.1", own) for method in ("GET", "HEAD"))
            must(whole.startswith(b"HTTP/1.1 200 ") and whole.split(b"\r\n\r\n")[0] + b"\r\n\r\n" == head, path, head)
            for field in (b"Cache-Control: no-store", b"X-Frame-Options: DENY",
                          b"Cross-Origin-Resource-Policy: same-origin"):
                must(b"\r\n" + field + b"\r\n" in head, head)
        for method in ("GET / HTTP/1.1", "HEAD / HTTP/1.1", f"CONNECT {FOUR}:9 HTTP/1.1", "POST / HTTP/1.1"):
            got = request(proxy, method, own, own.lower())
            must(got.startswith(b"HTTP/1.1 400 "), method, got)


def check_long_head():
    """A request's head has room for 16 KiB; one that is longer is refused then, and not read on."""
    with Proxy() as proxy, proxy.connect(SOON) as client:
        client.sendall(b"GET / HTTP/1.1\r\nA: " + b"a" * (2 * MOST_HEAD))
        status, head = head_of(client)
    must(status == 400, status, head)


def is_reached(address, port):
    """Whether something listens there."""
    with contextlib.suppress(ConnectionRefusedError), socket.create_connection((address, port), SOON):
        return True
    return False


@timed
def check_where_it_came():
    """Where the proxy listens at all addresses, the configuration for browsers and the advice name the one at which
    the client came."""
    for wide, at in (("0.0.0.0", FOUR), ("0.0.0.0", WIDE_FOUR), ("[::]", FOUR), ("[::]", "::1")):
        wide_port = unused_port()
        with Proxy("--listen", f"{wide}:{wide_port}", "--allow", f"{WIDE_FOUR}/32"):
            must(comes(lambda: is_reached(at, wide_port), SOON), "does not listen at all addresses")
            name = f"[{at}]:{wide_port}" if ":" in at else f"{at}:{wide_port}"
            for path, wanted in (("/proxy.pac", f"SOCKS5 {name};"), ("/no", f"socks5h://{name},")):
                with socket.create_connection((at, wide_port), SOON, source_address=(at, 0)) as client:
                    client.sendall(f"GET {path} HTTP/1.1\r\nHost: {name}\r\n\r\n".encode())
                    got = all_of(client).decode()
                must(wanted in got, wide, at, path, got)


def check_port_of_urls():
    """At port 80, which clients leave out of the field Host (RFC 9110 section 7.2), the pages are served with the port
    in it and without, and under no other name."""
    listens = ["--listen", f"{FOUR}:80"] + (["--listen", "[::1]:80"] if support.has_six() else [])
    with Proxy(*listens):
        for at in [FOUR, "::1"][:len(listens) // 2]:
            must(comes(lambda: is_reached(at, 80), SOON), "does not listen at port 80")
            name = f"[{at}]" if ":" in at else at
            for host, status in ((name, 200), (f"{name}:80", 200), (f"{name}:81", 501), ("other.test", 501)):
                with socket.create_connection((at, 80), SOON) as client:
                    client.sendall(f"GET /proxy.pac HTTP/1.1\r\nHost: {host}\r\n\r\n".encode())
                    got = all_of(client).decode()
                must(got.startswith(f"HTTP/1.1 {status} "), host, got)


# Where it listens


def listening_at(pid):
    """The addresses at which a process listens, as `ss` has them in its network: `*` is :: if IPv4 clients come too."""
    rows = support.run("nsenter", f"--net=/proc/{pid}/ns/net", "ss", "-Hltnp").stdout.splitlines()
    return sorted(row.split()[3] for row in rows if f"pid={pid}," in row)


def must_listen(words, wanted, inside=()):
    """A proxy with these words listens at these addresses and no other."""
    support.needs("ss", "nsenter")
    command = [str(word) for word in (*inside, HE, "proxy", "-q", *words)]
    with subprocess.Popen(command, stdout=subprocess.DEVNULL, stderr=subprocess.PIPE, text=True) as running:
        try:
            comes(lambda: running.poll() is not None or len(listening_at(running.pid)) >= len(wanted), SOON)
            found = listening_at(running.pid) if running.poll() is None else running.stderr.read()
        finally:
            running.kill()
    must(found == wanted, words, found)


def check_default_places():
    """Without --listen it listens at the loopback addresses and no other."""
    must_listen([], ["127.0.0.1:1080", "[::1]:1080"])


def check_port_alone():
    """A port alone and localhost are both loopback addresses, and a port after a colon is all addresses."""
    port, second = unused_port(), unused_port()
    loopback = [f"{FOUR}:{port}", f"[::1]:{port}"]
    for words, wanted in (([port], loopback), ([f"localhost:{port}"], loopback), ([f":{port}"], [f"*:{port}"]),
                          ([f"[::1]:{second}", port], sorted([*loopback, f"[::1]:{second}"]))):
        listen = [word for each in words for word in ("--listen", each)]
        must_listen([*listen, "--allow", "192.0.2.0/24"], wanted)


# Runs a command in a network without IPv6.
WITHOUT_SIX = "unshare", "-n", "sh", "-ec", """ip link set lo up
echo 1 > /proc/sys/net/ipv6/conf/all/disable_ipv6
exec "$0" "$@"
"""


def check_without_six():
    """On a machine without IPv6 the loopback addresses are the IPv4 one; an IPv6 address that is named is a fault."""
    if support.run(*WITHOUT_SIX, "true").returncode:
        raise support.NotTried("no network without IPv6 can be made")
    port = unused_port()
    for words, at in (([], DEFAULT_PORT), (["--listen", port], port), (["--listen", f"localhost:{port}"], port)):
        must_listen(words, [f"{FOUR}:{at}"], WITHOUT_SIX)
    done = support.run(*WITHOUT_SIX, HE, "proxy", "--listen", f"[::1]:{port}", timeout=SOON)
    must(done.returncode == 1 and f"[::1]:{port}" in done.stderr, done.returncode, done.stderr)


def check_allowed_at_all():
    """At all addresses an IPv4 client is served where --allow has its IPv4 network, and no other is."""
    for allow, code in ((f"{WIDE_FOUR}/32", 0), ("192.0.2.0/24", None)):
        port, found = unused_port(), None
        with serving(greet) as to, Proxy("--listen", f":{port}", "--allow", allow):
            must(comes(lambda: is_reached(FOUR, port), SOON), "does not listen at all addresses")
            with contextlib.suppress(OSError), \
                    socket.create_connection((WIDE_FOUR, port), SOON, source_address=(WIDE_FOUR, 0)) as client:
                found = socks(client, FOUR, to)
        must(found == code, allow, f"{found}, not {code}")


def check_two_places():
    """It serves at each --listen, and reaches itself by none of them."""
    second = unused_port()
    with Proxy("--listen", f"[::1]:{second}") as proxy, serving(greet) as port:
        for at, its_port in ((FOUR, proxy.port), ("::1", second)):
            for to, to_port, code in ((FOUR, port, 0), (FOUR, proxy.port, 2), ("::1", second, 2)):
                with socket.create_connection((at, its_port), SOON) as client:
                    found = socks(client, to, to_port)
                must(found == code, at, its_port, to, to_port, found)


def check_open_place():
    """It refuses to start where any one --listen is open to others, and there is no --allow."""
    for places in ((FOUR, WIDE_FOUR), (WIDE_FOUR, FOUR)):
        listen = [word for at in places for word in ("--listen", f"{at}:{unused_port(at)}")]
        done = support.run(HE, "proxy", *listen, timeout=SOON)
        must(done.returncode == 1 and "--allow" in done.stderr, places, done.returncode, done.stderr)


def check_not_allowed():
    """Of a client whose network is not allowed nothing comes to a server, nor is it answered."""
    came = []

    def note(connection):
        came.append(connection.getpeername())

    for allow, wanted in ((f"{WIDE_FOUR}/32", 1), ("192.0.2.0/24", 0)):
        came.clear()
        with serving(note) as port, Proxy("--allow", allow, at=WIDE_FOUR) as proxy:
            with contextlib.suppress(OSError):
                at = (WIDE_FOUR, proxy.port)
                with socket.create_connection(at, SOON, source_address=(WIDE_FOUR, 0)) as client:
                    client.sendall(b"\5\1\0" + b"\5\1\0" + destination(FOUR, port))
                    got = all_of(client)
                    must(wanted or not got, allow, got)
            comes(lambda: len(came) > 0, SOON if wanted else 0.5)
            must(len(came) == wanted, allow, came)
