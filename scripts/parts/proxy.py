"""Connects through a built program's `he proxy`, in a network of its own, as a client of SOCKS 5 and of HTTP CONNECT,
and looks at what comes of it: the replies, the records, the log, and what is left open.
"""
import contextlib
import datetime
import json
import os
import pathlib
import random
import re
import signal
import socket
import struct
import subprocess
import tempfile
import time
import unittest.mock

import support
from support import (DEAD_SIX, FOUR, NXDOMAIN, OPTIONS, TIMEOUT, WIDE_FOUR, NameServer, NotTried, comes, greet, message,
                     must, needs, serving, set_to_reset, silent, timed, unused_port)

HE = OPTIONS.program
SETUP = support.NETWORK
DEFAULT_PORT = 1080
SOON = 5.0  # seconds in which anything that needs no wait is over
MOST_WAITING = 0.020  # seconds of processor time of a race that waits for two seconds
MOST_OF_RACE = 0.002  # and of one with a silent address, beyond that of two races
ALL = 1 << 20  # bytes, more than come
RECORD = re.compile(r"\d{4}-\d\d-\d\d/\d\d-\d\d-\d\d\.\d{3}-(.+?)-(\d+)(?:-\d+)?\.timeline")
INSTANT = r"\d{4}-\d\d-\d\dT\d\d:\d\d:\d\d\.\d{3}Z"
LINE = re.compile(rf"time={INSTANT} client=\S+ host=\S* port=\d+ .*end=.+")


class Proxy:
    """A proxy that runs: its port, the folder of its records if it keeps any, and what it printed."""

    def __init__(self, *words, at=FOUR, limits=None, earlier=(), keeps=True):
        self.words, self.at, self.port, self.limits, self.earlier = words, at, unused_port(at), limits, earlier
        self.keeps = keeps

    def __enter__(self):
        self.folder = tempfile.TemporaryDirectory()
        self.records, self.told = (pathlib.Path(self.folder.name, name) for name in ("day", "told"))
        for name in self.earlier:  # records that are there at its start
            path = self.records / name
            path.parent.mkdir(parents=True, exist_ok=True)
            path.write_text("race 1\nend\n")
        is_up = self.starts()
        if not is_up and "Address already in use" in self.said():  # (another program took the port meanwhile)
            self.port = unused_port(self.at)
            is_up = self.starts()
        must(is_up, f"the proxy does not listen: {self.said()!r}")
        return self

    def starts(self):
        """Starts it, and gives whether it listens."""
        kept = ["--record", self.records] if self.keeps else []
        at = f"[{self.at}]" if ":" in self.at else self.at
        words = [HE, "proxy", "--listen", f"{at}:{self.port}", *kept, *self.words]
        with open(self.told, "wb") as told:
            self.running = subprocess.Popen([str(word) for word in words], stdin=subprocess.DEVNULL,
                                            stdout=subprocess.DEVNULL, stderr=told, preexec_fn=self.limits)
        return support.is_up(self.running, lambda: support.is_listening(self.port, self.at))

    def __exit__(self, *_):
        self.running.kill()
        self.running.wait()
        self.folder.cleanup()

    def said(self):
        return self.told.read_text()

    def lines(self):
        """The lines of its sessions."""
        return [line for line in self.said().splitlines() if LINE.fullmatch(line)]

    def files(self):
        return sorted(self.records.rglob("*.timeline"))

    def descriptors(self):
        return len(os.listdir(f"/proc/{self.running.pid}/fd"))

    def memory(self):
        """Its resident memory, in kB."""
        status = pathlib.Path(f"/proc/{self.running.pid}/status").read_text()
        return int(re.search(r"VmRSS:\s+(\d+) kB", status)[1])

    def seconds_used(self):
        """Its processor time, to the nanosecond where the kernel counts these."""
        with contextlib.suppress(OSError):
            nanos = int(pathlib.Path(f"/proc/{self.running.pid}/schedstat").read_text().split()[0])
            return nanos / 1e9
        fields = pathlib.Path(f"/proc/{self.running.pid}/stat").read_text().rsplit(")", 1)[1].split()
        return (int(fields[11]) + int(fields[12])) / os.sysconf("SC_CLK_TCK")

    def connect(self, seconds=TIMEOUT):
        client = socket.create_connection((FOUR, self.port), timeout=seconds)
        client.setsockopt(socket.IPPROTO_TCP, socket.TCP_NODELAY, 1)
        return client

    def ask(self, host, port, count=0, seconds=TIMEOUT):
        """The code of the reply to a SOCKS request, and a number of bytes, or all, of what comes after it."""
        with self.connect(seconds) as client:
            return socks(client, host, port), get(client, count)

    def answer(self, given):
        """All that it answers to these bytes; where it does not end, the error."""
        with self.connect(SOON) as client:
            client.sendall(given)
            try:
                return all_of(client)
            except (ConnectionResetError, TimeoutError) as error:
                return repr(error).encode()


# A client's octets


def destination(host, port):
    """The address and the port of a SOCKS request (RFC 1928 section 4)."""
    for family, kind in ((socket.AF_INET, 1), (socket.AF_INET6, 4)):
        with contextlib.suppress(OSError):
            return bytes([kind]) + socket.inet_pton(family, host) + struct.pack(">H", port)
    return bytes([3, len(host)]) + host.encode() + struct.pack(">H", port)


def get(client, count):
    """This number of bytes; fewer if the other side closes."""
    got = b""
    while len(got) < count and (piece := client.recv(count - len(got))):
        got += piece
    return got


def socks(client, host, port, early=b""):
    """The code of the reply to a SOCKS request; None where there is none."""
    client.sendall(b"\5\1\0")
    if get(client, 2) != b"\5\0":
        return None
    client.sendall(b"\5\1\0" + destination(host, port) + early)
    reply = get(client, 4)
    if len(reply) < 4:
        return None
    get(client, {1: 6, 4: 18}[reply[3]])
    return reply[1]


def head_of(client):
    """The status of an HTTP response, and its head."""
    head = b""
    while not head.endswith(b"\r\n\r\n") and (piece := client.recv(1)):
        head += piece
    found = re.match(rb"HTTP/1\.1 (\d{3}) ", head)
    return int(found[1]) if found else None, head


def tunnel(client, host, port, early=b""):
    authority = f"[{host}]:{port}" if ":" in host else f"{host}:{port}"
    client.sendall(f"CONNECT {authority} HTTP/1.1\r\nHost: {authority}\r\n\r\n".encode() + early)
    return head_of(client)[0]


def all_of(client):
    return b"".join(iter(lambda: client.recv(1 << 17), b""))


def end_of(client):
    """The next bytes, and after how many seconds."""
    began = time.monotonic()
    return client.recv(10), time.monotonic() - began


# Servers


def echo(connection):
    while piece := connection.recv(1 << 16):
        connection.sendall(piece)


def must_close(proxy, held, seconds=SOON):
    """Soon it has no more descriptors than before."""
    is_closed = comes(lambda: proxy.descriptors() == held, seconds)
    must(is_closed, f"{proxy.descriptors()} descriptors, {held} before: {proxy.said()!r}")


# Checks


def check_takes():
    """By both protocols the address that answers is taken, each record has its target in its name and replays to it."""
    for ask in (socks, tunnel):
        for address, host, wanted in support.TAKEN:
            with Proxy() as proxy, serving(greet, address) as port, proxy.connect() as client:
                code, got, what = ask(client, host, port), all_of(client), f"{ask.__name__} {host}:"
                must(code in (0, 200) and got == b"hello\n", what, code, got, repr(proxy.said()))
                must(comes(lambda: len(proxy.files()) == 1, SOON), what, "records", proxy.files())
                record, = proxy.files()
                found = RECORD.fullmatch(str(record.relative_to(proxy.records)))
                name = re.sub(r"[^A-Za-z0-9.:-]", "_", host)
                must(found and found.groups() == (name, str(port)), what, "record", record)
                transcript = support.replayed(record.read_text())
                is_right = support.attempts_of(transcript)[-1][1:] == (wanted, "won") and "\nwon " in transcript
                must(is_right, what, transcript)


def check_lines_once():
    """A file of lines is read once, at the start: each race has these lines, whatever becomes of the file. One that is
    missing, or that has a wrong line, is reported then."""
    path, lines = OPTIONS.folder / "lines", f"source {FOUR}/8 7\nroute 127.0.0.0/8 7"
    path.write_text(lines)
    with Proxy("--machine", path) as proxy, serving(greet) as port:
        path.unlink()
        got = proxy.ask(FOUR, port, 6)
        must(got == (0, b"hello\n"), got, repr(proxy.said()))
        must(comes(lambda: len(proxy.files()) == 1, SOON), "records", proxy.files())
        record = proxy.files()[0].read_text()
    must(f"{lines}\n" in record, repr(record))
    for text in (None, "source here 1\n", "race 1\nend\n"):
        if text:
            path.write_text(text)
        done = support.run(HE, "proxy", "--listen", f"{FOUR}:{unused_port()}", "--machine", path, timeout=TIMEOUT)
        must((done.returncode, done.stderr.count("\n")) == (1, 1) and "--machine" in done.stderr, text, done)


# Is 15 ms late after each attempt begins, as a busy machine may be; port 9 is that of no attempt.
LATE = """
#include <netinet/in.h>
#include <sys/syscall.h>
#include <unistd.h>
int connect(int socket, const struct sockaddr *to, socklen_t length)
{
    int end = syscall(SYS_connect, socket, to, length);
    usleep(((const struct sockaddr_in *)to)->sin_port == htons(9) ? 0 : 15000);
    return end;
}
"""


def check_greets():
    """The end of a server that greets and closes is passed on, also by a proxy that is late."""
    needs("cc")
    library = OPTIONS.folder / "late.so"
    subprocess.run(["cc", "-shared", "-fPIC", "-o", library, "-xc", "-"], input=LATE.encode(), check=True)
    for ask in (socks, tunnel):
        with (unittest.mock.patch.dict(os.environ, LD_PRELOAD=str(library)), Proxy() as proxy, serving(greet) as port,
              proxy.connect(SOON) as client):
            code, got = ask(client, "both.test", port), all_of(client)
            must(code in (0, 200) and got == b"hello\n", ask.__name__, code, got)


def check_pieces():
    """A request that comes byte by byte is read, and what comes after it is the server's."""
    for given in (b"\5\2\0\2" + b"\5\1\0" + b"%s", b"CONNECT four.test:%d HTTP/1.1\r\nHost: a\r\n\r\n"):
        with Proxy() as proxy, serving(echo) as port, proxy.connect() as client:
            text = given % (destination("four.test", port) if given[0] == 5 else port)
            for byte in text + b"early":
                client.sendall(bytes([byte]))
                time.sleep(0.001)
            head = get(client, 12) if given[0] == 5 else head_of(client)[1]
            got = get(client, 5)
        must(got == b"early", f"{text!r}: {head!r}, {got!r}")


def check_early():
    """Whatever a client sends with its request goes to the server first, however much it is."""
    for seed, ask in enumerate((socks, tunnel), 1):
        early = random.Random(seed).randbytes(9_000)
        with Proxy() as proxy, serving(echo) as port, proxy.connect() as client:
            code = ask(client, "both.test", port, early)
            got = get(client, len(early))
        must(code in (0, 200) and got == early, f"{ask.__name__}: {code}, {len(got)} bytes")


def check_refusals():
    """Other requests are refused by their protocol's reply."""
    with Proxy() as proxy:
        for given, wanted in [
            (b"\4\2\0\x50\x7f\0\0\1user\0", rb"\x00\x5b\0{6}"),
            (b"\5\1\2", rb"\x05\xff"),
            (b"\5\1\0\5\2\0" + destination(FOUR, 80), rb"\x05\x00\x05\x07.{8}"),
            (b"\5\1\0\5\1\0\x09\0\0\0\0\0\x50", rb"\x05\x00\x05\x08.{8}"),
            (b"\5\1\0\5\1\7" + destination(FOUR, 80), rb"\x05\x00\x05\x08.{8}"),
            (b"\5\1\0\5\1\0" + destination(FOUR, proxy.port), rb"\x05\x00\x05\x02.{8}"),
            (b"CONNECT 127.0.0.1:%d HTTP/1.1\r\n\r\n" % proxy.port, rb"HTTP/1\.1 403 .*"),
            (b"CONNECT no.port HTTP/1.1\r\n\r\n", rb"HTTP/1\.1 400 .*"),
            (b"CONNECT a:0 HTTP/1.1\r\n\r\n", rb"HTTP/1\.1 400 .*"),
            (b"CONNECT a:65536 HTTP/1.1\r\n\r\n", rb"HTTP/1\.1 400 .*"),
            (b"GET https://example.org/ HTTP/1.1\r\nHost: example.org\r\n\r\n", rb"HTTP/1\.1 501 .*socks5h://.*"),
            (b"POST / HTTP/1.1\r\n\r\n", rb"HTTP/1\.1 501 .*"),
            (b"\x16\3\1\0\5\1\0\0\1\0", rb""),
        ]:
            got = proxy.answer(given)
            must(re.fullmatch(wanted, got, re.S), f"{given!r}: {got!r}")


class NoNames(NameServer):
    """A name server that knows no name."""

    def replies(self, query, _):
        return [(0, message(query, (), NXDOMAIN))]


def check_failures():
    """Where nothing connects, the code says why; HTTP has the reason as a text, and what was tried."""
    refused = unused_port()
    all_refused = b"each address of the host refused the connection: "
    none = b"the host has no address that could be reached: "
    with NoNames(FOUR) as names, Proxy("--resolver", names.at, "--set", "limit=400") as proxy, serving(greet) as port, \
            silent(DEAD_SIX, refused):
        for host, at, code, status, reason in [
            ("four.test", refused, 5, 502, all_refused + b"127.0.0.1"),
            ("both.test", refused, 5, 502, all_refused + b"2001:db8:1e::1, 127.0.0.1"),
            ("dead.test", port, 4, 504, b"no address of the host answered in time: 2001:db8:1e::9, 127.0.0.9"),
            ("no.such.name.test", port, 4, 502, none + b"no such name"),
            ("-bad-.test", port, 4, 502, none + b"no such name"), ("127.1", port, 4, 502, none + b"not a host name"),
        ]:
            answer = proxy.answer(b"CONNECT %s:%d HTTP/1.1\r\n\r\n" % (host.encode(), at))
            found, _ = proxy.ask(host, at)
            is_right = found == code and answer.startswith(b"HTTP/1.1 %d " % status)
            must(is_right, f"{host}: {found}, {answer!r}, {proxy.said()!r}")
            must(answer.split(b"\r\n\r\n", 1)[1] == reason + b"\n", f"{host}: {answer!r}")


@timed
def check_half_closed():
    """Whatever a client sends before it ends its sending is delivered, though no connection is made yet, and the answer
    comes to it."""
    with Proxy() as proxy, serving(echo) as port:
        for given in (b"\5\1\0" + destination("dead6.test", port), b"CONNECT dead6.test:%d HTTP/1.1\r\n\r\n" % port):
            with proxy.connect(SOON) as client:
                if given[0] == 5:
                    client.sendall(b"\5\1\0")
                    get(client, 2)
                client.sendall(given + b"early")
                client.shutdown(socket.SHUT_WR)
                got = all_of(client)
            must(got.endswith(b"early"), f"{given!r}: {got!r}, {proxy.said()}")


@timed
def check_leaves():
    """A client that goes away ends its race, and nothing is left open."""
    with Proxy() as proxy, serving(greet) as port:
        held = proxy.descriptors()
        for ask in (socks, tunnel):
            with proxy.connect(0.2) as client:
                with contextlib.suppress(TimeoutError):
                    ask(client, "dead.test", port)
                must(proxy.descriptors() > held, f"no race runs: {proxy.said()!r}")
            must_close(proxy, held)


def used_for(proxy, host, port):
    """The processor time that a proxy takes for a connection, in seconds."""
    before = proxy.seconds_used()
    must(proxy.ask(host, port, ALL) == (0, b"hello\n"), proxy.said())
    return proxy.seconds_used() - before


@timed
def check_pending():
    """A race that waits for two seconds takes next to no processor time, and one with a silent address two
    milliseconds at most."""
    with serving(greet) as port:
        with Proxy() as proxy, proxy.connect(0.3) as client:
            with contextlib.suppress(TimeoutError):
                socks(client, "dead.test", port)
            before = proxy.seconds_used()
            time.sleep(2)
            used = proxy.seconds_used() - before
        must(used < MOST_WAITING, f"{used * 1000:.0f} ms in two seconds")
        spent = []
        for _ in range(5):  # (each by a proxy of its own, to which the silent address is new)
            with Proxy() as proxy:
                _, one, both = [used_for(proxy, host, port) for host in ("four.test", "four.test", "dead6.test")]
                spent.append(both - 2 * one)
        must(min(spent) <= MOST_OF_RACE, "more than two races:", [f"{used * 1000:.1f} ms" for used in spent])


def check_server_resets():
    """A server that resets ends its client's connection."""
    def reset(connection):
        connection.sendall(b"hello\n")
        connection.recv(1)
        set_to_reset(connection)

    with Proxy() as proxy, serving(reset) as port:
        held = proxy.descriptors()
        with proxy.connect(SOON) as client:
            socks(client, FOUR, port)
            get(client, 6)
            client.sendall(b"x")
            with contextlib.suppress(ConnectionResetError):
                must(not client.recv(1), "more came")
            must_close(proxy, held)


ANSWER = b"HTTP/1.1 413 Content Too Large\r\nConnection: close\r\n\r\n" + bytes(60_000)


def answer_early(connection):
    """Answers before the request has ended, and closes: what comes then is answered by a reset."""
    connection.recv(1000)
    connection.sendall(ANSWER)


@timed
def check_early_answers():
    """The answer of a server that reads no further arrives, though the client still sends (RFC 9110 section 9.3.6)."""
    for ask in (socks, tunnel) * 5:
        with Proxy() as proxy, serving(answer_early) as port, proxy.connect(SOON) as client:
            code, got = ask(client, "four.test", port), b""
            with contextlib.suppress(ConnectionResetError, BrokenPipeError):
                for _ in range(200):
                    client.sendall(bytes(1 << 14))
            with contextlib.suppress(ConnectionResetError):
                while piece := client.recv(1 << 16):
                    got += piece
            must(code in (0, 200) and got == ANSWER, ask.__name__, code, f"{len(got)} bytes, {proxy.said()!r}")


# The request, the octets that are sent, and what the line of the session has after both.
RACED = rf"start={INSTANT} record={RECORD.pattern} names=\d+ "
LOGGED = [("four.test", b"five5", RACED + rf"winner={re.escape(FOUR)} ms=\d+ lost=\d+ sent=5 received=5 end=closed"),
          ("no.such.name.test", b"",
           rf"start={INSTANT} record={RECORD.pattern} fault=dns-failed sent=0 received=0 end=refused")]


def check_log():
    """A session has one line, with what it asked for, who won, and its bytes; with --log-json an object."""
    for words in ((), ("--log-json",), ("-q",)):
        with serving(echo) as port, Proxy(*words) as proxy:
            def told(is_begun=False):
                return [line for line in proxy.said().splitlines() if line.startswith("he: ") == is_begun]

            wanted = []
            for host, sent, end in LOGGED:
                with proxy.connect() as client:
                    asked = "client={}:{}".format(*client.getsockname()) + f" host={host} port={port} "
                    wanted.append(f"time=({INSTANT}) {re.escape(asked)}{end}")
                    socks(client, host, port)
                    client.sendall(sent)
                    get(client, len(sent))
                comes(lambda: len(told()) == len(wanted), 0.3 if "-q" in words else SOON)
            begun, lines = told(True), told()
        must(begun == ([] if words else [f"he: listening at {FOUR}:{proxy.port}"]), words, begun)
        if "-q" in words:
            must(not lines, words, lines)
            continue
        must(len(lines) == len(wanted), words, lines)
        for line, form in zip(lines, wanted):
            if words:
                line = " ".join(f"{name}={value}" for name, value in json.loads(line, object_pairs_hook=list))
            found = re.fullmatch(form, line)
            must(found, words, line, "not", form)
            when = datetime.datetime.fromisoformat(found[1].replace("Z", "+00:00"))
            must(abs(time.time() - when.timestamp()) < 60, words, line)


# Texts that name no place to listen at.
NO_PLACES = (f"{FOUR}:0", FOUR, "::1:1080", "[::1]", "0", ":0", "localhost:0", "65536", ":65536", "localhost:65536",
             "localhost", ":", "", "+1080", "1080 ", "01080", "0x438", "socks", "localhost:socks", "*:1080", "here:1080",
             "localhost:1080:", "localhost::1080")


def check_starts():
    """An address that is taken, or that is not loopback without --allow, is refused at the start, with the reason."""
    with support.listener_at(FOUR) as taken:
        port = taken.getsockname()[1]
        for words, status, wanted in [
            (["--listen", f"{FOUR}:{port}"], 1, rf"he: .*{re.escape(FOUR)}:{port}.*\n"),
            (["--listen", port], 1, rf"he: .*{re.escape(FOUR)}:{port}.*\n"),
            (["--listen", f"localhost:{port}"], 1, rf"he: .*{re.escape(FOUR)}:{port}.*\n"),
            (["--listen", f"{WIDE_FOUR}:{unused_port()}"], 1, r"he: .*--allow.*\n"),
            (["--listen", f":{unused_port()}"], 1, r"he: .*--allow.*\n"),
            *((["--listen", word], 2, r"he: .*--listen.*") for word in NO_PLACES),
            (["--allow", "192.0.2.1/24"], 2, r"he: .*"), (["--max-clients", "0"], 2, r"he: .*"),
            (["--record", "/proc/no"], 1, r"he: .*/proc/no.*\n"),
        ]:
            listen = [] if "--listen" in words else ["--listen", f"{FOUR}:{unused_port()}"]
            done = support.run(HE, "proxy", *listen, *words, timeout=SOON)
            is_right = done.returncode == status and re.fullmatch(wanted, done.stderr, re.S)
            must(is_right, f"{words}: status {done.returncode}, {done.stderr!r}")


def check_default():
    """Without --listen it listens at both loopback addresses; where one of them is taken it says so and ends."""
    places = {FOUR: f"{FOUR}:{DEFAULT_PORT}", "::1": f"[::1]:{DEFAULT_PORT}"}
    for taken in (None, *places):
        with contextlib.ExitStack() as held:
            if taken:
                held.enter_context(support.listener_at(taken, DEFAULT_PORT))
            running = held.enter_context(subprocess.Popen([HE, "proxy"], stdout=subprocess.DEVNULL,
                                                          stderr=subprocess.PIPE, text=True))
            held.callback(running.kill)
            if taken:
                comes(lambda: running.poll() is not None, SOON)
                running.kill()
                said, status = running.stderr.read(), running.wait()
                must(status == 1 and re.fullmatch(rf"he: .*{re.escape(places[taken])}.*\n", said), taken, status, said)
                continue
            said = [running.stderr.readline() for _ in places]
            must(sorted(said) == sorted(f"he: listening at {place}\n" for place in places.values()), said)
            for address in places:
                socket.create_connection((address, DEFAULT_PORT), SOON).close()


def check_allow():
    """A client that comes by an address beyond loopback is served only where --allow has it."""
    for allow, code in [(f"{WIDE_FOUR}/32", 0), ("192.0.2.0/24", None)]:
        found = None
        with serving(greet) as port, Proxy("--allow", allow, at=WIDE_FOUR) as proxy:
            at = (WIDE_FOUR, proxy.port)
            with socket.create_connection(at, TIMEOUT, source_address=(WIDE_FOUR, 0)) as client:
                with contextlib.suppress(OSError):
                    found = socks(client, FOUR, port)
        must(found == code, allow, f"{found}, not {code}")


@timed
def check_most():
    """As many sessions as --max-clients says run at once; the next one is served when one ends."""
    with Proxy("--max-clients", 3) as proxy, serving(echo) as port, contextlib.ExitStack() as held:
        clients = [held.enter_context(proxy.connect()) for _ in range(3)]
        codes = [socks(client, FOUR, port) for client in clients]
        late = held.enter_context(proxy.connect(0.4))
        late.sendall(b"\5\1\0")
        with contextlib.suppress(TimeoutError):
            got = late.recv(2)
            must(False, f"{codes}, and a fourth has {got!r}")
        late.settimeout(SOON)
        clients[0].close()
        must(get(late, 2) == b"\5\0", "the fourth is not served")


def check_most_per_client():
    """As many sessions of one address as --max-per-client says run at once: another one is closed at once and logged,
    clients of other addresses are served, and so is the address once a session ends."""
    with Proxy("--max-per-client", 2) as proxy, serving(echo) as port, contextlib.ExitStack() as held:
        clients = [held.enter_context(proxy.connect()) for _ in range(2)]
        must([socks(client, FOUR, port) for client in clients] == [0, 0], "two of one address", proxy.said())
        for _ in range(2):
            with proxy.connect() as late:
                late.settimeout(SOON)
                with contextlib.suppress(ConnectionError):
                    late.sendall(b"\5\1\0")
                    must(late.recv(2) == b"", "a third is served")
        with socket.create_connection((FOUR, proxy.port), TIMEOUT, source_address=("127.0.0.9", 0)) as other:
            must(socks(other, FOUR, port) == 0, "another address is not served", proxy.said())
        clients[0].close()

        def is_served():
            with contextlib.suppress(OSError), proxy.connect() as again:
                return socks(again, FOUR, port) == 0
            return False

        must(comes(is_served), "not served once a session has ended", proxy.said())
        lines = [line for line in proxy.said().splitlines() if line.endswith(" end=too-many")]
        must(len(lines) == 1 and " client=127.0.0.1:" in lines[0], "one line", proxy.said())


@timed
def check_few_descriptors():
    """Without a descriptor left no processor time is burnt, and once there are some again clients are served."""
    with Proxy(limits=support.limit("NOFILE", 32)) as proxy, serving(echo) as port:
        with contextlib.ExitStack() as held:
            for _ in range(60):
                held.enter_context(proxy.connect())
            time.sleep(0.5)
            before = proxy.seconds_used()
            time.sleep(1.5)
            used = proxy.seconds_used() - before
        must(used <= 0.3, f"{used:.1f} s of processor time in 1.5 s: {proxy.said()[-300:]!r}")

        def is_served():
            with contextlib.suppress(OSError):
                return proxy.ask(FOUR, port, seconds=SOON)[0] == 0
            return False

        must(comes(is_served), f"not served again: {proxy.said()[-300:]!r}")


def check_no_descriptor_for_names():
    """Where no descriptor is left to look a name up with, the reply is that the proxy failed, and not that there is no
    such host."""
    codes, held = [], []
    with Proxy(limits=support.limit("NOFILE", 24)) as proxy, contextlib.ExitStack() as clients:
        while 1 not in codes and len(codes) < 40:
            try:
                codes.append(proxy.ask(f"no.such.name{len(codes)}.test", 80, seconds=SOON)[0])
                held.append(clients.enter_context(proxy.connect()))
            except TimeoutError:  # none is left for the client itself
                held.pop().close()
        is_said = comes(lambda: "fault=no-descriptor" in proxy.said(), SOON)
        must(codes[0] == 4 and codes[-1] == 1 and is_said, codes, proxy.said()[-600:])


@timed
def check_late_request():
    """A client that says nothing is let go after ten seconds."""
    with Proxy() as proxy, proxy.connect() as client:
        client.sendall(b"\5\1")
        got, seconds = end_of(client)
    must(got == b"" and 9 < seconds < 13, f"{got!r} after {seconds:.1f} s")


@timed
def check_idle():
    """With --idle a tunnel on which nothing comes is closed, and one on which something comes is not."""
    with Proxy("--idle", 1) as proxy, serving(echo) as port, proxy.connect(SOON) as client:
        socks(client, FOUR, port)
        for _ in range(3):
            time.sleep(0.36)
            client.sendall(b"x")
            must(client.recv(1) == b"x", "closed while bytes came")
        got, seconds = end_of(client)
    must(got == b"" and 0.9 < seconds < 1.6, f"{got!r} after {seconds:.1f} s")


@timed
def check_signals():
    """SIGTERM and SIGINT end it at once, and what was raced is recorded."""
    for number in (signal.SIGTERM, signal.SIGINT):
        with Proxy() as proxy, serving(echo) as port, proxy.connect() as client:
            code = socks(client, FOUR, port)
            proxy.running.send_signal(number)
            proxy.running.wait(SOON)
            must(code == 0 and len(proxy.files()) == 1, f"signal {number}: {code}, records {proxy.files()}")


def check_record_most():
    """At most this number of records is kept, and the oldest days go first; those that somebody removed are not
    counted."""
    earlier = [f"{day}/00-00-0{n}.000-a-1.timeline" for day in ("2001-01-01", "2001-01-02") for n in range(4)]
    with Proxy("--max-records", 10, earlier=earlier) as proxy, serving(greet) as port:
        for _ in range(8):
            proxy.ask(FOUR, port, ALL)
        is_kept = comes(lambda: sum(path.parent.name[:4] != "2001" for path in proxy.files()) == 8, SOON)
        must(is_kept and not (proxy.records / "2001-01-01").exists(), proxy.files())
        for path in proxy.files()[1:]:
            path.unlink()
        for _ in range(9):
            proxy.ask(FOUR, port, ALL)
        must(comes(lambda: len(proxy.files()) == 10, SOON), proxy.files())


@contextlib.contextmanager
def full_disk(folder):
    """A disk without room, mounted there; gives the file that fills it."""
    if support.run("mount", "-t", "tmpfs", "-o", "size=8k", "small", folder).returncode:
        raise NotTried("no tmpfs may be mounted")
    try:
        filler = pathlib.Path(folder, "filler")
        with contextlib.suppress(OSError):
            filler.write_bytes(bytes(1 << 16))
        yield filler
    finally:
        support.run("umount", "-l", folder)


def check_full_disk():
    """Where nothing can be kept the log says so once, and sessions go on; once there is room, all is kept again."""
    known = OPTIONS.folder / "known"
    known.mkdir()
    with Proxy("--history", known / "file") as proxy, serving(greet) as port, contextlib.ExitStack() as held:
        fillers = [held.enter_context(full_disk(folder)) for folder in (known, proxy.records)]
        for _ in range(3):
            must(proxy.ask("four.test", port, ALL) == (0, b"hello\n"), proxy.said())
            time.sleep(1.1)  # (the history is written once a second)
        for what in ("records", "what is known of addresses"):
            lines = re.findall(f"(?m)^he: cannot keep {what}: .+$", proxy.said())
            must(len(lines) == 1, what, proxy.said())
        for filler in fillers:
            filler.unlink()
        proxy.ask("four.test", port, ALL)
        must(comes(lambda: proxy.files() and (known / "file").exists(), SOON), proxy.files())


def check_spoiled_history():
    """A history that is none is kept beside the new one, with a line, and the proxy starts; owner and mode stay."""
    text, owner, mode = "no history\n", 12_345, 0o600
    path, aside = OPTIONS.folder / "spoiled", OPTIONS.folder / "spoiled.not-history"
    path.write_text(text)
    path.chmod(mode)
    os.chown(path, owner, owner)
    with Proxy("--history", path) as proxy, serving(greet) as port:
        proxy.ask("four.test", port, ALL)
        must(aside.read_text() == text and f"kept as {aside}\n" in proxy.said(), proxy.said())
        must(comes(lambda: path.read_text().startswith(FOUR), SOON), path.read_text())
        there = path.stat()
    must((there.st_uid, there.st_gid, there.st_mode & 0o777) == (owner, owner, mode), there)


def check_mapped_client():
    """An IPv4 client of a socket of IPv6 has its own address in the log."""
    wide = unused_port()
    with Proxy("--listen", f"[::]:{wide}", "--allow", "192.0.2.0/24") as proxy, serving(greet) as port:
        with socket.create_connection((FOUR, wide), SOON) as client:
            socks(client, FOUR, port)
            all_of(client)
        must(comes(proxy.lines, SOON) and f" client={FOUR}:" in proxy.lines()[0], proxy.said())


def check_pages():
    """The configuration for browsers, and the page of the last races, are there for this machine under the proxy's own
    name alone."""
    with Proxy() as proxy, serving(greet) as port:
        proxy.ask("four.test", port, ALL)
        own = f"{FOUR}:{proxy.port}"
        for path, host, status, wanted in [
            ("/proxy.pac", own, 200, [f"SOCKS5 {own}"]), ("/", own, 200, ["four.test", "class='won'"]),
            ("/proxy.pac?x=1", own, 200, [f"SOCKS5 {own}"]), ("/", "evil.example", 501, []),
        ]:
            got = proxy.answer(f"GET {path} HTTP/1.1\r\nHost: {host}\r\n\r\n".encode())
            is_right = got.startswith(b"HTTP/1.1 %d " % status) and all(text.encode() in got for text in wanted)
            must(is_right, f"{path} of {host}: {got[:300]!r}")
