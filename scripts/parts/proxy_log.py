"""Connects through a built program's `he proxy`, and looks at what it keeps and says of the races: the log's lines,
also as a parser of JSON reads them, the records with their names and their removal, the page and the history.
"""
import contextlib
import json
import os
import pathlib
import re
import socket
import struct
import tempfile
import time
import unittest.mock
from concurrent.futures import ThreadPoolExecutor

import plain_accounts
import support
from parts.proxy import ALL, RECORD, SOON, Proxy, all_of, echo, socks
from support import DEAD_FOUR, DEAD_SIX, FOUR, OPTIONS, Zone, comes, greet, must, needs, run, serving, silent, timed, unused_port

HE = OPTIONS.program
SETUP = support.NETWORK
PAGE_RACES = 100  # on the page at most
MOST_REMOVED = 4  # records that one connection removes at most


def facts(line):
    """The facts of a line of text, of whose values none has a space."""
    return dict(word.split("=", 1) for word in line.split(" "))


def log_lines(proxy):
    """The lines of its log, as text or as JSON; not what it says of itself."""
    return [line for line in proxy.said().splitlines() if not line.startswith("he: ")]


def said_of(proxy, host, port):
    """The facts of the session that asks for this, which has ended."""
    before = len(proxy.lines())
    proxy.ask(host, port, ALL)
    must(comes(lambda: len(proxy.lines()) > before, SOON), f"{host}: no line: {proxy.said()!r}")
    return facts(proxy.lines()[-1])


def record_lines_of(proxy, said):
    """The record lines of the session's race but for the time of tick 0; the record passes `he check`, and replays."""
    record = (proxy.records / said["record"]).read_text()
    first, *lines = re.findall("(?m)^record (.*)$", record)
    checked = run(HE, "check", input=record)
    must(first == f"at {said['start']}" and checked.returncode == 0 and support.replayed(record), record, checked.stderr)
    return lines


# The log


@timed
def check_given_up():
    """A race whose client left is recorded up to there, logged with its time and what was tried, and shown: its record
    replays to the attempts that were made."""
    with Proxy() as proxy, serving(greet) as port:
        with proxy.connect(0.6) as client:
            with contextlib.suppress(TimeoutError):
                socks(client, "dead.test", port)
        must(comes(proxy.lines, SOON), f"no line: {proxy.said()!r}")
        found = re.search(r" host=dead\.test .* record=(\S+) names=0 ms=(\d+) tried=(\S+) .* end=client-left$",
                          proxy.lines()[0])
        must(found, proxy.said())
        record = (proxy.records / found[1]).read_text()
        transcript = support.replayed(record)
        attempts = support.attempts_of(transcript)
        must([address for _, address, _ in attempts] == found[3].split(","), transcript, found[3])
        must(len(attempts) == 2 and all(end == "cancelled" for *_, end in attempts), transcript)
        must(re.search(rf"limit.{found[2]}\b", record) and 500 <= int(found[2]) < 2000, record)
        said = re.findall("(?m)^record (?!at )(.*)$", record)
        must(said == [f"to dead.test {port}", f"from {FOUR}", f"gave-up {found[2]}"], record)
        must(support.run(HE, "check", input=record).returncode == 0, record)
        must(all(int(end) <= int(found[2]) for end in re.findall(r"(?m)^pause \d+ (\d+)$", record)), record)
        own = f"{FOUR}:{proxy.port}"
        page = proxy.answer(f"GET / HTTP/1.1\r\nHost: {own}\r\n\r\n".encode())
        must(b"dead.test" in page, f"not on the page: {page[-300:]!r}")


@timed
def check_facts():
    """A line says of a race what its record does: when it began, its file, when the first attempt did, the winner, its
    time, and what was lost of it."""
    with Proxy() as proxy, serving(greet) as port:
        for host in ("four.test", "dead6.test"):
            said = said_of(proxy, host, port)
            record = (proxy.records / said["record"]).read_text()
            transcript = support.replayed(record)
            attempts = support.attempts_of(transcript)
            must(said["winner"] == FOUR and int(said["names"]) == attempts[0][0], said, transcript)
            won = re.search(r"(?m)^won \d+ (\d+)", transcript) or re.search(r"won\D+(\d+)", transcript)
            lost = plain_accounts.lost(record)
            must((int(said["ms"]), int(said["lost"])) == (int(won[1]), lost), said, transcript)
            must((lost > 0) == (host == "dead6.test"), said, transcript)
            stamp = said["start"].replace("T", "/").replace(":", "-").removesuffix("Z")
            must(said["record"].startswith(f"{stamp}-{host}-{port}"), said)


@timed
def check_own_facts():
    """Of two sessions at once each has the facts of its own race in its line, whichever ends first."""
    with Proxy() as proxy, serving(echo) as port, proxy.connect() as first, proxy.connect() as second:
        for client, host in ((first, "four.test"), (second, "dead6.test")):
            must(socks(client, host, port) == 0, host, proxy.said())
        for number, client, host in ((1, second, "dead6.test"), (2, first, "four.test")):
            client.close()
            must(comes(lambda: len(proxy.lines()) == number, SOON), number, proxy.said())
            said = facts(proxy.lines()[-1])
            must(said["host"] == host and f"-{host}-{port}" in said["record"], host, said)


FAULTS = [  # what is asked for, the reply of SOCKS, and the word for it
    ("a..b", 4, "not-a-name"), ("refused.test", 5, "all-failed"),
    ("dead.test", 4, "timed-out"), ("203.0.113.9", 3, "no-network"), ("itself", 2, "forbidden"),
]


# The record lines of these races, after those of the target and the client.
WHY = {"refused.test": [f"attempt {FOUR} refused"], "dead.test": [], "203.0.113.9": ["attempt 203.0.113.9 unreachable"],
       "itself": [f"attempt {FOUR} forbidden"]}


@timed
def check_faults():
    """The word for a race that was lost says why, and the reply of SOCKS goes with it."""
    refused = unused_port()
    with Proxy("--timeout", 400) as proxy, silent(DEAD_SIX, refused), silent(DEAD_FOUR, refused):
        for host, code, word in FAULTS:
            target = {"refused.test": "four.test", "itself": FOUR}.get(host, host)
            port = proxy.port if host == "itself" else refused
            before = len(proxy.lines())
            found, _ = proxy.ask(target, port)
            must(comes(lambda: len(proxy.lines()) > before, SOON), f"{host}: no line")
            said = facts(proxy.lines()[-1])
            must((found, said["fault"], said["end"]) == (code, word, "refused"), host, found, said)
            if host in WHY:
                wanted = [f"to {target} {port}", f"from {FOUR}", *WHY[host]]
                must(record_lines_of(proxy, said) == wanted, host, record_lines_of(proxy, said))


@timed
def check_name_faults():
    """A look-up that fails is said by its cause."""
    for six_code, four_code, word in [(5, 5, "dns-refused"), (2, 2, "dns-failed"), (3, 3, "no-such-name"),
                                      (0, 0, "no-address")]:
        class Failing(Zone):
            def replies(self, query, _):
                code = six_code if support.kind_of(query) == support.AAAA else four_code
                return [(0, support.message(query, [], code))]

        with Failing() as zone, Proxy("--resolver", zone.at) as proxy:
            said = said_of(proxy, "some.test.", 80)
            must(said.get("fault") == word, word, said)
            why = word.removeprefix("dns-")
            server = [rf"server 127\.0\.0\.1 {why} \d{{1,3}}"] if six_code in (2, 5) else []
            wanted = ["to some\\.test\\. 80", f"from {FOUR}", f"lookup aaaa {why}", f"lookup a {why}", *server]
            lines = record_lines_of(proxy, said)
            must(len(lines) == len(wanted) and all(map(re.fullmatch, wanted, lines)), word, lines)
    with Proxy("--resolver", f"{FOUR}:{unused_port()}", "--timeout", 300) as proxy:
        said = said_of(proxy, "some.test.", 80)
        must(said.get("fault") in ("no-answer", "dns-failed"), said)


NAMES = [b'quote".test', b"back\\slash.test", b"line\nfeed.test", b"sp ace.test", b"tab\t.test", b"plain.test"]


def check_strange_names():
    """Whatever a client asks for, a session is one line, which a parser of JSON reads; in text a value that has a
    space, a quotation mark or a control character is a string."""
    for words in ((), ("--log-json",)):
        with Proxy(*words) as proxy:
            for name in NAMES:
                with proxy.connect(SOON) as client:
                    client.sendall(b"\5\1\0\5\1\0\3" + bytes([len(name)]) + name + struct.pack(">H", 80))
                    all_of(client)
            comes(lambda: len(log_lines(proxy)) >= len(NAMES), SOON)
            lines = log_lines(proxy)
            must(len(lines) == len(NAMES), words, lines)
            for line, name in zip(lines, NAMES):
                if words:
                    host = json.loads(line)["host"]
                    must(host in ("", name.decode()), line)
                else:
                    must(re.fullmatch(r'(\w+=("([^"\\]|\\.)*"|[^\s"\\]*) ?)+', line), line)


@timed
def check_begin_lines():
    """With --log-begin a race has a line when it begins, in the form of the log, without an end; it begins when the line of
    its session says so. A session without a race has none, and without the option there is none."""
    for words in (("--log-begin",), ("--log-begin", "--log-json"), ()):
        read = json.loads if "--log-json" in words else facts
        with Proxy(*words) as proxy, serving(echo) as port, proxy.connect() as client:
            must(socks(client, "four.test", port) == 0, proxy.said())
            lines = [read(line) for line in log_lines(proxy)]
            wanted = ["time", "client", "host", "port", "begin"]
            must([list(line) for line in lines] == [wanted] * (len(words) > 0), words, lines)
            proxy.answer(b"GET /proxy.pac HTTP/1.1\r\nHost: %s:%d\r\n\r\n" % (FOUR.encode(), proxy.port))
            proxy.ask("a..b", port)
            own = f"{FOUR}:{client.getsockname()[1]}"
            client.close()
            must(comes(lambda: len(log_lines(proxy)) == 3 + len(lines), SOON), words, proxy.said())
            *before, end = [read(line) for line in log_lines(proxy)]
            must(all("begin" not in line for line in [*before[len(lines):], end]), words, before, end)
            for begun in before[:len(lines)]:
                must((begun["client"], begun["host"], int(begun["port"])) == (own, "four.test", port), words, begun)
                must(begun["begin"] == end["start"] and begun["client"] == end["client"], words, begun, end)


@timed
def check_priorities():
    """With --log-journal each line begins with its priority, and is otherwise as without: a race without a connection is
    a warning, and so is a refused request; what cannot be kept is an error."""
    refused = unused_port()
    for words in ((), ("--log-json",)):
        with Proxy("--log-journal", *words) as proxy, serving(greet) as port:
            proxy.ask("four.test", port, ALL)
            proxy.ask("four.test", refused)
            proxy.answer(b"POST / HTTP/1.1\r\nHost: %s:%d\r\n\r\n" % (FOUR.encode(), proxy.port))
            proxy.answer(b"GET /proxy.pac HTTP/1.1\r\nHost: %s:%d\r\n\r\n" % (FOUR.encode(), proxy.port))
            run("rm", "-rf", proxy.records)
            proxy.records.write_text("no folder")
            proxy.ask("four.test", port, ALL)
            must(comes(lambda: "<3>" in proxy.said(), SOON), proxy.said())
            lines = proxy.said().splitlines()
            must(all(re.match(r"<[346]>(he: |time=|\{)", line) for line in lines), lines)
            places = [f"<6>he: listening at {FOUR}:{proxy.port}"] if not words else []
            must([line for line in lines if "listening" in line] == places, lines)
            sessions = [line for line in lines if not line[3:].startswith("he: ")]
            must([line[:3] for line in sessions] == ["<6>", "<4>", "<4>", "<6>", "<6>"], sessions)
            must([line[:3] for line in lines if "cannot keep records" in line] == ["<3>"], lines)
            for line in sessions:
                must((json.loads if words else facts)(line[3:])["end"] in ("closed", "refused", "page"), line)


# A request, its status, and the method, the target and the end that its line has in the log.
REQUESTS = (
    (b"GET /proxy.pac?x=1 HTTP/1.1", b"200", "GET", "/proxy.pac?x=1", "page"),
    (b"HEAD /proxy.pac HTTP/1.1", b"200", "HEAD", "/proxy.pac", "page"),
    (b"GET /no/page HTTP/1.1", b"501", "GET", "/no/page", "page"),
    (b"GET https://example.org/ HTTP/1.1", b"501", "GET", "https://example.org/", "page"),
    (b"POST / HTTP/1.1", b"501", "POST", "/", "refused"),
    (b"BREW /%s HTTP/1.1" % (b"x" * 300), b"501", "BREW", "/" + "x" * 255, "refused"),
    (b'GET /a"b\\c HTTP/1.1', b"501", "GET", '/a"b\\c', "page"),
    (b"GET /\xff HTTP/1.1", b"400", "GET", "/\ufffd", "refused"),
)


def check_target():
    """A page that is asked for, and a request that is refused, has its line with the method and the target; a refusal
    has its fault, by its status."""
    for words in ((), ("--log-json",)):
        with Proxy(*words) as proxy:
            for line, status, *_ in REQUESTS:
                got = proxy.answer(line + b"\r\nHost: %s:%d\r\n\r\n" % (FOUR.encode(), proxy.port))
                must(got.split(b" ", 2)[1] == status, line, got[:80])
            must(comes(lambda: len(log_lines(proxy)) == len(REQUESTS), SOON), proxy.said())
            for line, (_, status, method, target, end) in zip(log_lines(proxy), REQUESTS):
                fault = {b"400": "address-kind", b"501": "command"}[status] if end == "refused" else None
                if words:
                    read = json.loads(line)
                    must((read["method"], read["target"], read["end"]) == (method, target, end), line)
                    must(read.get("fault") == fault, line)
                else:
                    plain = json.dumps(target) if re.search(r'["\\]', target) else target
                    said = f" fault={fault}" if fault else ""
                    must(f" method={method} target={plain}{said} sent=" in line and line.endswith(f" end={end}"), line)


# The records


# Has the time of day go by whole seconds, so that many races begin in one millisecond of it.
COARSE = """
#include <sys/syscall.h>
#include <time.h>
#include <unistd.h>
int clock_gettime(clockid_t clock, struct timespec *now)
{
    int end = syscall(SYS_clock_gettime, clock, now);
    if (clock == CLOCK_REALTIME)
        now->tv_nsec = 0;
    return end;
}
"""


@timed
def check_twins():
    """Races of one host that begin in one millisecond have a record each, and none replaces another."""
    needs("cc")
    library = OPTIONS.folder / "coarse.so"
    run("cc", "-shared", "-fPIC", "-o", library, "-xc", "-", input=COARSE, check=True)
    count = 30
    with unittest.mock.patch.dict(os.environ, LD_PRELOAD=str(library)), Proxy() as proxy, serving(greet) as port:
        with ThreadPoolExecutor(count) as pool:
            list(pool.map(lambda _: proxy.ask("four.test", port, ALL), range(count)))
        names = [str(path.relative_to(proxy.records)) for path in proxy.files()]
        must(len(names) == count and all(RECORD.fullmatch(name) for name in names), len(names), names)
        must(any(name.endswith(f".000-four.test-{port}-2.timeline") for name in names), names)
        comes(lambda: len(proxy.lines()) == count, SOON)
        must(sorted(facts(line)["record"] for line in proxy.lines()) == sorted(names), proxy.said(), names)


def check_trims_few():
    """One connection removes a few records at most, the oldest first, until as many are left as are kept."""
    earlier = [f"2001-01-0{day}/00-00-{n:02}.000-a-1.timeline" for day in (1, 2) for n in range(10)]
    with Proxy("--max-records", 5, earlier=earlier) as proxy, serving(greet) as port:
        left = earlier
        for so_far in range(1, 12):
            proxy.ask(FOUR, port, ALL)
            old = lambda: [str(path.relative_to(proxy.records)) for path in proxy.files() if "2001" in str(path)]
            comes(lambda: len(proxy.files()) - len(old()) == min(so_far, 5) and old() == left[MOST_REMOVED:], 0.3)
            now = old()
            must(now == left[len(left) - len(now):] and len(left) - len(now) <= MOST_REMOVED, so_far, left, now)
            left = now
        must(comes(lambda: len(proxy.files()) == 5, SOON) and not left, proxy.files())


# The page


class Sections(list):
    """The names of the races on a page, from the first to the last."""

    def __init__(self, page):
        super().__init__(re.findall(r"<h2[^>]*>([^<]*)</h2>", page.decode()))


@timed
def check_page():
    """The page has the last hundred races, the newest first, at every place where the proxy listens, each with what its
    record says."""
    other = unused_port()
    with Proxy("--listen", f"{FOUR}:{other}") as proxy, serving(greet) as port:
        for _ in range(PAGE_RACES + 5):
            proxy.ask(FOUR, port, ALL)
        must(comes(lambda: len(proxy.lines()) == PAGE_RACES + 5, SOON), len(proxy.lines()))
        names = [f"{FOUR} port {port}, {facts(line)['start']}" for line in proxy.lines()]
        for place in (proxy.port, other):
            with socket.create_connection((FOUR, place), SOON) as client:
                client.sendall(f"GET / HTTP/1.1\r\nHost: {FOUR}:{place}\r\n\r\n".encode())
                page = all_of(client)
            shown, said = Sections(page), page.count(f"<small>{FOUR}:{port} for {FOUR}, ".encode())
            must(said == PAGE_RACES, place, said, "races with the host and port of their record")
            must(len(shown) == PAGE_RACES and shown == sorted(names, key=lambda name: name[-24:])[:4:-1], place, len(shown),
                 shown[:3], names[-3:])


# The history


@timed
def check_silent_address():
    """An address that was known and is silent is forgotten, as one that fails is, and one that was not tried for as
    long as a connection to it took is not."""
    known, other = "127.0.0.3", "127.0.0.2"
    with tempfile.TemporaryDirectory() as folder, Zone(other, known, ttl=0) as zone:
        path, port, now = pathlib.Path(folder, "known"), unused_port(), int(time.time())
        for rtt, is_kept in ((7, False), (2_000, True)):
            path.write_text(f"{known} {FOUR} {rtt} {now}\n")
            with Proxy("--resolver", zone.at, "--history", path) as proxy, silent(known, port), \
                    support.listener_at(other, port) as server:
                must(proxy.ask("two.test.", port, seconds=SOON)[0] == 0, proxy.said())
                must(comes(lambda: f"{other} " in path.read_text(), SOON), path.read_text())
                must((f"{known} " in path.read_text()) == is_kept, rtt, path.read_text())


def check_spoiled_again():
    """The text of a file that is no history never takes the place of one that is kept so already."""
    path = OPTIONS.folder / "again"
    for text, aside in (("one\n", "again.not-history"), ("two\n", "again.not-history-2")):
        path.write_text(text)
        with Proxy("--history", path) as proxy:
            must(comes(lambda: f" {OPTIONS.folder / aside}\n" in proxy.said(), SOON), aside, proxy.said())
            must((OPTIONS.folder / aside).read_text() == text, aside)
    must((OPTIONS.folder / "again.not-history").read_text() == "one\n", "the first one is replaced")


def check_empty_names():
    """An empty name of a file or a directory is refused with the option's name."""
    for option in ("--history", "--record"):
        done = support.run(HE, "proxy", "--listen", f"{FOUR}:{unused_port()}", option, "", timeout=SOON)
        must(done.returncode in (1, 2) and done.stderr.startswith("he: ") and option in done.stderr, option, done.stderr)
