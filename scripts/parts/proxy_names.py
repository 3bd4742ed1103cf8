"""Connects through a built program's `he proxy` by names, and looks at what it keeps: answers of name servers, by the
queries that these see, and what is known of addresses.
"""
import contextlib
import pathlib
import re
import tempfile
import threading
import time
from concurrent.futures import ThreadPoolExecutor

import support
from parts.proxy import HE, SOON, Proxy, destination, socks
from parts.proxy_log import facts, record_lines_of
from support import FOUR, SIX, Zone, comes, greet, must, serving, timed, unused_port

SETUP = support.NETWORK


@timed
def check_kept_answers():
    """Answers of name servers serve later races for their TTL; that there is no such name does so for 5 seconds."""
    with Zone() as zone, Proxy("--resolver", zone.at) as proxy, serving(greet) as port:
        def reach(name, wanted, queries):
            code, _ = proxy.ask(f"{name}.test.", port, seconds=SOON)
            must(code == wanted, f"{name}: {code}, not {wanted}: {proxy.said()!r}")
            # (that there is no such name is known by the first of both answers)
            if queries is not None:
                comes(lambda: zone.asked(name) >= queries, SOON)
                must(zone.asked(name) == queries, f"{name}: {zone.asked(name)} queries, not {queries}")

        for name, wanted, queries in (("minute", 0, 2), ("none", 0, 6), ("lacks", 4, 2)):
            for so_far in (None, None, queries):
                reach(name, wanted, so_far)
        last = proxy.files()[-1].read_text()
        time.sleep(5.5)
        reach("lacks", 4, 4)
    must("exhausted" in support.run(HE, "replay", input=last).stdout, f"a record: {last!r}")


class Lacking(Zone):
    """A zone that answers after 300 ms; `lacks` is no name, `empty` has no address, and `four` none for IPv6."""

    def replies(self, query, stream):
        label, is_six = support.labels_of(query)[0], support.kind_of(query) == support.AAAA
        is_empty = label == "empty" or label == "four" and is_six
        replies = [(0, support.message(query, []))] if is_empty else super().replies(query, stream)
        return [(0.3, reply) for _, reply in replies]


NONE = b"the host has no address that could be reached: "
LACKS = [  # a name, how the reply ends, the word of the log and of the record, and the families that lack an address
    ("lacks", NONE + b"no such name\n", "no-such-name", ["aaaa", "a"]),
    ("empty", NONE + b"the name has no address\n", "no-address", ["aaaa", "a"]),
    ("four", b"hello\n", "no-address", ["aaaa"]),
]


def must_give_reasons(proxy, port, tried, rows):
    """A race that asks for each name, one that waits for it, and a later one all give the reason of this row, and that
    a family was not asked for."""
    for name, end, word, lacking in rows:
        begun, request = len(proxy.lines()), f"CONNECT {name}.test.:{port} HTTP/1.1\r\n\r\n".encode()
        with ThreadPoolExecutor(2) as pool:
            answers = list(pool.map(proxy.answer, [request] * 2))
        answers.append(proxy.answer(request))
        must(all(answer.endswith(end) for answer in answers), f"{name}: {answers}")
        must(comes(lambda: len(proxy.lines()) == begun + 3, SOON), f"{name}: {proxy.said()!r}")
        for said in map(facts, proxy.lines()[begun:]):
            must(said.get("fault") == (word if end.startswith(NONE) else None), f"{name}: {said}")
            lines = [line for line in record_lines_of(proxy, said) if line.startswith("lookup ")]
            must(lines == [f"lookup {family} {word if family in tried else 'not-asked'}" for family in ("aaaa", "a")
                           if family in lacking or family not in tried], f"{name}: {lines}")


@timed
def check_kept_reasons():
    """Why a name has no address is kept like an address, and is in the reply, in the log and in the record of each
    client that asks for the name meanwhile, also if only one family is tried."""
    for options, tried, rows in ((), ["aaaa", "a"], LACKS), (["-6"], ["aaaa"], LACKS[:2]), (["-4"], ["a"], LACKS[:2]):
        with Lacking() as zone, Proxy("--resolver", zone.at, *options) as proxy, serving(greet) as port:
            must_give_reasons(proxy, port, tried, rows)
            asked = [zone.asked(name) for name, *_ in rows]
            must(asked == [len(tried)] * len(rows), f"queries: {asked}")


@timed
def check_ttl():
    """An answer is kept no longer than its TTL."""
    with Zone(ttl=1) as zone, Proxy("--resolver", zone.at) as proxy, serving(greet) as port:
        for wait, queries in ((0, 2), (2.1, 4)):
            time.sleep(wait)
            proxy.ask("short.test.", port, seconds=SOON)
            must(zone.asked("short") == queries, f"{zone.asked('short')} queries, not {queries}")


def check_shared_label():
    """No host gets what is kept of another one, though their first labels are the same."""
    with Zone() as zone, Proxy("--resolver", zone.at) as proxy, serving(greet) as port:
        for so_far, name in enumerate(("same.one.test.", "same.two.test.", "same.test."), 1):
            for _ in range(2):
                proxy.ask(name, port, seconds=SOON)
            must(zone.asked("same") == 2 * so_far, f"{name}: {zone.asked('same')} queries, not {2 * so_far}")


def check_ids():
    """The ids of queries are drawn from all 16 bits (RFC 5452 section 4.3)."""
    count = 40
    with Zone() as zone, Proxy("--resolver", zone.at) as proxy, ThreadPoolExecutor(count) as pool:
        list(pool.map(lambda number: proxy.ask(f"id{number}.test.", 9, seconds=SOON), range(count)))
        ids = [int.from_bytes(query[:2], "big") for _, query, _ in zone.seen]
    must(len(ids) == 2 * count and len(set(ids)) > len(ids) - 5, sorted(ids))
    for bit in range(16):
        must(0 < sum(number >> bit & 1 for number in ids) < len(ids), f"bit {bit} is the same in each id")


class Slow(Zone):
    """A zone that answers after 300 ms; `half` has no answer for IPv4."""

    def replies(self, query, stream):
        is_told = support.labels_of(query)[0] != "half" or support.kind_of(query) == support.AAAA
        return [(0.3, reply) for _, reply in super().replies(query, stream) if is_told]


@timed
def check_shared_look_ups():
    """Races that begin while another one asks for their host wait for its answers: name servers see two queries. Where
    that one goes away, or gets what isn't kept, the others ask themselves, all at once."""
    with Slow() as zone, Proxy("--resolver", zone.at) as proxy, serving(greet) as port, serving(greet, SIX) as six:
        def reach(name, port=port):
            began = time.monotonic()
            must(proxy.ask(f"{name}.test.", port, seconds=SOON)[0] == 0, f"{name} is not reached")
            return time.monotonic() - began

        def reach_at_once(name):
            with ThreadPoolExecutor(20) as pool:
                return list(pool.map(reach, [name] * 20))

        with ThreadPoolExecutor(8) as pool:  # (a look-up waits for none of another host)
            took = list(pool.map(reach, [f"other{number}" for number in range(8)]))
        must(sorted(took)[1] < 0.55, f"look-ups of several hosts at once: {took}")
        reach_at_once("minute")
        must(zone.asked("minute") == 2, f"{zone.asked('minute')} queries of 20 races at once, not 2")
        took = reach_at_once("none")
        must(max(took) < 2, f"an answer that isn't kept: {took}")
        with proxy.connect(SOON) as first:
            first.sendall(b"\5\1\0\5\1\0" + destination("hour.test.", port))
            time.sleep(0.1)
            threading.Timer(0.1, first.close).start()
            took = reach("hour")
        must(took < 2, f"the race that asked went away: {took}")
        with proxy.connect(SOON) as first:
            code, took = socks(first, "half.test.", six), reach("half", six)
        must(code == 0 and took < 2, f"a race after one that was won without IPv4: {code}, {took}")


TWO = ["127.0.0.2", "127.0.0.3"]  # of this machine, which its kernel reaches from 127.0.0.1


def check_history():
    """Of addresses that the rules leave alike the one that is known goes first, where that counts, and its record says
    so. The file has what was seen; a wrong line of it is passed over."""
    with tempfile.TemporaryDirectory() as folder, Zone(*TWO, ttl=0) as zone, contextlib.ExitStack() as servers:
        path, port, now = pathlib.Path(folder, "known"), unused_port(), int(time.time())

        def race(proxy):
            """The address that won, and the record."""
            must(proxy.ask("two.test.", port, seconds=SOON)[0] == 0, "two.test is not reached")
            record = proxy.files()[-1].read_text()
            return re.search(r" (\S+) won", support.run(HE, "replay", input=record).stdout)[1], record

        def proxy_of(text):
            path.write_text(text)
            return Proxy("--resolver", zone.at, "--history", path)

        for ip in TWO:
            servers.enter_context(server := support.listener_at(ip, port))
        for text, wanted in [("", TWO[0]), (f"{TWO[1]} {FOUR} 7 {now}\n", TWO[1]),
                             (f"{TWO[1]} 127.0.0.8 7 {now}\n", TWO[0]),
                             (f"{TWO[1]} {FOUR} 7 {now - 90_000}\n", TWO[0])]:
            with proxy_of(text) as proxy:
                won, record = race(proxy)
                must(won == wanted, f"{text!r}: {won} won, not {wanted}")
                must((f"rtt {TWO[1]} 7\n" in record) == (wanted == TWO[1]), f"{text!r}: {record!r}")
                must(re.match(rf"{wanted} {FOUR} \d+ \d+\n", path.read_text()), f"{text!r}: {path.read_text()!r}")
        with proxy_of(f"{TWO[1]} {FOUR} 7 {now}\n{TWO[0]} {FOUR}\n") as proxy:
            must(support.comes(lambda: "line 2 " in proxy.said()), f"a wrong line: {proxy.said()!r}")
            must(path.read_text() == f"{TWO[1]} {FOUR} 7 {now}\n", f"a wrong line: {path.read_text()!r}")
            server.close()
            must(race(proxy)[0] == TWO[0], "a refused address won")
            must(re.fullmatch(rf"{TWO[0]} {FOUR} \d+ \d+\n", path.read_text()), f"a refused one: {path.read_text()!r}")


