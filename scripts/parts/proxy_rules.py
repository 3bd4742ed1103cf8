"""Connects through a built program's `he proxy` with rules for what its clients may reach (--to, --not-to): the first
rule that fits decides, by the name and the port before anything is looked up, and by each address of a name.

needs: what parts/proxy.py needs; for a client of another machine what parts/proxy_strangers.py needs
"""
import contextlib
import functools
import json
import struct

import support
from parts import proxy_strangers
from parts.proxy import SOON, Proxy, all_of, get, head_of, socks, tunnel
from support import (FOUR, OPTIONS, SIX, NameServer, addresses, comes, greet, kind_of, message, must, serving,
                     unused_port)

HE = OPTIONS.program
SETUP = support.NETWORK
LIMIT = "5000"  # milliseconds of a race, of which each row needs a few
SERVED, FORBIDDEN, REFUSED = 0, 2, 5  # replies of SOCKS 5
OTHER = "127.0.0.2"  # of this machine too; no name has it

# Rules, a host, and the reply; PORT is that of a server at all addresses of this machine, NEXT the next one.
ROWS = [
    # the first that fits decides, whichever option it is of
    ("--to .test --not-to four.test", "four.test", SERVED),
    ("--not-to four.test --to .test", "four.test", FORBIDDEN),
    ("--not-to four.test --to .test", "both.test", SERVED),
    ("--to four.test --not-to .test", "four.test", SERVED),
    ("--to four.test --not-to .test", "both.test", FORBIDDEN),
    ("--not-to 127.0.0.2 --to 127.0.0.0/8 --not-to 127.0.0.1", FOUR, SERVED),
    ("--not-to 127.0.0.2 --to 127.0.0.0/8 --not-to 127.0.0.1", OTHER, FORBIDDEN),
    # none fits
    ("", FOUR, SERVED),
    ("--not-to both.test", "four.test", SERVED),
    ("--not-to 192.0.2.0/24 --not-to :1", FOUR, SERVED),
    ("--to both.test", "four.test", FORBIDDEN),
    ("--not-to both.test --to :1", "four.test", FORBIDDEN),
    # names: a host alone, or with all below it; neither the case nor a dot at the end matters
    ("--not-to test", "four.test", SERVED),
    ("--not-to .test", "four.test", FORBIDDEN),
    ("--not-to .four.test", "four.test", FORBIDDEN),
    ("--not-to Four.TEST.", "four.test", FORBIDDEN),
    ("--not-to four.test", "FOUR.test.", FORBIDDEN),
    ("--not-to .TEST.", "fOUR.Test", FORBIDDEN),
    ("--not-to our.test --not-to .our.test", "four.test", SERVED),
    ("--not-to .r.test --not-to t --not-to .t", "four.test", SERVED),
    # a name's rule says nothing of its address, nor of names that have it too
    ("--not-to four.test", FOUR, SERVED),
    ("--not-to four.test", "both.test", SERVED),
    ("--to four.test", FOUR, FORBIDDEN),
    # ports
    ("--to :PORT", "four.test", SERVED),
    ("--to :NEXT", "four.test", FORBIDDEN),
    ("--not-to :1-PORT", "four.test", FORBIDDEN),
    ("--not-to :NEXT-65535", "four.test", SERVED),
    ("--not-to .test:PORT", "four.test", FORBIDDEN),
    ("--not-to .test:NEXT", "four.test", SERVED),
    ("--not-to 127.0.0.0/8:NEXT", FOUR, SERVED),
    ("--not-to 127.0.0.0/8:PORT-NEXT", FOUR, FORBIDDEN),
    ("--not-to [2001:db8:1e::/64]:PORT", SIX, FORBIDDEN),
    ("--not-to [2001:db8:1e::/64]:NEXT", SIX, SERVED),
    # networks, by each address: one that is refused is not tried
    ("--not-to 127.0.0.1", "four.test", FORBIDDEN),
    ("--not-to 2001:db8:1e::/64", "six.test", FORBIDDEN),
    ("--not-to 2001:db8:1e::/64", "both.test", SERVED),
    ("--to 127.0.0.0/8", "both.test", SERVED),
    ("--to 2001:db8:1e::1", "both.test", SERVED),
    ("--not-to 127.0.0.0/8 --not-to 2001:db8:1e::/64", "both.test", FORBIDDEN),
    ("--to 192.0.2.0/24", "both.test", FORBIDDEN),
    # an IPv4 address in an IPv6 one
    ("--not-to 127.0.0.0/8", "::ffff:127.0.0.1", FORBIDDEN),
    ("--not-to 127.0.0.0/8", "64:ff9b::7f00:1", FORBIDDEN),
    ("--not-to 127.0.0.0/8", "2002:7f00:1::1", FORBIDDEN),
    ("--to 127.0.0.0/8", "::ffff:127.0.0.1", SERVED),
]


def check_rules():
    """Each row of rules has its reply, to a client of this machine."""
    with proxy_strangers.serving_everywhere() as port:
        for rules, host, wanted in ROWS:
            words = rules.replace("PORT", str(port)).replace("NEXT", str(port + 1)).split()
            with Proxy("--timeout", LIMIT, *words) as proxy:
                code = proxy.ask(host, port)[0]
                must(code == wanted, f"{words}, {host}: {code}, not {wanted}", proxy.said())


def check_winner():
    """Of a name with an address that is refused, another one wins, and no packet goes to the first."""
    for refused, winner in (("2001:db8:1e::/64", FOUR), ("127.0.0.0/8", SIX)):
        with serving(greet, winner) as port, Proxy("--not-to", refused) as proxy:
            must(proxy.ask("both.test", port, 6) == (SERVED, b"hello\n"), refused, proxy.said())
            must(comes(lambda: len(proxy.lines()) == 1, SOON), refused, proxy.said())
            must(f" winner={winner} " in proxy.lines()[0], refused, proxy.lines())
    with contextlib.ExitStack() as held:
        listener = held.enter_context(support.listener_at(SIX))
        listener.settimeout(1)
        proxy = held.enter_context(Proxy("--not-to", SIX))
        must(proxy.ask("six.test", listener.getsockname()[1])[0] == FORBIDDEN, proxy.said())
        with contextlib.suppress(TimeoutError):
            listener.accept()
            must(False, "a refused address is connected to")


def check_replies():
    """A refusal is code 2 in SOCKS 5, 91 in SOCKS 4, and 403 in HTTP, with a line of text; the log has `forbidden`."""
    for rule in ("four.test", "127.0.0.0/8"):  # before the look-up, and after it
        with Proxy("--not-to", rule) as proxy, Proxy("--not-to", rule, "--log-json") as other:
            with proxy.connect() as client:
                must(socks(client, "four.test", 1) == FORBIDDEN, rule)
            with proxy.connect() as client:
                client.sendall(struct.pack(">BBH", 4, 1, 1) + b"\0\0\0\7\0four.test\0")
                must(get(client, 8) == b"\0\x5b" + bytes(6), rule)
            with proxy.connect() as client:
                must(tunnel(client, "four.test", 1) == 403, rule)
            with proxy.connect() as client:
                client.sendall(b"GET http://four.test:1/ HTTP/1.1\r\nHost: four.test:1\r\n\r\n")
                status, head = head_of(client)
                must(status == 403 and b"no connection to that target" in all_of(client), rule, head)
            must(comes(lambda: len(proxy.lines()) == 4, SOON), rule, proxy.said())
            for line in proxy.lines():
                must(" fault=forbidden " in line and " end=refused" in line, rule, line)
            must(other.ask("four.test", 1)[0] == FORBIDDEN, rule)
            must(comes(lambda: '"fault":"forbidden"' in other.said(), SOON), rule, other.said())
            line = json.loads(next(line for line in other.said().splitlines() if line.startswith("{")))
            must(line["host"] == "four.test", line)


class Counting(NameServer):
    """A name server that has one IPv4 address for each name."""

    def replies(self, query, _):
        return [(0, message(query, addresses(kind_of(query), FOUR)))]


def check_unasked():
    """Nothing is looked up where the name or the port decides; it is where only an address can."""
    rows = [("--not-to .refused.example", "a.refused.example", 9, FORBIDDEN, False),
            ("--not-to .refused.example", "refused.example.", 9, FORBIDDEN, False),
            ("--not-to :9", "a.example", 9, FORBIDDEN, False),
            ("--to .example", "a.example.org", 9, FORBIDDEN, False),
            ("--to :80", "a.example", 9, FORBIDDEN, False),
            ("--not-to 10.0.0.0/8 --not-to .example", "a.example", 9, FORBIDDEN, False),
            ("--to 192.0.2.0/24:80 --to .org", "a.example", 9, FORBIDDEN, False),
            ("--not-to 127.0.0.0/8", "a.example", 9, FORBIDDEN, True),
            ("--to 192.0.2.0/24 --not-to .example", "a.example", 9, FORBIDDEN, True)]
    for rules, host, port, wanted, is_asked in rows:
        with Counting(FOUR) as server, Proxy("--resolver", server.at, *rules.split()) as proxy:
            code = proxy.ask(host, port)[0]
            must(code == wanted and bool(server.seen) == is_asked, rules, host, code, server.seen, proxy.said())


def check_strangers():
    """--to does not open what a client of another machine may not reach, and --not-to closes what it may."""
    with proxy_strangers.Stranger() as stranger, proxy_strangers.serving_everywhere() as port, \
            stranger.serving() as far:
        near, there = proxy_strangers.NEAR, proxy_strangers.FAR
        allowed = "--allow", "11.0.0.0/24", "--timeout", LIMIT
        with Proxy(*allowed, "--to", "11.0.0.0/24", "--to", "127.0.0.0/8", at=near) as proxy:
            proxy_strangers.must_reply(functools.partial(stranger.asks, proxy), [
                (there, far, SERVED), (near, port, FORBIDDEN), (FOUR, port, FORBIDDEN), ("11.0.1.9", port, FORBIDDEN)])
        with Proxy(*allowed, "--not-to", there, at=near) as proxy:
            proxy_strangers.must_reply(functools.partial(stranger.asks, proxy), [(there, far, FORBIDDEN)])
        with Proxy(*allowed, "--allow-private", "--not-to", near, at=near) as proxy:
            proxy_strangers.must_reply(functools.partial(stranger.asks, proxy), [
                (near, port, FORBIDDEN), (FOUR, port, SERVED)])


def check_itself():
    """No rule opens the proxy itself."""
    port = unused_port()
    with Proxy("--to", "127.0.0.0/8") as proxy:
        must(proxy.ask(FOUR, proxy.port)[0] == FORBIDDEN, proxy.said())
        must(proxy.ask(FOUR, port)[0] == REFUSED, proxy.said())


# Texts that are no rule.
NO_RULES = ("", ":", ":0", ":65536", ":9-8", ":80-", ":-80", ":080", ":http", "192.0.2.1/24", "192.0.2.0/33", "192.0.2",
            "192.0.2.300", "10/8", "2001:db8::/32:443", "2001:db8::1/32", "[2001:db8::]/32:443", "[2001:db8::/32",
            "[example.com]", "[]:80", "*", "*.example.com", "..example.com", "example..com", ".", "example.com:",
            "example.com:80:90", "exa mple.com", "http://example.com", "bücher.example")


def check_words():
    """A text that is no rule is a usage error, which says what one is."""
    for option in ("--to", "--not-to"):
        for text in NO_RULES:
            done = support.run(HE, "proxy", "--listen", f"{FOUR}:{unused_port()}", f"{option}={text}", timeout=SOON)
            must(done.returncode == 2 and f"'{option} <RULE>'" in done.stderr, option, text, done)
