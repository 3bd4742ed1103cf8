"""Connects through a built program's `he proxy`, and looks at its metrics and its page of health: the form of the text,
by a strict reader of OpenMetrics 1.0; the counts, against what was done and what the log says; and who gets them.

needs: for one check promtool (of Prometheus), for another the Python package prometheus_client.
"""
import collections
import contextlib
import fcntl
import os
import re
import select
import shutil
import socket
import subprocess
import time
from concurrent.futures import ThreadPoolExecutor

import support
from parts.proxy import ALL, SOON, Proxy, all_of, echo, socks
from parts.proxy_log import facts, log_lines
from parts.proxy_names import Slow
from parts.proxy_strangers import NEAR, Stranger
from support import (DEAD_FOUR, DEAD_SIX, FOUR, SIX, TIMEOUT, NotTried, comes, greet, must, run, serving, silent,
                     timed, unused_port)

SETUP = support.NETWORK
MEDIA = b"application/openmetrics-text; version=1.0.0; charset=utf-8"
ENDINGS = {"counter": ("_total",), "gauge": ("",), "histogram": ("_bucket", "_count", "_sum")}
ENDS = ("closed client_broke server_broke idle client_left displaced too_late refused no_response page unknown_protocol "
        "no_memory").split()
LOSSES = ("client_left forbidden all_failed timed_out unreachable no_network no_descriptor not_a_name no_such_name "
          "no_address no_answer dns_refused dns_failed proxy_failed").split()
OF_NO_RACE = ("command", "address-kind", "coding", "no-user")  # the log's faults of refused requests
NUMBER = r"0|[1-9][0-9]*"
SAMPLE = re.compile(rf'([a-z_]+)(?:\{{([a-z]+="[^"\\\n]*"(?:,[a-z]+="[^"\\\n]*")*)\}})? (({NUMBER})(?:\.[0-9]{{3}})?)')
LABEL = re.compile(r'([a-z]+)="([^"]*)"')

# The text, read strictly


class Metrics(dict):
    """The samples of a text, by the metric's name with its ending and its labels; it must be OpenMetrics 1.0 as he writes
    it: each metric has its type and its help before its samples, which are together, and the text its end."""

    def __init__(self, text):
        super().__init__()
        must(text.endswith("\n# EOF\n"), text[-100:])
        self.kinds, metric, about = {}, None, {}
        for line in text.removesuffix("# EOF\n").splitlines():
            found = re.fullmatch(r"# (TYPE|HELP|UNIT) ([a-z_]+) (.+)", line)
            if found:
                word, name, said = found.groups()
                if name != metric:
                    must(word == "TYPE" and name not in self.kinds and said in ENDINGS, line)
                    metric, about = name, {}
                    self.kinds[name] = said
                must(word not in about and self.of(metric) == {}, line)
                about[word] = said
                must(word != "UNIT" or name.endswith("_" + said), line)
                continue
            found = SAMPLE.fullmatch(line)
            must(found and metric and "HELP" in about, line)
            name, labels, value, _ = found.groups()
            ending = name.removeprefix(metric)
            must(name.startswith(metric) and ending in ENDINGS[self.kinds[metric]], line)
            must(("." in value) == (ending == "_sum"), line)
            must(("UNIT" in about) == (self.kinds[metric] == "histogram"), line)
            key = name, *sorted(LABEL.findall(labels or ""))
            must(key not in self, line)
            self[key] = float(value)
        for name in [name for name, kind in self.kinds.items() if kind == "histogram"]:
            self.must_be_cumulative(name)

    def of(self, metric):
        """The samples of a metric."""
        return {key: value for key, value in self.items()
                if key[0].removeprefix(metric) in ENDINGS[self.kinds[metric]] and key[0].startswith(metric)}

    def must_be_cumulative(self, name):
        buckets = [(key[1][1], value) for key, value in self.items() if key[0] == name + "_bucket"]
        bounds, counts = zip(*buckets)
        must(list(bounds) == sorted(bounds, key=float) and bounds[-1] == "+Inf", bounds)
        must(all(bound == repr(float(bound)) for bound in bounds[:-1]), bounds)  # canonical numbers
        must(list(counts) == sorted(counts) and counts[-1] == self[name + "_count", ], buckets)

    def count(self, name, **labels):
        """The value of a sample."""
        return self[name, *sorted(labels.items())]

    def counts(self, name, label):
        """The values of a counter by a label of it."""
        return {dict(key[1:])[label]: value for key, value in self.items() if key[0] == name + "_total" and len(key) == 2}


def answered(proxy, path, method="GET", host=None, at=FOUR):
    """The response of the proxy to a request for a page: its head and its body."""
    host = host or f"{at}:{proxy.port}"
    got = proxy.answer(f"{method} {path} HTTP/1.1\r\nHost: {host}\r\n\r\n".encode())
    head, _, body = got.partition(b"\r\n\r\n")
    return head, body


def text_of(proxy):
    head, body = answered(proxy, "/metrics")
    must(head.startswith(b"HTTP/1.1 200 ") and b"\r\nContent-Type: %s\r\n" % MEDIA in head, head)
    return body.decode()


def metrics_of(proxy):
    return Metrics(text_of(proxy))


# The checks


def check_form():
    """Its text is read by a strict reader, has all names from the first moment, each with 0, but for the session that
    asks for it."""
    with Proxy() as proxy:
        metrics = metrics_of(proxy)
        must(sorted(metrics.counts("he_sessions_ended", "end")) == sorted(ENDS), metrics)
        must(sorted(metrics.counts("he_races", "result")) == sorted(LOSSES), metrics)
        others = {key: value for key, value in metrics.items() if value}
        must(others == {("he_sessions_total",): 1, ("he_sessions_open",): 1}, others)


def check_promtool():
    """promtool reads the text. It knows an older format, in which counters have other names, so that it misses their
    help, and nothing else."""
    if not shutil.which("promtool"):
        raise NotTried("no promtool")
    with Proxy() as proxy:
        done = run("promtool", "check", "metrics", input=text_of(proxy))
        wrong = [line for line in done.stderr.splitlines() if not line.endswith("_total no help text")]
        must(done.returncode in (0, 3) and not wrong, done.returncode, done.stderr)


def check_parser():
    """prometheus_client, which reads OpenMetrics, has the samples of the strict reader."""
    try:
        from prometheus_client.openmetrics.parser import text_string_to_metric_families
    except ImportError as error:
        raise NotTried("no prometheus_client") from error
    with Proxy() as proxy, serving(greet) as port:
        proxy.ask("four.test", port, ALL)
        text = text_of(proxy)
        read = {(sample.name, *sorted(sample.labels.items())): sample.value
                for metric in text_string_to_metric_families(text) for sample in metric.samples}
        must(read == Metrics(text), read)


def ask_all(proxy, port, six, refused):
    """Sessions of all kinds that need no wait; how many of each end and of each result there are."""
    own = f"{FOUR}:{proxy.port}".encode()
    for host, at, times in (("four.test", port, 3), ("six.test", six, 2), ("dead6.test", port, 1)):
        for _ in range(times):
            proxy.ask(host, at, ALL)
    for host, at in (("four.test", refused), ("dead.test", refused), ("203.0.113.9", port), (FOUR, proxy.port),
                     ("a..b", port)):
        proxy.ask(host, at)
    proxy.answer(b"\x16\x03\x01")
    proxy.answer(b"GET /no HTTP/1.1\r\nHost: %s\r\n\r\n" % own)
    proxy.answer(b"GET /proxy.pac HTTP/1.1\r\nHost: %s\r\n\r\n" % own)
    proxy.answer(b"POST / HTTP/1.1\r\nHost: %s\r\n\r\n" % own)
    with proxy.connect(SOON):
        pass
    ends = {"closed": 6, "refused": 6, "page": 2, "unknown_protocol": 1, "client_left": 1}
    losses = {"all_failed": 1, "timed_out": 1, "no_network": 1, "forbidden": 1, "not_a_name": 1}
    return ends, losses


def of_log(proxy):
    """The counts that the log's lines have: of ends, of losses, of families, and of the numbers of races that connected."""
    ends, losses, families, numbers = (collections.Counter() for _ in range(4))
    for line in log_lines(proxy):
        said = facts(line)
        ends[said["end"].replace("-", "_")] += 1
        if "winner" in said:
            families["ipv6" if ":" in said["winner"] else "ipv4"] += 1
            for name, key in (("he_connect_seconds", "ms"), ("he_names_seconds", "names"), ("he_lost_seconds", "lost")):
                numbers[name] += int(said[key])
        elif said.get("fault", "command") not in OF_NO_RACE:
            losses[said["fault"].replace("-", "_")] += 1
    return ends, losses, families, numbers


@timed
def check_counts():
    """The counts are of what was asked for, and what the log's lines say: sessions by end, races by family and by fault,
    and the sums of their times; each record is counted."""
    refused = unused_port()
    with Proxy("--timeout", 1500) as proxy, silent(DEAD_SIX, refused), silent(DEAD_FOUR, refused), serving(greet) as port, \
            serving(greet, SIX) as six:
        ends, losses = ask_all(proxy, port, six, refused)
        must(comes(lambda: len(log_lines(proxy)) == sum(ends.values()), SOON), ends, proxy.said())
        of_ends, of_losses, of_families, sums = of_log(proxy)  # (the session that asks for the metrics has a line too)
        metrics = metrics_of(proxy)
        for name, label, wanted, logged in (("he_sessions_ended", "end", ends, of_ends),
                                            ("he_races", "result", losses, of_losses)):
            found = {key: int(value) for key, value in metrics.counts(name, label).items() if value}
            must(found == wanted == dict(logged), name, found, wanted, dict(logged))
        families = {family: metrics.count("he_races_total", result="connected", family=family)
                    for family in ("ipv6", "ipv4")}
        must(families == {"ipv6": 2, "ipv4": 4} == dict(of_families), families, of_families)
        for name in ("he_connect_seconds", "he_names_seconds", "he_lost_seconds"):
            must(metrics.count(name + "_count") == 6, name)
            must(round(metrics.count(name + "_sum") * 1000) == sums[name], name, sums, metrics.count(name + "_sum"))
        must(metrics.count("he_sessions_total") == sum(ends.values()) + 1, metrics)
        must(metrics.count("he_sessions_open") == 1 and metrics.count("he_sessions_waiting") == 0, metrics)
        written = metrics.counts("he_records", "result")
        must(written == {"written": len(proxy.files()), "failed": 0} and proxy.files(), written, len(proxy.files()))
        must(metrics.counts("he_lookups", "from") == {"asked": 0, "shared": 0, "kept": 0}, "look-ups of known names")


@timed
def check_buckets():
    """A time is in each bucket whose bound it does not exceed, as the log has the times."""
    with Proxy() as proxy, serving(greet) as port:
        for host in ("four.test", "dead6.test") * 2:
            proxy.ask(host, port, ALL)
        must(comes(lambda: len(log_lines(proxy)) == 4, SOON), proxy.said())
        said = [facts(line) for line in log_lines(proxy)]  # (the session that asks for the metrics has a line too)
        metrics = metrics_of(proxy)
        for name, key in (("he_connect_seconds", "ms"), ("he_names_seconds", "names"), ("he_lost_seconds", "lost")):
            for (found, *labels), value in metrics.of(name).items():
                if found == name + "_bucket":
                    bound = float(labels[0][1]) * 1000
                    wanted = sum(int(one[key]) <= bound for one in said)
                    must(value == wanted, name, bound, value, wanted, said)


@timed
def check_open():
    """Sessions that have not ended are open, and those whose client has sent nothing wait; a race whose client leaves is
    one that did not connect."""
    port = unused_port()
    with Proxy() as proxy, serving(echo) as served, silent(DEAD_SIX, port), silent(DEAD_FOUR, port), \
            contextlib.ExitStack() as held:
        tunnel = held.enter_context(proxy.connect(SOON))
        must(socks(tunnel, FOUR, served) == 0, proxy.said())
        for _ in range(3):
            held.enter_context(proxy.connect(SOON))
        is_seen = lambda: (lambda m: (m.count("he_sessions_open"), m.count("he_sessions_waiting")))(metrics_of(proxy))
        must(comes(lambda: is_seen() == (5, 3), SOON), is_seen())
        with proxy.connect(0.3) as client, contextlib.suppress(TimeoutError):
            socks(client, "dead.test", port)
        left = lambda: metrics_of(proxy).count("he_races_total", result="client_left")
        must(comes(lambda: left() == 1, SOON), proxy.said())
        held.close()
        must(comes(lambda: is_seen() == (1, 0), SOON), is_seen())


@timed
def check_lookups():
    """A name is asked for once, and kept; those that come meanwhile share what is asked."""
    with Slow() as zone, Proxy("--resolver", zone.at) as proxy, serving(greet) as port:
        with ThreadPoolExecutor(4) as pool:
            list(pool.map(lambda _: proxy.ask("minute.test.", port, ALL), range(4)))
        for _ in range(3):
            proxy.ask("minute.test.", port, ALL)
        proxy.ask(FOUR, port, ALL)
        found = metrics_of(proxy).counts("he_lookups", "from")
        must(found == {"asked": 1, "shared": 3, "kept": 3}, found)


def check_refused_clients():
    """Clients that are not served are counted, each one, and are no sessions."""
    with Stranger() as stranger, Proxy("--allow", "11.0.9.0/24", "--max-per-client", 2, at="0.0.0.0") as proxy:
        idle = proxy.descriptors()
        for _ in range(3):
            with stranger.made(lambda: socket.create_connection((NEAR, proxy.port), TIMEOUT)) as client, \
                    contextlib.suppress(ConnectionError):
                client.recv(1)
        has_one = lambda: comes(lambda: proxy.descriptors() == idle + 1, SOON)  # (a session ends a little later)
        with proxy.connect(SOON):
            must(has_one(), proxy.descriptors(), idle)
            counts = metrics_of(proxy).counts("he_clients_refused", "why")
            must(counts == {"turned_away": 3, "too_many": 0}, counts)
            must(has_one(), proxy.descriptors(), idle)
            with proxy.connect(SOON), proxy.connect(SOON) as third:
                must(third.recv(1) == b"", "a third session is served")
            must(has_one(), proxy.descriptors(), idle)
            counts = metrics_of(proxy).counts("he_clients_refused", "why")
            must(counts == {"turned_away": 3, "too_many": 1}, counts)


@timed
def check_lost_lines():
    """Lines that standard error does not take are counted, those that it took are not."""
    proxy, (read, write) = Proxy(), os.pipe()
    fcntl.fcntl(write, fcntl.F_SETPIPE_SZ, 8192)
    words = [support.OPTIONS.program, "proxy", "--listen", f"{FOUR}:{proxy.port}"]
    with serving(greet) as port, subprocess.Popen(words, stdin=subprocess.DEVNULL, stdout=subprocess.DEVNULL,
                                                  stderr=write) as running:
        os.close(write)
        try:
            must(support.is_up(running, lambda: support.is_listening(proxy.port)), "does not listen")
            must(metrics_of(proxy).count("he_log_lines_lost_total") == 0, "lines are lost at once")
            for _ in range(100):
                proxy.ask(FOUR, port, ALL)
            must(comes(lambda: metrics_of(proxy).count("he_sessions_open") == 1, SOON), "sessions are open")
            metrics = metrics_of(proxy)
            text = b""
            while select.select([read], [], [], 0.5)[0] and (piece := os.read(read, 1 << 16)):
                text += piece
        finally:
            running.kill()
            os.close(read)
    # (once it is read, the line of the last session is taken, after what says how many were dropped)
    taken = sum(line.startswith(b"time=") for line in text.split(b" of the log dropped")[0].splitlines())
    ended = sum(metrics.counts("he_sessions_ended", "end").values())
    must(0 < taken < ended == taken + metrics.count("he_log_lines_lost_total"), taken, ended, metrics)


def check_failed_records():
    """A record that cannot be written is counted so."""
    with Proxy() as proxy, serving(greet) as port:
        run("rm", "-rf", proxy.records)
        proxy.records.write_text("no folder")
        proxy.ask("four.test", port, ALL)
        found = lambda: metrics_of(proxy).counts("he_records", "result")
        must(comes(lambda: found() == {"written": 0, "failed": 1}, SOON), found(), proxy.said())


@timed
def check_never_falls():
    """No counter falls, and all sessions but the open ones have ended, whenever it is asked for."""
    with Proxy() as proxy, serving(greet) as port:
        before = metrics_of(proxy)
        end = time.monotonic() + 1
        while time.monotonic() < end:
            proxy.ask("four.test", port, ALL)
            now = metrics_of(proxy)
            fell = {key: (before[key], now[key]) for key in now if now.kinds.get(key[0]) != "gauge" and now[key] < before[key]}
            must(not fell, fell)
            ended = sum(now.counts("he_sessions_ended", "end").values())
            must(now.count("he_sessions_total") == ended + now.count("he_sessions_open"), now)
            before = now


def check_health():
    """`/healthz` says ok."""
    with Proxy() as proxy:
        head, body = answered(proxy, "/healthz")
        must(head.startswith(b"HTTP/1.1 200 ") and b"\r\nContent-Type: text/plain\r\n" in head and body == b"ok\n", head, body)


def check_requests():
    """HEAD has the head of GET, and a query changes nothing; under a foreign name there is neither page."""
    with Proxy() as proxy:
        for path in ("/metrics", "/healthz"):
            head, body = answered(proxy, path, "HEAD")
            whole, text = answered(proxy, path + "?x=1")
            must(body == b"" and text, path, body)
            names = [re.sub(rb"Content-Length: \d+", b"", one) for one in (head, whole)]
            must(names[0] == names[1] and b"Cache-Control: no-store" in head, head, whole)
            for host in ("evil.example", f"evil.example:{proxy.port}", f"{FOUR}:1"):
                must(answered(proxy, path, host=host)[0].startswith(b"HTTP/1.1 501 "), path, host)


def check_other_machines():
    """A client of another machine, of an allowed network, gets the page of health, and no metrics."""
    with Stranger() as stranger, Proxy("--allow", "11.0.0.0/24", at="0.0.0.0") as proxy:
        for path, status, wanted in (("/healthz", b"200", b"\r\n\r\nok\n"), ("/metrics", b"501", b"This is a proxy")):
            with stranger.made(lambda: socket.create_connection((NEAR, proxy.port), TIMEOUT)) as client:
                client.sendall(f"GET {path} HTTP/1.1\r\nHost: {NEAR}:{proxy.port}\r\n\r\n".encode())
                got = all_of(client)
            must(got.split(b" ", 2)[1] == status and wanted in got and b"he_sessions" not in got, path, got)
