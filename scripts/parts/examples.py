"""Runs a built program over the examples in crates/cases/data, and reports where it writes something else than is
there: what `he replay`, `he order`, `he explain` and `he draw` write, what `--json` makes of it, and what `he check`
and `he check --all` say of faults or warn of, also as objects. Transcripts, orders, stories and objects of all of
them are compared with the second reading of the rules (plain_wanted.py) too: so all four tell the same races, faults
included. Some are summed up under the names of a proxy's records, by file, hour, family and host (plain_summary.py).
"""
import multiprocessing
import re

import plain_summary
from plain_wanted import Wanted
from support import DATA, OPTIONS, run, tell

HE = OPTIONS.program
# By the ending of the file that has it: what is written, what a check says on standard error, and its objects.
WRITTEN = {"transcript": "replay", "order": "order", "story": "explain", "transcript-json": "replay --json",
           "order-json": "order --json", "explanation-json": "explain --json", "picture": "draw --width 80"}
SAID = {"check": "check", "check-all": "check --all"}
FOUND = {"check-json": "check --json", "check-all-json": "check --all --json"}
READ = ("replay", "order", "explain", "explain --json")


def compare(path):
    """Of each comparison whether it is right, and what it is."""
    text, wanted, checks = path.read_bytes(), Wanted(path.read_bytes()), []
    files = {file.suffix[1:]: file.read_bytes() for file in DATA.glob(f"{path.stem}.*")}
    fault = files.get("fault", b"")
    for ending, words in {**WRITTEN, **SAID, **FOUND}.items():
        if ending not in files and words not in READ:
            continue
        ran = run(HE, *words.split(), input=text)
        told = f"{path.stem}, he {words}: status {ran.returncode}"
        if ending in files:
            is_right = ((bool(ran.stdout), ran.stderr) == (not fault, files[ending]) if ending in SAID
                        else (ran.stdout, ran.stderr) == (files[ending], b"" if ending in FOUND else fault))
            checks.append((is_right and ran.returncode == bool(fault), told))
        if words in READ:
            is_same = (ran.stdout, ran.stderr, ran.returncode) == wanted.of(words.split())
            checks.append((is_same, f"{told}, by the second reading"))
    return [*checks, (WRITTEN.keys() & files.keys(), f"{path.stem}: no output stands beside it")]


def check_each():
    """Each example."""
    with multiprocessing.get_context("fork").Pool() as pool:
        for checks in pool.imap(compare, sorted(DATA.glob("*.timeline"), key=lambda path: -path.stat().st_size)):
            for check in checks:
                tell(*check)


# Names of files, with an hour and without one, each with an example's races; those that were drawn get hosts.
DRAWN = "16-34-40.123-example.org-443.timeline"
NAMES = {
    "2026-11-26/16-34-40.123-example.org-443.timeline": "ipv6-answers-first-and-wins",
    "2026-11-26/16-59-59.999-192.0.2.1-80-2.timeline": "no-start-on-the-limit",
    "day/2026-11-26/07-00-00.000-a-1.timeline": "floor-after-each-failure",
    "2026-11-25/23-00-00.000-": "later-attempt-with-equal-finish-loses",
    "2026-11-26/16-34-40-example.org-443.timeline": "both-fail-and-exhausted",
    "12026-11-26/16-34-40.123-example.org-443.timeline": "four-races-in-one-text",
    DRAWN: "one-thousand-drawn-races",
    "2026-11-26/day/16-34-40.123-\\\t\"-443.timeline": "five-lines-and-another-race",
    "2026-11-26/17-00-00.000-www.example.com-443.timeline": "record-lines-of-each-kind",
    "2026-11-26/17-00-01.000-www.example.com-443.timeline": "recorded-each-line",
    "hosts.timeline": "record-lines-before-some-races",
    "first-and-last-host.timeline": "record-at-its-first-and-last-time",
}


def host_line(number):
    """The record line with the host of this race; every seventh has none."""
    host, port = number * number % 7, 443 + number % 2
    return b"record to host-%d.example %d\n" % (host, port) if host else b""


def with_hosts(text):
    """The text with a host for most of its races."""
    first, *races = re.split(rb"^(?=race )", text, flags=re.MULTILINE)
    return first + b"".join(host_line(number) + race for number, race in enumerate(races))


def check_groups():
    """Summaries of these files in groups."""
    texts = {name: (DATA / f"{example}.timeline").read_bytes() for name, example in NAMES.items()}
    texts[DRAWN] = with_hosts(texts[DRAWN])
    races = [(name, Wanted(text).races) for name, text in texts.items()]
    shown = [(name.replace("\\", "\\\\").replace("\t", "\\t"), read) for name, read in races]  # in text, not in JSON
    for name, text in texts.items():
        file = OPTIONS.folder / name
        file.parent.mkdir(parents=True, exist_ok=True)
        file.write_bytes(text)
    for by in plain_summary.GROUPINGS:
        for option in ([], ["--json"]):
            ran = run(HE, "summary", "--by", by, *option, *texts, input=b"", cwd=OPTIONS.folder)
            wanted = plain_summary.written_by(by, races, {}, True) if option else plain_summary.written_by(by, shown, {})
            is_right = (ran.stdout, ran.returncode) == (wanted, 0)
            tell(is_right, f"he summary --by {by} {' '.join(option)} differs")
    compare_sums(races, shown)


def compare_sums(races, shown):
    """The summary of these files, as text with the worst hour and the worst host, as an object and as metrics."""
    names, all_races = [name for name, _ in races], [race for _, read in races for race in read]
    wanted = {"": plain_summary.written_for(shown, {}), "--json": plain_summary.written_json(all_races, {}),
              "--openmetrics": plain_summary.written_metrics(all_races, {})}
    for option, text in wanted.items():
        ran = run(HE, "summary", *option.split(), *names, input=b"", cwd=OPTIONS.folder)
        tell((ran.stdout, ran.returncode) == (text, 0), f"he summary {option} of these files differs")
