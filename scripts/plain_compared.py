"""A second reading of what `he compare` writes, apart from the program, as plain.py is of the rules: by
docs/DEFINITIONS.md and crates/he_compare/specs.

needs: python3 and its standard library
"""
from collections import Counter

import plain
from plain import one_line
from plain_summary import mean_cell, percentiles, share_cell

VERDICTS = ("sooner", "later", "same", "only_with", "only_without", "unknown")
# What the lines and the objects of races say.
LINE_WORDS = {"sooner": "sooner", "later": "later", "same": "the same", "only_with": "connected only with",
              "only_without": "connected only without", "neither": "connected in neither case", "unknown": "unknown"}
ENDINGS = {"won": "connected by IPv{2} ({1}) in {0} ms", "exhausted": "not connected: all addresses failed in {0} ms",
           "no address": "not connected: no address to try in {0} ms", "limit": "not connected: timed out after {0} ms"}
HEADING = ("  p50 ms  p90 ms  p99 ms  attempts       IPv6  sooner   later    same  only with  only without  unknown"
           "  settings\n")


def tries_untried(race, report):
    """Whether an attempt is at an address that no client tried."""
    return any(line.address in race.record.untried for line in report.lines)


def verdict_of(race, with_settings):
    """What settings do to a race, by what is reported with them."""
    if tries_untried(race, race.report) or tries_untried(race, with_settings):
        return "unknown"
    own, other = race.report.result, with_settings.result
    if own.kind == other.kind == "won":
        return "same" if own.tick == other.tick else "sooner" if other.tick < own.tick else "later"
    if other.kind == "won":
        return "only_with"
    return "only_without" if own.kind == "won" else "neither"


def rows_of(words):
    """The settings of each row, and the words for them: none, then one for each number of a list."""
    lists = {word.split("=")[0]: word.split("=")[1].split(",") for word in words}
    count = max(len(numbers) for numbers in lists.values())
    rows = [("as recorded", {})]
    for row in range(count):
        chosen = {name: numbers[row] if len(numbers) > 1 else numbers[0] for name, numbers in lists.items()}
        label = " ".join(f"{name}={number}" for name, number in chosen.items())
        rows.append((label, plain.changes_of([f"{name}={number}" for name, number in chosen.items()])))
    return rows


def row_of(races, changes, label):
    reports = [race.changed(changes).report for race in races]
    won = [report for report in reports if report.winner]
    verdicts = Counter(map(verdict_of, races, reports))
    return {
        "races": len(reports), "connected": len(won),
        "ipv6": sum(report.winner.address.family == 6 for report in won),
        "connect_ms": percentiles([report.result.tick for report in won], ("median", "p90", "p99")),
        "attempts": sum(len(report.lines) for report in reports),
        **{verdict: verdicts[verdict] for verdict in VERDICTS}, "settings": label,
    }


def as_text(row):
    times = row["connect_ms"] or dict.fromkeys(("median", "p90", "p99"), "-")
    cells = "".join(f"{time:>8}" for time in times.values()) + mean_cell(row["attempts"], row["races"])
    cells += share_cell(row["ipv6"], row["connected"])
    cells += "".join(f"{row[verdict]:>{width}}" for width, verdict in zip((8, 8, 8, 11, 14, 9), VERDICTS))
    return f"{cells}  {row['settings']}\n"


def line_of(number, race, changes, label, is_json):
    report = race.changed(changes).report
    kind, _, tick = report.result
    address = {"address": plain.print_address(report.winner.address)} if report.winner else {}
    verdict = verdict_of(race, report)
    if is_json:
        return one_line({"file": "-", "race": number, "line": race.line, "ended": kind, **address, "ms": tick,
                         "verdict": verdict.replace("_", " "), "settings": label})
    family = [report.winner.address.family] if report.winner else []
    ending = ENDINGS[kind if report.lines or kind != "exhausted" else "no address"].format(tick, *address.values(), *family)
    return f"-:{race.line} race {number}: {ending}, {LINE_WORDS[verdict]} ({label})\n"


def written_for(races, rows, is_json, tells_races):
    lines = [line_of(number, race, changes, label, is_json) for number, race in enumerate(races, 1)
             for label, changes in rows] if tells_races else []
    made = [row_of(races, changes, label) for label, changes in rows]
    table = [one_line({"rows": made})] if is_json else [HEADING, *map(as_text, made)]
    return "".join(lines + table).encode()


def written(races, changes):
    """What `he compare` writes for these races and settings, which have no list."""
    label = " ".join(f"{name}={number}" for name, number in changes.items())
    return written_for(races, [("as recorded", {}), (label, changes)], False, False)
