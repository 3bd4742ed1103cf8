"""A second reading of what `he draw` draws, apart from the program, as plain.py is of the rules: the picture of each
race, by docs/DEFINITIONS.md and crates/he_draw/specs, under the words of a story for how it ended.

needs: python3 and its standard library
"""
from collections import namedtuple

from plain import print_address
from plain_story import attempt_end, heading, result

LEAST_COLUMNS = 10
# The columns of a line beside its label, its columns and its words: an edge at both sides, and a space outside each.
EDGES = 4
NAMES = {"aaaa": "AAAA answer", "a": "A answer"}
# The signs of both looks.
SIGNS = ("edge", "answer", "wait", "pause", "attempt", "won", "failed", "cancelled")
UNICODE, ASCII = dict(zip(SIGNS, "│●┄░━✓✕▸")), dict(zip(SIGNS, "|o~#=*x>"))

# A row: the ticks from which to which it is drawn, the sign of its first column, of those between, and of its last one.
Row = namedtuple("Row", "label start stop first between last words")


def answer_row(race, name, end):
    label, reply = NAMES[name], race.answers.get(name)
    if reply is None or race.seen(reply.tick) > end:
        return Row(label, 0, 0, " ", " ", " ", "none by the end")
    seen, usable = race.seen(reply.tick), f"{len(race.usable(name))} usable"
    delay_end = reply.tick + race.setting("resolution")
    if name == "a" and race.usable("a") and seen < delay_end and not race.is_seen("aaaa", seen):
        # It waits for the AAAA answer: to its coming, or to the end of the Resolution Delay or of the race.
        aaaa = race.answers.get("aaaa")
        stop = min(delay_end, end) if aaaa is None else min(race.seen(aaaa.tick), delay_end, end)
        return Row(label, seen, stop, "answer", "wait", "wait", f"{seen}-{stop} ms wait, {usable}")
    return Row(label, seen, seen, "answer", "answer", "answer", f"{seen} ms, {usable}")


def rows(race):
    report = race.report
    end = report.result.tick
    found = [answer_row(race, "aaaa", end), answer_row(race, "a", end)]
    found += [Row("pause", start, stop, "pause", "pause", "pause", f"{start}-{stop} ms")
              for start, stop in race.pauses if start < end]
    return found + [Row(print_address(line.address), line.start, line.tick, "attempt", "attempt", line.fate,
                        f"{line.start}-{line.tick} ms {attempt_end(race, line)}") for line in report.lines]


def bar(row, column, signs):
    """The signs from the first column of a row to its last one."""
    start, stop = column(row.start), column(row.stop)
    names = [row.between] * (stop - start + 1)
    # (where one column has both, an attempt's is that of its end, and an answer's that of the answer)
    names[0] = row.first
    if row.between == "attempt":
        names[-1] = row.last
    return " " * start + "".join(signs.get(name, name) for name in names)


def picture(number, race, width, signs):
    end = race.report.result.tick
    drawn = rows(race)
    label = max(len(row.label) for row in drawn)
    columns = max(width - label - max(len(row.words) for row in drawn) - EDGES, LEAST_COLUMNS)

    def column(tick):
        return min(tick, end) * (columns - 1) // end if end else 0

    lines = [f"{heading(number, race)}{result(race, race.report)}"]
    lines += [f"{row.label:{label}} {signs['edge']}{bar(row, column, signs):{columns}}{signs['edge']} {row.words}"
              for row in drawn]
    lines.append(" " * (label + 2) + "0" + " " * max(columns - len(str(end)) - 4, 1) + f"{end} ms")
    return "".join(f"{line}\n" for line in lines) + "\n"


def written(races, changes, width=80, signs=UNICODE):
    """The output of `he draw` for these races, with these settings in place of their own."""
    return "".join(picture(number, race.changed(changes), width, signs)
                   for number, race in enumerate(races, 1)).encode()


def written_ascii(races, changes):
    return written(races, changes, signs=ASCII)
