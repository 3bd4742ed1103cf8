"""A plain account of a race, apart from the program, as plain.py is of the rules: who owns each of its ticks, by "Account"
in docs/DEFINITIONS.md, from its transcript.

needs: python3 and its standard library
"""
from collections import Counter

import plain
from plain import PLAIN_LIMIT

LEAST_PAUSE = 5
# The members with the times of a race: the first is the sum of the others.
MEMBERS = ("ms", "names_ms", "lost_ms", "unknown_ms", "machine_ms", "connecting_ms")


def has_come(race, name, tick):
    return name in race.answers and race.answers[name].tick <= tick


def is_left(race, name, started):
    """Whether a usable address of the answer was not tried."""
    return not set(race.usable(name)) <= {line.address for line in started}


def is_all_told(race, tick):
    """Whether no answer is to come."""
    return has_come(race, "aaaa", tick) and has_come(race, "a", tick)


def has_failed(race, line, tick):
    kind, duration = race.outcomes.get(line.address, (None, 0))
    return kind == "fail" and line.start + duration <= tick


def have_failed(race, started, tick):
    return all(has_failed(race, line, tick) for line in started)


def has_waited(race, started, tick):
    """Whether the wait after the last attempt is over."""
    last, floor = started[-1].start, race.setting("floor")
    if tick >= last + race.setting("attempt"):
        return True
    return floor is not None and tick >= last + floor and have_failed(race, started, tick)


def may_begin(race, tick):
    if has_come(race, "aaaa", tick) and race.usable("aaaa"):
        return True
    is_over = has_come(race, "a", tick - race.setting("resolution"))
    return has_come(race, "a", tick) and bool(race.usable("a")) and (has_come(race, "aaaa", tick) or is_over)


def has_left(race, started, tick):
    """Whether an address that has come was not tried."""
    return any(has_come(race, name, tick) and is_left(race, name, started) for name in ("aaaa", "a"))


def is_due(race, started, tick):
    if not started:
        return may_begin(race, tick) or is_all_told(race, tick) and not race.usable("aaaa") + race.usable("a")
    if has_left(race, started, tick):
        return has_waited(race, started, tick)
    is_tried_out = not is_left(race, "aaaa", started) and not is_left(race, "a", started)
    return is_all_told(race, tick) and is_tried_out and have_failed(race, started, tick)


def is_asleep(race, tick):
    return any(start <= tick < stop and stop - start >= LEAST_PAUSE for start, stop in race.pauses)


def owner(race, tick):
    """`names`, `nobody`, `unknown`, `machine`, `connecting`, or the place of an attempt."""
    report = race.report
    started = [line for line in report.lines if line.start <= tick]
    if report.winner in started:
        duration = race.outcomes[report.winner.address][1]
        is_over = report.winner.start + duration <= tick
        return "machine" if is_over and is_asleep(race, tick) else "connecting"
    if is_asleep(race, tick) and is_due(race, started, tick):
        return "machine"
    if not started:
        return "names"
    if has_waited(race, started, tick) and not has_left(race, started, tick):
        return "nobody" if is_all_told(race, tick) else "names"
    last = started[-1]
    return "unknown" if last.address in race.record.untried else last.place


def edges(race):
    """The ticks at which the owner may change: all, where the race is short."""
    end = race.report.result.tick
    if end <= PLAIN_LIMIT:
        return range(end)
    ticks = {0} | {tick for pause in race.pauses for tick in pause}
    ticks |= {answer.tick + wait for answer in race.answers.values() for wait in (0, race.setting("resolution"))}
    for line in race.report.lines:
        waits = {0, race.setting("attempt"), race.setting("floor") or 0, race.outcomes.get(line.address, (None, 0))[1]}
        ticks |= {line.start + wait for wait in waits}
    return sorted(tick for tick in ticks if tick < end)


def account(race):
    """How many ticks each owner has."""
    found, ticks = Counter(), [*edges(race), race.report.result.tick]
    for tick, following in zip(ticks, ticks[1:]):
        found[owner(race, tick)] += following - tick
    return found


def times(race):
    """The members of an object of the race."""
    found = account(race)
    lost = found["nobody"] + sum(ms for who, ms in found.items() if isinstance(who, int))
    return dict(zip(MEMBERS, (race.report.result.tick, found["names"], lost, found["unknown"], found["machine"],
                              found["connecting"])))


def lost(text):
    """The milliseconds that the race of a text lost."""
    (race,), _ = plain.read_text(text)
    return times(race)["lost_ms"]
