"""A second reading of what `he explain` writes, apart from the program, as plain.py is of the rules: the story of each
race, by docs/DEFINITIONS.md and crates/he_story/specs.

needs: python3 and its standard library
"""
from collections import namedtuple

import plain
import plain_accounts
from plain import counted, print_address, print_prefix

NAMES = {"aaaa": "AAAA", "a": "A"}
WORDS = {6: "aaaa", 4: "a"}
OTHER = {"aaaa": "a", "a": "aaaa"}
LEAST_FLOOR = plain.SETTINGS["floor"][0]
# Blocks whose addresses stand for something else: RFC 3056, RFC 4380; and the NAT64 prefix of RFC 6052.
KINDS = {"2002::/16": " (6to4)", "2001::/32": " (Teredo)"}
WELL_KNOWN = "64:ff9b::/96"
# RFC 6052 section 2.2: the octets of the IPv4 address after a NAT64 prefix of so many bits. Octet 8 is kept zero.
OCTETS = {32: (4, 5, 6, 7), 40: (5, 6, 7, 9), 48: (6, 7, 9, 10), 56: (7, 9, 10, 11), 64: (9, 10, 11, 12),
          96: (12, 13, 14, 15)}

# A pause of fewer milliseconds has no line. No more attempts are named on which time was lost.
LEAST_PAUSE, MAX_NAMED = 5, 3
# The most milliseconds that the names of a race take without a word on them in its first line.
SLOW_NAMES = 100

# Why an attempt starts, in words, the tick from which it was due, and its name in JSON with a delay and the place of
# the attempt that this is after.
Cause = namedtuple("Cause", "words due name delay after", defaults=(None, None))


# What the record lines say


LOOKUPS = {"no-such-name": "no such name", "no-address": "no address", "no-answer": "no answer", "refused": "refused",
           "failed": "the name servers failed", "malformed": "a malformed answer", "not-asked": "not asked",
           "nat64": "through NAT64"}
ATTEMPTS = {"refused": "refused", "unreachable": "unreachable", "timed-out": "timed out", "reset": "reset",
            "forbidden": "forbidden", "no-source": "no source address", "other": "for another reason"}
SERVERS = {"silent": "no answer in", "refused": "refused after", "failed": "failed after",
           "unreachable": "unreachable after"}
CLIENTS = {"connected": "connected", "gave-up": "gave up", "failed": "failed"}


def heading(number, race, file=None):
    """The host and port, the client and the time, where the record has them; the race's file, number and line, but for
    a race that has such names and no file; and what its client did."""
    record, named = race.record, ""
    if record.target:
        host, port = record.target
        named = f"[{host}]:{port}" if ":" in host else f"{host}:{port}"
    if record.client:
        named += f"{' ' if named else ''}for {print_address(record.client)}"
    if record.time:
        named += f"{', ' if named else ''}{record.time[:10]} {record.time[11:19]}Z"
    in_file = f"{file}, " if file else ""
    if named:
        told = f"{named} ({in_file}race {number}, line {race.line}): " if file else f"{named}: "
    else:
        told = f"{in_file}race {number} (line {race.line}): "
    if not record.end:
        return told
    word, ticks = record.end
    return f"{told}the client {CLIENTS[word]} after {ticks} ms; by RFC 8305: "


def why(race, name):
    """Why the family has no address, where a look-up failed."""
    return f": {LOOKUPS[race.record.lookups[name]]}" if name in race.record.lookups else ""


def notes(race):
    """The network's NAT64 prefixes, the name servers that were given up, and the addresses that no client tried."""
    prefixes = [f"the network's NAT64 prefix is {print_prefix(prefix)}"
                for prefix in race.record.prefixes]
    servers = [f"name server {print_address(address)}: {SERVERS[word]} {ticks} ms"
               for address, word, ticks in race.record.servers]
    return prefixes + servers + [f"no client tried {print_address(address)}: its outcome is unknown"
                      for address in race.record.untried]


# How a race ended


def servers(race):
    """The name servers that were given up."""
    did = {"silent": "did not answer", "refused": "refused", "failed": "failed", "unreachable": "was unreachable"}
    return "".join(f" ({print_address(address)} {did[word]})" for address, word, _ in race.record.servers)


NOT_LOOKED_UP = {
    "no-such-name": "no such name ({} ms)", "no-address": "the name has no address ({} ms)",
    "no-answer": "the name could not be looked up in {} ms: no answer",
    "refused": "the name could not be looked up in {} ms: refused",
    "failed": "the name could not be looked up in {} ms: the name servers failed",
    "malformed": "the name could not be looked up in {} ms: a malformed answer",
    "not-asked": "the name was not looked up ({} ms)", "nat64": "no address to try through NAT64 in {} ms"}
EACH_FAILED = {"refused": "refused", "unreachable": "unreachable", "timed-out": "timed out", "reset":
               "reset the connection", "forbidden": "forbidden", "no-source": "without a source address"}


# Which of two reasons says more, the first of these.
RANKS = ["no-answer", "refused", "failed", "malformed", "nat64", "no-such-name", "no-address", "not-asked"]


def reason_of_both(lookups):
    """Why a name has no address, where the record has a reason for each family."""
    return min(lookups["aaaa"], lookups["a"], key=RANKS.index) if {"aaaa", "a"} <= lookups.keys() else None


def why_not(race, report):
    """Why a race did not connect, by its attempts and its record."""
    (kind, _, tick), lines, lookups = report.result, report.lines, race.record.lookups
    if not lines:
        if not {"aaaa", "a"} <= lookups.keys():
            return f"no address to try in {tick} ms"
        return NOT_LOOKED_UP[reason_of_both(lookups)].format(tick) + servers(race)
    number, failed = len(lines), sum(line.fate == "failed" for line in lines)
    if kind == "exhausted":
        words = {race.record.attempts.get(line.address) for line in lines}
        all_of = "its 1 address" if number == 1 else f"all {number} addresses"
        return f"{all_of} {EACH_FAILED.get(words.pop(), 'failed') if len(words) == 1 else 'failed'} ({tick} ms)"
    if any(line.address in race.record.untried for line in lines):
        return f"timed out after {tick} ms and {counted(number, 'attempt')}"
    if failed:
        return f"timed out after {tick} ms; {failed} of {number} addresses failed"
    none = {1: "its 1 address did not answer", 2: "neither of 2 addresses answered"}
    return f"timed out after {tick} ms; {none.get(number, f'none of {number} addresses answered')}"


def result(race, report):
    return ending(report) if report.winner else f"not connected: {why_not(race, report)}"


def ending(report):
    kind, _, tick = report.result
    if report.winner:
        return f"connected by IPv{report.winner.address.family} ({print_address(report.winner.address)}) in {tick} ms"
    attempts = counted(len(report.lines), "attempt")
    if kind == "exhausted":
        return f"not connected: no address left to try after {tick} ms ({attempts})"
    return f"not connected: timed out after {tick} ms and {attempts}"


def attempt_end(race, line):
    """The word for the end of an attempt. One that was under way at its race's end gave no answer if its Connection
    Attempt Delay was over by then, and was stopped otherwise; it is unknown what one to an untried address would do."""
    if line.fate != "cancelled":
        return {"won": "connected", "failed": "failed"}[line.fate]
    if line.address in race.record.untried:
        return "unknown"
    return "no answer" if line.tick - line.start >= race.setting("attempt") else "stopped"


def are_names_slow(times):
    return times["names_ms"] > SLOW_NAMES and times["names_ms"] > times["ms"] - times["names_ms"]


def lost(race, report):
    """The time that the race lost by its account, and on what."""
    ticks, total = plain_accounts.account(race), plain_accounts.times(race)["lost_ms"]
    shares = [(ticks[line.place], f"on {print_address(line.address)} ({attempt_end(race, line)})")
              for line in report.lines if ticks[line.place]]
    named = [f"{number} {words}" for number, words in shares[:MAX_NAMED]]
    more = f" and on {len(shares) - MAX_NAMED} more" if len(shares) > MAX_NAMED else ""
    rest = f"{ticks['nobody']} with no address left to try"
    if ticks["nobody"] == total:
        return f"{total} ms lost with no address left to try"
    if len(shares) == 1 and not ticks["nobody"]:
        return f"{total} ms lost {shares[0][1]}"
    return f"{total} ms lost: {', '.join(named)}{more}{', ' + rest if ticks['nobody'] else ''}"


def to_check(race, report):
    """The line that names what to look at, where one thing alone took the time: the name server that was given up, if
    names took most of it or no name was found; or the only attempt that owns time."""
    times, ticks, lookups = plain_accounts.times(race), plain_accounts.account(race), race.record.lookups
    if report.lines:
        is_by_names = are_names_slow(times) and times["lost_ms"] == 0
    else:
        is_by_names = reason_of_both(lookups) in RANKS[:RANKS.index("nat64")]
    if is_by_names:
        given_up = [print_address(address) for address, _, _ in race.record.servers]
        return f"\ncheck: the name server {given_up[0]} (/etc/resolv.conf)" if len(given_up) == 1 else ""
    owners = [line for line in report.lines if ticks[line.place]]
    is_alone = len(owners) == 1 and (ticks["nobody"] == 0 or len(report.lines) == 1)
    if not is_alone or are_names_slow(times) or max(times["machine_ms"], times["unknown_ms"]) >= times["lost_ms"]:
        return ""
    address, end = print_address(owners[0].address), attempt_end(race, owners[0])
    failed = race.record.attempts.get(owners[0].address) if end == "failed" else None
    if end == "no answer" or failed == "timed-out":
        return f"\ncheck: the path and firewalls to {address}"
    if failed in ("refused", "reset"):
        port = f" port {race.record.target[1]}" if race.record.target else ""
        return f"\ncheck: whether a server listens at {address}{port}"
    return f"\ncheck: the route to {address}" if failed == "unreachable" else ""


def verdict(race, report):
    """How the race ended, what it lost, what to check, and where all of its time went."""
    times = plain_accounts.times(race)
    said = [f"; {lost(race, report)}"] if times["lost_ms"] else []
    if are_names_slow(times) and report.lines:
        said.append(f"; {times['names_ms']} of {times['ms']} ms waiting for DNS{servers(race)}")
    nothing = "; nothing lost" if report.lines else ""
    owners = (("this machine", "machine_ms"), ("unknown", "unknown_ms"))
    others = [f", {words} {times[name]} ms" for words, name in owners if times[name]]
    return (f"{result(race, report)}{''.join(said) or nothing}{to_check(race, report)}\n"
            f"where the time went: names {times['names_ms']} ms, lost {times['lost_ms']} ms, connecting {times['connecting_ms']} ms{''.join(others)}")


# The addresses in order of preference: RFC 6724 section 6, RFC 8305 section 4


def translated(prefix, address):
    """The IPv4 host that the address is by a NAT64 prefix, if it is one: RFC 6052 section 2.2."""
    bits = int(prefix.rpartition("/")[2])
    octets = address.number.to_bytes(16, "big")
    if not plain.is_in(prefix, address) or bits < 96 and octets[8] != 0:
        return None
    return ".".join(str(octets[place]) for place in OCTETS[bits])


def kind(race, address):
    """What the address is: an IPv4 host, by a NAT64 prefix of its network or the well-known one, or one of a block."""
    if address.family == 4:
        return ""
    for prefix in [*map(print_prefix, race.record.prefixes), WELL_KNOWN]:
        host = translated(prefix, address)
        if host:
            return f" is {host} (NAT64)"
    return next((told for block, told in KINDS.items() if plain.is_in(block, address)), "")


def reached(race, fact):
    """The source that the host uses, or why it reaches no such address."""
    if fact["source"] is not None:
        return f" from {print_address(fact['source'].address)}"
    is_routed = race.host.route(fact["address"]) is not None
    return f", not reachable: no {'source address' if is_routed else 'route'}"


def reason(earlier, later):
    """What puts the later address after the earlier one, and by which rule."""
    rule, is_first = plain.deciding_rule(earlier, later)
    assert is_first is not False
    rtt = "unknown" if later["rtt"] is None else f"{later['rtt']} ms"
    said = {
        "1": "the one before is reachable",
        "2": f"scope {later['scope']}, its source {later['source scope']}",
        "3": "its source is deprecated",
        "5": f"label {later['label']}, its source {later['source label']}",
        "6": f"lower precedence: {later['precedence']}, the one before {earlier['precedence']}",
        "7": "its route is a tunnel",
        "8": f"scope {later['scope']}, the one before {earlier['scope']}",
        "8a": f"round trip time {rtt}, the one before {earlier['rtt']} ms",
        "8b": "the one before was used before",
        "9": f"bits in common with its source {later['common']}, the one before {earlier['common']}",
        "10": "listed later in its answer",
    }
    standard = "RFC 8305 section 4" if rule in ("8a", "8b") else f"RFC 6724 rule {rule}"
    return f"; {said[rule]} ({standard})"


def preferred(race):
    facts = race.ranked()
    width, whys = len(str(len(facts))) + 2, ["", *map(reason, facts, facts[1:])]
    lines = [f"{number:>{width}}. {print_address(fact['address'])}{kind(race, fact['address'])}"
             f"{reached(race, fact)}{why}"
             for number, (fact, why) in enumerate(zip(facts, whys), 1)]
    return ["preferred, once every answer is known:", *lines] if facts else ["no address to try"]


# Why an attempt started, and which address came next: RFC 8305 sections 3 to 5


def tick_of(race, name):
    return race.answers[name].tick if name in race.answers else 0


def first_cause(race, tick):
    if not race.is_seen("aaaa", tick):
        over = tick_of(race, "a") + race.setting("resolution")
        return Cause("the wait for the AAAA answer is over", over, "resolution delay")
    if race.usable("aaaa"):
        return Cause("AAAA answer received", tick_of(race, "aaaa"), "aaaa answer")
    return Cause("both answers received", max(tick_of(race, "aaaa"), tick_of(race, "a")), "both answers")


def failure(race, line):
    """The tick at which an attempt fails by itself, if it does by the limit."""
    kind, duration = race.outcomes.get(line.address, (None, 0))
    tick = line.start + duration
    return tick if kind == "fail" and tick <= race.setting("limit") else None


def later_cause(race, before, line):
    """The cause of an attempt after others: what came last of all that it needed."""
    last, delay, floor = before[-1], race.setting("attempt"), race.setting("floor")
    failures = [failure(race, other) for other in before]
    # From these ticks on the last attempt has been waited for: for the delay, or for the floor where all have failed.
    waited = [last.start + delay]
    if floor is not None and None not in failures:
        waited.append(max(last.start + floor, *failures))
    if any(race.seen(tick) < line.start for tick in waited):
        name = WORDS[line.address.family]
        return Cause(f"it came with the {NAMES[name]} answer", tick_of(race, name), f"later {name} answer")
    if line.start >= last.start + delay:
        words = f"{delay} ms after the start of attempt {last.place + 1}"
        return Cause(words, last.start + delay, "attempt delay", delay, last.place)
    if max(failures) > last.start + floor:
        return Cause("all earlier attempts failed", max(failures), "last failure")
    words = f"all earlier attempts failed; {floor} ms after attempt {last.place + 1} (set floor)"
    return Cause(words, last.start + floor, "floor", floor, last.place)


def place_in_list(race, line):
    """The place of its address in the list of those that are known at its start, their number, and whose turn it is."""
    addresses = race.listed(line.start)
    place, family = addresses.index(line.address), line.address.family
    if place < race.setting("count") and family == addresses[0].family:
        return place, len(addresses), "leads"
    is_other = family != addresses[place - 1].family
    return place, len(addresses), "in turn" if is_other else "other run out"


def listed(family, place, count, turn):
    """The same in words."""
    if count == 1:
        return "; no other address known"
    words = {"leads": f"IPv{family} first", "in turn": "families alternate",
             "other run out": f"only IPv{family} is left"}
    return f"; number {place + 1} of {count} known addresses, {words[turn]}"


def late(race, tick):
    """How long the client slept up to the tick, where that is too short for a line."""
    return next((f" ({end - start} ms late)" for start, end in race.pauses
                 if end == tick and end - start < LEAST_PAUSE), "")


# What happened: of each event its tick, its object in JSON, and its words in a story


def started(race, before, line):
    cause = later_cause(race, before, line) if before else first_cause(race, line.start)
    delay = {} if cause.delay is None else {"delay": cause.delay, "after": cause.after}
    place, count, turn = place_in_list(race, line)
    is_held, address = cause.due < line.start, print_address(line.address)
    held = (late(race, line.start) or ", late because this machine was busy") if is_held else ""
    where = listed(line.address.family, place, count, turn)
    told = f"attempt {line.place + 1} to {address}: {cause.words}{held}{where}"
    return line.start, {"event": "attempt", "attempt": line.place, "address": address, "cause": cause.name, **delay,
                        "held": is_held, "listed": place, "of": count, "turn": turn}, told


def answers(race):
    for name, other in OTHER.items():
        if name in race.answers:
            tick, usable = race.seen(tick_of(race, name)), len(race.usable(name))
            missing = "" if race.is_seen(other, tick) else f"; still waiting for the {NAMES[other]} answer"
            to_try = f": {counted(usable, 'address', 'addresses')} to try"
            failed = why(race, name)
            told = (f"{NAMES[name]}{failed}{late(race, tick)}{to_try if usable else ''}{missing}" if failed
                    else f"{NAMES[name]} answer{late(race, tick)}{to_try}{missing}")
            yield tick, {"event": "answer", "family": name, "usable": usable}, told


def waits(race):
    """The wait for the AAAA answer, where the A answer is positive and the first one: RFC 8305 section 3."""
    if "a" not in race.answers or not race.usable("a"):
        return []
    begin, end = race.seen(tick_of(race, "a")), tick_of(race, "a") + race.setting("resolution")
    if begin >= end or race.is_seen("aaaa", begin):
        return []
    told = f"wait for the AAAA answer until {end} ms (Resolution Delay)"
    events, over = [(begin, {"event": "wait", "family": "aaaa", "until": end}, told)], race.seen(end)
    if not race.is_seen("aaaa", over):
        told = f"the wait is over, without the AAAA answer{late(race, over)}"
        events.append((over, {"event": "delay over"}, told))
    return events


def ends(race, report, fate):
    """The ends of the attempts of this fate."""
    words = {"connected": " connected after {} ms", "failed": " failed after {} ms", "no answer": ": no answer in {} ms",
             "stopped": " stopped after {} ms", "unknown": ": no client tried it, unknown after {} ms"}
    return [(line.tick, {"event": fate, "attempt": line.place},
             f"attempt {line.place + 1}{words[attempt_end(race, line)].format(line.tick - line.start)}"
             + (late(race, line.tick) if fate != "cancelled" else "") + of_client(race, line))
            for line in report.lines if line.fate == fate]


def of_client(race, line):
    """Why the client's attempt failed."""
    reasons = race.record.attempts
    return f": {ATTEMPTS[reasons[line.address]]}" if line.fate == "failed" and line.address in reasons else ""


def events(race, report):
    """All up to the race's end by tick, those of one tick in this order."""
    over = {"exhausted": "no address left to try", "limit": "the limit: the race is given up"}
    kind, _, tick = report.result
    busy = "this machine was busy until {} ms: it saw and started nothing"
    told = [(start, {"event": "pause", "until": end}, busy.format(end))
            for start, end in race.pauses if start < tick]
    told += [*answers(race)] + waits(race) + ends(race, report, "failed")
    told += [started(race, report.lines[:line.place], line) for line in report.lines]
    told += ends(race, report, "won") if kind == "won" else [(tick, {"event": kind}, over[kind])]
    told += ends(race, report, "cancelled")
    return sorted((event for event in told if event[0] <= tick), key=lambda event: event[0])


def happened(race, report):
    width = len(str(report.result.tick)) + 2
    title = "course by RFC 8305:" if race.record.end else "course:"
    return [title, *(f"{tick:>{width}} ms  {told}" for tick, event, told in events(race, report)
                     if event["event"] != "pause" or event["until"] - tick >= LEAST_PAUSE)]


# What had to wait, and what a floor would have changed


def waited(race, report, name):
    """What is told of an answer that did not come, that came too late, or whose addresses had to wait."""
    if name not in race.answers:
        return [f"no {NAMES[name]} answer came{why(race, name)}"]
    seen = race.seen(tick_of(race, name))
    if seen > report.result.tick:
        return [f"the {NAMES[name]} answer came at {seen} ms, after the end{why(race, name)}"]
    if not race.usable(name):
        return []
    starts = [line.start for line in report.lines if WORDS[line.address.family] == name]
    if not starts:
        return [f"no address of the {NAMES[name]} answer was tried"]
    passed = starts[0] - seen
    version = {"aaaa": "IPv6", "a": "IPv4"}[name]
    return [f"an {version} address was known {passed} ms before one was tried"] if passed > 0 else []


def floored(race, report):
    """How the race ends with the least floor, where it has none and would have ended earlier."""
    if race.setting("floor") is not None:
        return []
    other = race.changed({"floor": LEAST_FLOOR}).report
    is_earlier = other.result.tick < report.result.tick
    words = f"if the next attempt followed a failure at once (--set floor={LEAST_FLOOR})"
    return [f"{words}: {ending(other)}"] if is_earlier else []


def story(number, race, file=None):
    """The story of the race of this number in its text, counted from 1; the text is that of a file, if it is named."""
    report = race.report
    lines = [f"{heading(number, race, file)}{verdict(race, report)}", *preferred(race), *happened(race, report)]
    lines += [*waited(race, report, "aaaa"), *waited(race, report, "a"), *notes(race), *floored(race, report)]
    return ("\n" if number > 1 else "") + "".join(line + "\n" for line in lines)


def written(races, changes):
    """What `he explain` writes for these races, with these settings in place of their own."""
    return "".join(story(number, race.changed(changes)) for number, race in enumerate(races, 1)).encode()
