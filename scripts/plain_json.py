"""A second reading of what `he replay --json`, `he order --json` and `he explain --json` write of a text without a
name, apart from the program, as plain.py is of the rules: by docs/DEFINITIONS.md, the manual page and crates/he_json/specs.

needs: python3 and its standard library
"""
import plain
import plain_accounts
import plain_story
from plain import one_line, print_address, print_prefix

# The names of the rules of RFC 6724 section 6 and RFC 8305 section 4.
RULES = {
    "1": "avoid unusable destinations", "2": "prefer matching scope", "3": "avoid deprecated addresses",
    "5": "prefer matching label", "6": "prefer higher precedence", "7": "prefer native transport",
    "8": "prefer smaller scope", "8a": "prefer lower round trip time", "8b": "prefer an address used before",
    "9": "use longest matching prefix", "10": "otherwise leave the order unchanged",
}
# The values that a rule compares: of an address with the one before it, or with its own source.
COMPARED = {"6": "precedence", "8": "scope", "8a": "rtt", "9": "common"}
OF_SOURCE = {"2": ("scope", "source scope"), "5": ("label", "source label")}


def attempt(line):
    return {"attempt": line.place, "start": line.start, "address": print_address(line.address), "end": line.fate,
            "tick": line.tick}


def result(report):
    kind, place, tick = report.result
    return {"end": kind, **({"attempt": place} if kind == "won" else {}), "tick": tick}


def place(number, fact):
    source = fact["source"] and print_address(fact["source"].address)
    return {"place": number, "address": print_address(fact["address"]), "source": source}


def reason(earlier, later):
    rule = plain.deciding_rule(earlier, later)[0]
    told = {"rule": rule, "why": RULES[rule]}
    if rule in COMPARED:
        told.update({"own": later[COMPARED[rule]], "before": earlier[COMPARED[rule]]})
    elif rule in OF_SOURCE:
        own, source = OF_SOURCE[rule]
        told.update({"own": later[own], "of_source": later[source]})
    return told


def order(race):
    facts = race.ranked()
    return [{**place(number, fact), **(reason(facts[number - 1], fact) if number else {})}
            for number, fact in enumerate(facts)]


def recorded(record):
    """The members that the record lines give; a value that is not known has none."""
    told = {}
    if record.target:
        told["host"], told["port"] = record.target
    if record.time:
        told["at"] = record.time
    if record.client:
        told["from"] = print_address(record.client)
    if record.end:
        told["client"] = dict(zip(["end", "ms"], record.end))
    lookups = [{"family": family, "reason": word} for family, word in record.lookups.items()]
    servers = [{"address": print_address(address), "reason": word, "ms": ticks}
               for address, word, ticks in record.servers]
    outcomes = [{"address": print_address(address), "reason": word} for address, word in record.attempts.items()]
    outcomes += [{"address": print_address(address), "untried": True} for address in record.untried]
    prefixes = [print_prefix(prefix) for prefix in record.prefixes]
    lists = {"lookups": lookups, "nat64": prefixes, "servers": servers, "outcomes": outcomes}
    return {**told, **{name: listed for name, listed in lists.items() if listed}}


def lines_of(races, changes, value_of):
    return "".join(one_line({"file": None, "race": number, "line": race.line, **value_of(race)})
                   for number, race in enumerate((race.changed(changes) for race in races), 1)).encode()


def replayed(races, changes):
    return lines_of(races, changes, lambda race: {"attempts": [attempt(line) for line in race.report.lines],
                                                  "result": result(race.report)})


def ordered(races, changes):
    return lines_of(races, changes, lambda race: {"order": [place(at, fact) for at, fact in enumerate(race.ranked())]})


def explained(races, changes):
    return lines_of(races, changes, lambda race: {
        **recorded(race.record), **plain_accounts.times(race), "order": order(race),
        "events": [{"tick": tick, **event} for tick, event, _ in plain_story.events(race, race.report)]})
