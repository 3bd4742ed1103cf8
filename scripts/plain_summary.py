"""A second reading of what `he summary` writes, also by groups, apart from the program, as plain.py is of the rules: by
docs/DEFINITIONS.md and the specs of he_summary and he_compare.

needs: python3 and its standard library
"""
import re
from collections import Counter, namedtuple

import plain
import plain_accounts
from plain import counted, one_line, print_address

# How many of the addresses are told that cost most.
MOST_TOLD = 10
PERCENTS = {"median": 50, "p90": 90, "p99": 99, "max": 100}
GROUPINGS = ("file", "hour", "family", "host")
# The name of a record, as `he proxy --record` gives it, with its day and its hour.
RECORD = re.compile(r"(?:.*/)?(\d{4}-\d\d-\d\d)/(\d\d)-\d\d-\d\d\.\d{3}-[^/]*", re.ASCII | re.DOTALL)
FAMILIES = {6: "IPv6", 4: "IPv4", None: "none"}
HEADING = ("  races  connected  p50 ms  p90 ms  p99 ms  attempts       IPv6  names ms   lost ms  {}\n")

LOOKUPS = {"aaaa": "AAAA", "a": "A"}
# Why a race did not connect, with the words of a text.
REASONS = {"timed_out": "timed out", "all_failed": "all addresses failed", "no_address": "without an address"}
# What the time of a race goes into, as its object has it, with the words of a text.
SHARES = {"names_ms": "names", "lost_ms": "lost", "connecting_ms": "connecting", "machine_ms": "this machine",
          "unknown_ms": "unknown"}

# How many hosts of an address a text names.
MOST_HOSTS = 3

# `times` has the objects of the races' times (plain_accounts), those of the won ones apart; `charges` the time that each
# address owns; `hosts` the hosts whose races tried it.
Summary = namedtuple(
    "Summary", "races won not_won reasons times won_times attempts most waited failed unanswered tried charges hosts"
    " slowest ends lookups servers")


def percentile(times, percent):
    """The least time within which at least so many of 100 of the times lie."""
    return next(time for time in sorted(times) if 100 * sum(other <= time for other in times) >= percent * len(times))


def is_failed(race, line):
    return line.fate == "failed" and line.address not in race.record.untried


def is_unanswered(race, line):
    """Whether an attempt was under way up to the race's end, for the Connection Attempt Delay or longer, to an address
    that a client tried."""
    return (line.fate == "cancelled" and line.address not in race.record.untried
            and line.tick - line.start >= race.setting("attempt"))


def has_waited(race, report):
    """Whether its first attempt starts with no AAAA answer, after the A answer: it waited for the Resolution Delay
    (RFC 8305 section 3)."""
    if not report.lines:
        return False
    start = report.lines[0].start
    return not race.is_seen("aaaa", start) and race.is_seen("a", start - 1)


def reason_of(report):
    """Why a race did not connect."""
    if report.result.kind == "limit":
        return "timed_out"
    return "all_failed" if report.lines else "no_address"


def rounded(number, of, unit):
    """So many units of a share or a mean, rounded to the nearest."""
    return (2 * unit * number + of) // (2 * of)


def share(number, of):
    """A share in percent, to a tenth; of none there is none."""
    if not of:
        return ""
    tenths = rounded(number, of, 1000)
    return f" ({tenths // 10}.{tenths % 10} %)"


def charged(races):
    """The milliseconds that the attempts to each address own."""
    charges = Counter()
    for race, report in races:
        for who, millis in plain_accounts.account(race).items():
            if isinstance(who, int):
                charges[report.lines[who].address] += millis
    return charges


def tried_hosts(races):
    """Of each address the hosts whose races tried it, each once, in the order in which they first come."""
    hosts = {}
    for race, report in races:
        for line in report.lines if race.record.target else ():
            hosts.setdefault(line.address, {})[host_of(race)] = None
    return hosts


def summed(races, changes):
    made = [(race, race.report) for race in (race.changed(changes) for race in races)]
    won = [(number, race, report) for number, (race, report) in enumerate(made, 1) if report.winner]
    lines = [(race, line) for race, report in made for line in report.lines]
    return Summary(
        len(made), Counter(report.winner.address.family for _, _, report in won),
        [report.result.tick for _, report in made if not report.winner],
        Counter(reason_of(report) for _, report in made if not report.winner),
        [plain_accounts.times(race) for race, _ in made], [plain_accounts.times(race) for _, race, _ in won], len(lines),
        max((len(report.lines) for _, report in made), default=0), sum(has_waited(*one) for one in made),
        *(Counter(line.address for race, line in lines if test(race, line)) for test in (is_failed, is_unanswered)),
        Counter(line.address for _, line in lines), charged(made), tried_hosts(made),
        sorted(won, key=lambda one: (-one[2].result.tick, one[0])),
        [(*race.record.end, report.result.tick if report.winner else None) for race, report in made if race.record.end],
        Counter(item for race in races for item in race.record.lookups.items()),
        Counter((address, word == "silent") for race in races for address, word, _ in race.record.servers))


def worst(summary):
    """The addresses that cost most time, equal ones by the attempts that failed or were not answered, then by their
    number as IPv6 addresses."""
    dead = summary.failed + summary.unanswered
    addresses = [address for address in summary.tried if summary.charges[address] or dead[address]]
    return sorted(addresses, key=lambda address: (-summary.charges[address], -dead[address], plain.mapped(address))
                  )[:MOST_TOLD]


def client_times(summary):
    """The times after which clients connected, and those by the rules in the same races, where these were won."""
    connected = [(ticks, time) for word, ticks, time in summary.ends if word == "connected"]
    return [ticks for ticks, _ in connected], [time for _, time in connected if time is not None]


def ended(summary):
    """How many clients ended so, of each way in which any did."""
    counts = Counter(word for word, _, _ in summary.ends)
    return [(word, counts[word]) for word in plain.CLIENT_ENDS if counts[word]]


def failed_lookups(summary):
    """How many look-ups of each family have no address for each reason, where any have."""
    each = [(family, word, summary.lookups[family, word]) for family in LOOKUPS for word in plain.LOOKUP_WORDS]
    return [one for one in each if one[2]]


def dead_servers(summary):
    """The name servers that most often did not answer, with how often they failed and were silent."""
    lost = Counter()
    for (address, _), number in summary.servers.items():
        lost[address] += number
    first = sorted(lost, key=lambda address: (-lost[address], plain.mapped(address)))[:MOST_TOLD]
    return [(address, summary.servers[address, False], summary.servers[address, True]) for address in first]


def within(what, times):
    """The row of some times."""
    return [f"{what:<21}" + "".join(f"{time:>10}" for time in percentiles(times).values())] if times else []


def rows(summary):
    """The percentiles of times; those of what of them went into the names and was lost are left out where all are 0."""
    parts = [("  of it names", [times["names_ms"] for times in summary.won_times]),
             ("  of it lost", [times["lost_ms"] for times in summary.won_times])]
    clients, by_rules = client_times(summary)
    return [
        *[" " * 24 + " median       p90       p99       max  ms"] * bool(summary.races),
        *within("time to connect", [times["ms"] for times in summary.won_times]),
        *(row for what, times in parts if any(times) for row in within(what, times)),
        *within("until given up", summary.not_won),
        *within("the clients connected", clients), *within("  by RFC 8305", by_rules),
    ]


def sums(summary):
    return {name: sum(times[name] for times in summary.times) for name in plain_accounts.MEMBERS}


def went(summary):
    """What the time of all races went into."""
    total = sums(summary)
    parts = [f"{what} {total[name]} ms" for name, what in SHARES.items()
             if total[name] or name not in ("machine_ms", "unknown_ms")]
    return [f"where the time went: {', '.join(parts)}"] if total["ms"] else []


def record_lines(summary):
    """What the record lines say, but for times and name servers."""
    ends, lookups = ended(summary), failed_lookups(summary)
    return [
        *["clients: " + ", ".join(f"{number} {word.replace('-', ' ')}" for word, number in ends)] * bool(ends),
        *["look-ups without an address: "
          + ", ".join(f"{number} {LOOKUPS[family]} {word.replace('-', ' ')}" for family, word, number in lookups)]
        * bool(lookups),
    ]


def record_members(summary):
    clients, by_rules = client_times(summary)
    ends = Counter(word for word, _, _ in summary.ends)
    servers = [{"address": print_address(address), "given_up": failed + unanswered, "failed": failed,
                "no_answer": unanswered} for address, failed, unanswered in dead_servers(summary)]
    return {
        "clients": {word.replace("-", "_"): ends[word] for word in plain.CLIENT_ENDS},
        "client_ms": percentiles(clients), "rules_ms": percentiles(by_rules),
        "lookups": {family: {word.replace("-", "_"): summary.lookups[family, word] for word in plain.LOOKUP_WORDS}
                    for family in LOOKUPS},
        "servers": servers,
    }


def percentiles(times, names=tuple(PERCENTS)):
    """By their names; of no times none."""
    return {name: percentile(times, PERCENTS[name]) for name in names} if times else None


def first_line(summary):
    connected, not_connected = len(summary.won_times), len(summary.not_won)
    reasons = ", ".join(f"{summary.reasons[name]} {what}" for name, what in REASONS.items() if summary.reasons[name])
    return (f"{counted(summary.races, 'race')}: {connected} connected{share(connected, summary.races)}"
            + f", {not_connected} not: {reasons}" * bool(not_connected))


def families(summary):
    connected = len(summary.won_times)
    parts = [f"{FAMILIES[family]}: {summary.won[family]}{share(summary.won[family], connected)}" for family in (6, 4)
             if summary.won[family]]
    return [f"connected by {', '.join(parts)}"] if parts else []


def some_hosts(hosts):
    names = list(hosts)
    more = f" and {len(names) - MOST_HOSTS} more" if len(names) > MOST_HOSTS else ""
    return ", ".join(names[:MOST_HOSTS]) + more


def address_rows(summary):
    """The rows of the addresses, with a column for their hosts if any of them has one."""
    addresses = worst(summary)
    width = max([len("address"), *(len(print_address(address)) for address in addresses)])
    has_hosts = any(summary.hosts.get(address) for address in addresses)
    heading = "  attempts    failed no answer   lost ms  " + (f"{'address':<{width}}  hosts" if has_hosts else "address")
    rows = [heading] * bool(addresses)
    for address in addresses:
        hosts = summary.hosts.get(address, ())
        shown = f"{print_address(address):<{width}}  {some_hosts(hosts)}" if hosts else print_address(address)
        rows.append(f"{summary.tried[address]:>10}{summary.failed[address]:>10}{summary.unanswered[address]:>10}"
                    f"{summary.charges[address]:>10}  {shown}")
    return rows


def as_text(summary, slowest):
    servers, slow = dead_servers(summary), summary.slowest[:slowest]
    lines = [
        first_line(summary), *families(summary), *rows(summary), *went(summary),
        *[f"attempts: {summary.attempts}, at most {summary.most} in a race"] * bool(summary.attempts),
        *[f"slow AAAA: in {counted(summary.waited, 'race')}{share(summary.waited, summary.races)} the IPv4 attempt started"
          " without it, after the Resolution Delay"] * bool(summary.waited),
        *record_lines(summary),
        *address_rows(summary),
        *["  given up    failed no answer  name server"] * bool(servers),
        *(f"{failed + unanswered:>10}{failed:>10}{unanswered:>10}  {print_address(address)}"
          for address, failed, unanswered in servers),
        *["slowest:"] * bool(slow),
        *(f"  -:{race.line} race {number}: {report.result.tick} ms to {print_address(report.winner.address)},"
          f" names {plain_accounts.times(race)['names_ms']} ms, lost {plain_accounts.times(race)['lost_ms']} ms"
          for number, race, report in slow),
    ]
    return "".join(f"{line}\n" for line in lines)


def totals_object(summary):
    """The members that also a group has."""
    return {
        "races": summary.races,
        "connected": {"all": len(summary.won_times), "ipv6": summary.won[6], "ipv4": summary.won[4]},
        "not_connected": {"all": len(summary.not_won), **{name: summary.reasons[name] for name in REASONS}},
        "total": sums(summary),
        "connect_ms": percentiles([times["ms"] for times in summary.won_times]),
        "names_ms": percentiles([times["names_ms"] for times in summary.won_times]),
        "lost_ms": percentiles([times["lost_ms"] for times in summary.won_times]),
        "given_up_ms": percentiles(summary.not_won),
        "attempts": {"total": summary.attempts, "most": summary.most}, "resolution_delay": summary.waited,
    }


def as_object(summary, slowest):
    addresses = [{"address": print_address(address), "attempts": summary.tried[address],
                  "failed": summary.failed[address], "no_answer": summary.unanswered[address],
                  "lost_ms": summary.charges[address], "hosts": list(summary.hosts.get(address, ()))}
                 for address in worst(summary)]
    slow = [{"file": "-", "race": number, "line": race.line, "ms": report.result.tick,
             "address": print_address(report.winner.address),
             **{name: plain_accounts.times(race)[name] for name in ("names_ms", "lost_ms")}}
            for number, race, report in summary.slowest[:slowest]]
    return {**totals_object(summary), "addresses": addresses, **record_members(summary),
            **({"slowest": slow} if slowest else {})}


def written_for(files, changes, slowest=0):
    """The summary of these files, with the worst hour and the worst host."""
    races = [race for _, read in files for race in read]
    worst_lines = (worst_line(by, files, changes) for by in ("hour", "host"))
    return "".join((as_text(summed(races, changes), slowest), *worst_lines)).encode()


def written(races, changes, slowest=0):
    return written_for([("-", races)], changes, slowest)


def written_json(races, changes, slowest=0):
    return one_line(as_object(summed(races, changes), slowest)).encode()


def seconds(millis):
    return f"{millis // 1000}.{millis % 1000:03}"


def metric(name, kind, help_text, samples):
    """A metric with its samples: each has what follows its name, and its value."""
    unit = f"# UNIT {name} seconds\n" if name.endswith("_seconds") else ""
    lines = "".join(f"{name}{labels} {value}\n" for labels, value in samples)
    return f"# TYPE {name} {kind}\n{unit}# HELP {name} {help_text}\n{lines}"


def as_metrics(summary):
    times = [times["ms"] for times in summary.won_times]
    connected = [(f'_total{{result="connected",family="{FAMILIES[family].lower()}"}}', summary.won[family])
                 for family in (6, 4)]
    reasons = [(f'_total{{result="{name}"}}', summary.reasons[name]) for name in REASONS]
    quantiles = [(f'{{quantile="{quantile}"}}', seconds(percentile(times, percent)))
                 for quantile, percent in (("0.5", 50), ("0.9", 90), ("0.99", 99), ("1", 100)) if times]
    into = [(f'_total{{into="{name.removesuffix("_ms")}"}}', seconds(sums(summary)[name]))
            for name in plain_accounts.MEMBERS[1:]]
    return "".join((
        metric("he_races", "counter", "Races by how they ended.", connected + reasons),
        metric("he_connect_seconds", "summary", "Time to connect, of the races that connected.",
               [*quantiles, ("_sum", seconds(sum(times))), ("_count", len(times))]),
        metric("he_time_seconds", "counter", "Time of all races, by what it went into.", into),
        metric("he_attempts", "counter", "Connection attempts.", [("_total", summary.attempts)]),
        metric("he_resolution_delays", "counter", "Races whose IPv4 attempt started without the AAAA answer.",
               [("_total", summary.waited)]),
        "# EOF\n"))


def written_metrics(races, changes):
    return as_metrics(summed(races, changes)).encode()


# Groups


def hour_of(name):
    found = RECORD.fullmatch(name)
    return f"{found[1]} {found[2]}" if found else "other"


def family_of(race):
    winner = race.report.winner
    return FAMILIES[winner and winner.address.family]


def host_of(race):
    return "{} {}".format(*race.record.target) if race.record.target else "no host"


def groups_of(by, files, changes):
    """The races of each group with its label, in order: `files` has the name and the races of each."""
    if by == "file":
        groups = [(name, races) for name, races in files]
    elif by == "hour":
        hours = {}
        for name, races in files:
            hours.setdefault(hour_of(name), []).extend(races)
        groups = sorted(hours.items(), key=lambda one: (one[0] == "other", one[0]))
    elif by == "host":
        hosts = {}
        for race in (race for _, races in files for race in races):
            hosts.setdefault(host_of(race), []).append(race)
        groups = hosts.items()
    else:
        changed = [race.changed(changes) for _, races in files for race in races]
        groups = [(label, [race for race in changed if family_of(race) == label]) for label in FAMILIES.values()]
    return [(label, races) for label, races in groups if races]


def share_cell(number, of):
    if not of:
        return "          -"
    tenths = rounded(number, of, 1000)
    return f"{tenths // 10:>7}.{tenths % 10} %"


def mean_cell(number, of):
    mean = rounded(number, of, 100) if of else 0
    return f"{mean // 100:>7}.{mean % 100:02}"


def time_cells(times, names=("median", "p90", "p99")):
    found = percentiles(times)
    return "".join(f"{found[name] if found else '-':>8}" for name in names)


def group_row(summary, label):
    total, connected = sums(summary), len(summary.won_times)
    cells = f"{summary.races:>7}{share_cell(connected, summary.races)}"
    cells += time_cells([times["ms"] for times in summary.won_times]) + mean_cell(summary.attempts, summary.races)
    return (f"{cells}{share_cell(summary.won[6], connected)}{total['names_ms']:>10}{total['lost_ms']:>10}  {label}\n")


def group_object(summary, label):
    return one_line({**totals_object(summary), "group": label})


def worst_line(by, files, changes):
    """The group with the most races that did not connect, of equal ones the one that lost the most time: of several
    groups, if there are such races or time was lost."""
    groups = [(label, summed(races, changes)) for label, races in groups_of(by, files, changes)]
    costs = [(len(summary.not_won), sums(summary)["lost_ms"]) for _, summary in groups]
    if len(groups) < 2 or not any(map(any, costs)):
        return ""
    (label, summary), (not_won, lost) = max(zip(groups, costs), key=lambda one: one[1])
    return f"worst {by}: {label} ({not_won} of {summary.races} not connected, lost {lost} ms)\n"


def written_by(by, files, changes, is_json=False):
    """What is written of these files; of standard input that is one of the name `-`."""
    groups = [(label, summed(races, changes)) for label, races in groups_of(by, files, changes)]
    make = group_object if is_json else group_row
    return ("" if is_json else HEADING.format(by)).encode() + "".join(
        make(summary, label) for label, summary in groups).encode()


def writer_by(by, is_json):
    return lambda races, changes: written_by(by, [("-", races)], changes, is_json)


# What is written of standard input, by the words of the command.
WRITTEN_BY = {f"summary --by {by}{option}": writer_by(by, bool(option)) for by in GROUPINGS
              for option in ("", " --json")}
