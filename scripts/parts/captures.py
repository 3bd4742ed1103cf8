"""Tries tools/from-capture and tools/compare-done, with a built program, on captures of clients (examples/captures and
examples/incidents), which must give the texts beside them; of races that are drawn (drawn_capture.py), whose timelines
are known; and on such that are damaged, cut, or show too little; and how both compare races that were made up.

needs: tshark
"""
import re
import runpy
import types

from drawn_capture import HOST as HOST_LINES
from drawn_capture import draw_into
from support import OPTIONS, ROOT, must, needs, run, seconds_of_children, tell

HE = OPTIONS.program
CAPTURES = ROOT / "examples/captures"
HOST = CAPTURES / "host-lines"
TOOL = types.SimpleNamespace(**runpy.run_path(str(ROOT / "tools/from-capture"), run_name="from_capture"))
INCIDENTS = ROOT / "examples/incidents"
CLIENTS = {"curl": "curl", "wget": "wget", "ssh": "ssh", "go": "Go", "node": "node", "asyncio": "asyncio"}
DRAWN = 1000
MOST_SECONDS = 60
SHORT = [  # the words of the table for the first difference from the rules
    ("as the rules have it", "same"), ("no Resolution Delay: it waits", "waits for AAAA"),
    ("it waits for the A answer", "waits for A"), ("a failure starts the next attempt", "next after failure"),
    (r"an? (?:earlier|later) start: attempt \d+ starts (\d+) after", r"delay \1"),
    ("an? (?:earlier|later) start", "other start"), ("another order", "other order"),
    (r"(IPv\d) is left out", r"\1 left out"), ("(fewer|further) attempts", r"\1 attempts"),
    (r"attempt \d+ was given up", "gives up"),
]


def from_capture(*words):
    needs("tshark")
    return run(ROOT / "tools/from-capture", *words)


def noted(said):
    """Of each race the last note, which says where it departs from the rules."""
    found = dict(re.findall(r"(?m)^(\d+): (.*)$", said))
    return {number: found[number] for number in sorted(found, key=int)}


def is_same(name, is_good):
    tell(is_good, f"{name}: differs")


def is_sound(ran):
    """Whether it went well, and what it wrote is taken by the program."""
    return ran.returncode == 0 and run(HE, "check", input=ran.stdout).returncode == 0


def is_refused(name, words, said):
    """One line on standard error, and nothing else."""
    ran = from_capture(*words)
    is_same(name, ran.returncode == 1 and not ran.stdout and ran.stderr.count("\n") == 1
            and ran.stderr.startswith("from-capture: ") and said in ran.stderr)


def check_clients():
    """Each capture makes the files beside it."""
    for client in CLIENTS:
        ran = from_capture(CAPTURES / f"{client}.pcap", "--host", HOST)
        compared = from_capture(CAPTURES / f"{client}.pcap", "--host", HOST, "--compare", "--he", HE)
        lines = "".join(f"{number}: {words}\n" for number, words in noted(compared.stderr).items())
        is_same(f"{client}: status", is_sound(ran) and compared.stdout == ran.stdout)
        is_same(f"{client}: notes", compared.stderr == ran.stderr + lines)
        for end, text in (("timeline", ran.stdout), ("said", ran.stderr), ("compared", lines)):
            is_same(f"{client}.{end}", text == (CAPTURES / f"{client}.{end}").read_text())


def check_incidents():
    """Each timeline of examples/incidents is what is made of the capture there, with outcomes from its other races."""
    timelines = sorted(INCIDENTS.glob("*.timeline"))
    must(len(timelines) == 7, *timelines)
    for timeline in timelines:
        ran = from_capture(INCIDENTS / "wget.pcap", "--host", INCIDENTS / "host-lines", "--share",
                           "--name", f"{timeline.stem}.test")
        is_same(timeline.name, is_sound(ran) and ran.stdout == timeline.read_text())


def check_versions():
    """Without its record lines a timeline has the transcripts, orders and stories that it has with them."""
    for client in CLIENTS:
        lines = (CAPTURES / f"{client}.timeline").read_text()
        plain = re.sub(r"(?m)^record .*\n", "", lines)
        is_same(f"{client}: record lines", plain.count("race 1\n") == lines.count("\nrecord at ") + 1)
        for command in ("replay", "order"):
            written = [run(HE, command, input=text).stdout for text in (plain, lines)]
            is_same(f"{client}: {command}", written[0] == written[1])


def check_table():
    must(table() in (ROOT / "docs/CLIENTS.md").read_text(), f"the table of docs/CLIENTS.md should be\n{table()}")


def transcript_of(course):
    """The course of a client, in the form of a transcript."""
    lines = [f"attempt {place} {start} {ip} {mark} {tick}\n"
             for place, (start, ip, mark, tick) in enumerate(course.attempts)]
    place = next((f"{place} " for place, attempt in enumerate(course.attempts) if attempt.mark == "won"), "")
    return "".join([*lines, f"{course.result} {place}{course.tick}\n"])


def check_drawn():
    """A thousand races, in less than a minute of processor time."""
    work, host = OPTIONS.folder, OPTIONS.folder / "host"
    draw_into(work, DRAWN, OPTIONS.seed)
    lines = (work / "drawn.timeline").read_text()
    host.write_text("".join(f"{line}\n" for line in HOST_LINES))
    begun = seconds_of_children()
    ran = from_capture(work / "drawn.pcap", "--host", host)
    is_same("time", seconds_of_children() - begun < MOST_SECONDS)
    is_same("timelines", ran.stdout == lines)
    races = TOOL.read_capture(types.SimpleNamespace(file=str(work / "drawn.pcap"), client=[]), [])[2].races
    did = "".join(transcript_of(TOOL.course(race)) for race in races if race.attempts)
    is_same("what was done", did == (work / "drawn.done").read_text())
    said = [line for line in ran.stderr.splitlines() if re.search(r" was silent: | passed over$| of no answer ", line)]
    is_same("what is said", "".join(f"{line}\n" for line in said) == (work / "drawn.said").read_text())
    is_same("he check", run(HE, "check", input=lines).returncode == 0)


OWN_DELAYS = {"curl": 200, "go": 300}  # milliseconds: curl's --happy-eyeballs-timeout-ms, and Go's FallbackDelay


def check_fit():
    """The settings that fit a client: its documented delay is found, and what went by the rules still does."""
    for client in CLIENTS:
        capture = CAPTURES / f"{client}.pcap"
        ran = from_capture(capture, "--host", HOST, "--fit", "--he", HE)
        fitted = OPTIONS.folder / "fitted"
        fitted.write_text(ran.stdout)
        is_same(f"{client} fitted: status", is_sound(ran))
        settings = r"(?:attempt|resolution|floor) \d[^:]*|the standard's settings"
        after = re.findall(rf"(?m)^\d+: ({settings}): (.*)$", ran.stderr)
        before = list(noted((CAPTURES / f"{client}.compared").read_text()).values())
        is_same(f"{client} fitted: nothing lost", len(after) == len(before) and all(
            words == once for (_, words), once in zip(after, before) if once == "as the rules have it"))
        is_same(f"{client} fitted: what is not", all(
            words == once for (settings, words), once in zip(after, before) if settings == "the standard's settings"))
        replayed = run(HE, "replay", input=ran.stdout).stdout
        ended = run(ROOT / "tools/compare-done", fitted, input=replayed).stdout.splitlines()
        is_same(f"{client} fitted: the ends", all(
            line.endswith(words) or "not known" in line for line, (_, words) in zip(ended, after)
            if words == "as the rules have it"))
        delays = [int(delay) for delay in re.findall(r"(?m)^set attempt (\d+)$", ran.stdout)]
        own = OWN_DELAYS.get(client)
        is_same(f"{client} fitted: its delay", all(own <= delay <= own + 3 for delay in delays) and delays if own
                else not delays)
    is_refused("no program to fit with", [CAPTURES / "curl.pcap", "--fit", "--he", OPTIONS.folder / "nothing"],
               "--compare and --fit need the program he")


def check_faults():
    work, whole = OPTIONS.folder, (CAPTURES / "curl.pcap").read_bytes()
    host = work / "no-host"
    host.write_text("source 192.0.2.2/24 1\naaaa 0 none\n")
    for name, content, said in (
            ("empty", b"", "the file is empty"), ("text", b"race 1\nend\n" * 99, "isn't a capture file"),
            ("cut-in-the-header", whole[:17], "cut short"),
            ("damaged", whole[:24] + b"\xff" * 16 + whole[40:], "damaged or corrupt"),
            ("without-packets", whole[:24], "no race in it")):
        (work / name).write_bytes(content)
        is_refused(f"{name} capture", [work / name], said)
    kept = CAPTURES / "curl.pcap"
    for name, words, said in (
            ("no such file", [work / "nothing"], "no such file"), ("no capture", [], "FILE"),
            ("no such name", [kept, "--name", "other.test"], "no race for other.test among "),
            ("no such client", [kept, "--client", "192.0.2.99"], "no race"),
            ("no address", [kept, "--client", "curl"], "--client"), ("no host lines", [kept, "--host", host], "line 2"),
            ("no such host", [kept, "--host", work / "nothing"], "nothing: no such file"),
            ("no such option", [kept, "--nothing"], "--nothing")):
        is_refused(name, words, said)


def check_damaged():
    """Captures in which bytes are changed at random: the rest is reported, and the program takes it."""
    needs("editcap")
    for number in range(8):
        file = OPTIONS.folder / "damaged.pcap"
        run("editcap", "-E", f"0.0{1 + number % 4}", "--seed", number, CAPTURES / "node.pcap", file)
        ran = from_capture(file, "--share")
        is_same(f"damaged capture {number}: {ran.stderr[-200:]}", is_sound(ran)
                or ran.returncode == 1 and ran.stderr.count("\n") == 1)


def check_parts():
    """Captures of which a part is missing: the rest is reported, and what is missing is noted."""
    work, kept = OPTIONS.folder, CAPTURES / "curl.pcap"
    wanted = from_capture(kept, "--host", HOST).stdout.partition("end\n")[0] + "end\n"
    for name, filter, said in (
            ("late", "not (dns.flags.response == 0 and frame.number < 4)", "the capture began late"),
            ("no-answer", "not (dns.flags.response == 1 and dns.qry.type == 1)", "no answer for A, so no line"),
            ("no-query", "not dns.qry.type == 1", "no query for A, so no line"),
            ("encrypted", "tcp or icmpv6 or (dns and frame.number < 99)", "to addresses of no answer")):
        run("tshark", "-r", kept, "-Y", filter, "-w", work / name)
        ran = from_capture(work / name, "--host", HOST)
        is_same(f"{name} capture", is_sound(ran) and said in ran.stderr)
    run("tshark", "-r", kept, "-Y", "tcp and not dns", "-w", work / "connections")
    run("editcap", "-s", "110", kept, work / "short")
    is_refused("packets cut when captured", [work / "short", "--name", "many.test"], "more are cut or damaged")
    is_refused("connections alone", [work / "connections"], "no race in it")
    one = from_capture(kept, "--host", HOST, "--name", "FINE.test.", "--client", "192.0.2.2", "--client", "2001:db8::2")
    is_same("one race", one.returncode == 0 and one.stdout == wanted)
    shown = from_capture(kept)
    is_same("no host", is_sound(shown) and "those that the SYNs show" in shown.stderr
            and "source 2001:db8::2/64 1\n" in shown.stdout)


IPS = {"6": "2001:db8::1", "4": "192.0.2.1"}
V6, BOTH = "10 6 won 30", "10 6 cancelled 280, 260 4 won 280"
DEPARTURES = [  # the ticks of both answers, what the rules give, what a client did, and what is said first of it
    ("10 0", V6, V6, "as the rules have it"), ("10 0", V6, "29 6 won 49", "as the rules have it"),
    ("10 0", V6, "31 6 won 51", "a later start: attempt 1"),
    ("10 0", V6, "10 4 won 30", "another order: attempt 1 is at 192.0.2.1"),
    ("90 0", "50 4 won 60", "0 4 won 10", "no Resolution Delay: attempt 1 starts at 0"),
    ("90 0", "50 4 won 60", "91 6 won 100", "no Resolution Delay: it waits for the AAAA answer at 90"),
    ("- 0", "50 4 won 60", "5000 4 won 5010", "no Resolution Delay: it waits for the AAAA answer that never"),
    ("0 90", "0 6 won 10", "91 6 won 100", "it waits for the A answer at 90"),
    ("10 0", BOTH, "10 6 cancelled 130, 110 4 won 130", "an earlier start: attempt 2 starts 100"),
    ("10 0", BOTH, "10 6 cancelled 330, 310 4 won 330", "a later start: attempt 2 starts 300"),
    ("10 0", BOTH, "10 6 failed 20, 21 4 won 40", "a failure starts the next attempt"),
    ("10 0", BOTH, "10 6 won 900", "IPv4 is left out"),
    ("10 0", V6, "10 6 cancelled 30, 20 4 won 30", "further attempts: attempt 2 at 192.0.2.1"),
    ("10 0", BOTH, "10 6 cancelled 270, 260 4 won 280", "attempt 1 was given up"),
    ("10 0", BOTH, "10 6 cancelled 280, 260 4 cancelled 280", "another end: limit"),
]


def transcript(attempts):
    """A transcript of attempts, of which the start, the family, the fate and its tick are given."""
    rows = [attempt.split() for attempt in attempts.split(", ")]
    lines = [f"attempt {place} {start} {IPS[family]} {fate} {tick}\n"
             for place, (start, family, fate, tick) in enumerate(rows)]
    won = [f"won {place} {tick}\n" for place, (_, _, fate, tick) in enumerate(rows) if fate == "won"]
    return "".join([*lines, *(won or [f"limit {rows[-1][3]}\n"])])


def check_departures():
    for number, (ticks, rules, did, wanted) in enumerate(DEPARTURES):
        answered = {kind: int(tick) for kind, tick in zip(("aaaa", "a"), ticks.split()) if tick != "-"}
        courses = [next(TOOL.courses(transcript(each))) for each in (rules, did)]
        found = "; ".join(TOOL.departures(answered, *courses)) or "as the rules have it"
        is_same(f"departure {number}: {found}", found.startswith(wanted))
    nothing = TOOL.departures({}, TOOL.Course([], "limit", 30000), next(TOOL.courses(transcript(V6))))
    is_same("the rules try nothing", nothing == ["the rules try nothing"])


ENDS = [  # record lines, what the rules give, and what is said of both
    ("connected 30", V6, "as the rules have it"), ("connected 50", V6, "as the rules have it"),
    ("connected 51", V6, "connected after 51 ms, by the rules after 30: 21 later"),
    ("connected 259", BOTH, "connected after 259 ms, by the rules after 280: 21 sooner"),
    ("gave-up 900", V6, "gave-up after 900 ms, by the rules connected after 30"),
    ("failed 9", V6, "failed after 9 ms, by the rules connected after 30"),
    ("connected 9", "10 6 cancelled 3000", "connected after 9 ms, by the rules not connected after 3000"),
    ("gave-up 900", "10 6 cancelled 3000", "as the rules have it"),
    ("failed 9", "10 6 failed 30", "as the rules have it"),
    ("untried 192.0.2.1, connected 280", BOTH, "not known: the rules try 192.0.2.1 at 260, which nobody tried"),
    ("untried 192.0.2.1, connected 30", V6, "as the rules have it"),
    ("from 192.0.2.9", V6, "no record line says how the client ended"),
]


def check_ends():
    """tools/compare-done, with all races in one text, and its faults."""
    timeline = OPTIONS.folder / "timeline"
    lines = ["".join(f"record {line}\n" for line in said.split(", ")) + "race 1\nend\n" for said, _, _ in ENDS]
    timeline.write_text("".join([*lines, "race 1\nend\n"]))
    given = "".join(transcript(rules) for _, rules, _ in ENDS) + "limit 9\n"
    ran = run(ROOT / "tools/compare-done", timeline, input=given)
    wanted = [said for _, _, said in ENDS] + ["no record line says how the client ended"]
    wanted = [f"{number}: {said}" for number, said in enumerate(wanted, 1)]
    last = "13 races, 5 as the rules have it, 3 not known"
    is_same("ends", ran.returncode == 0 and ran.stdout.splitlines() == [*wanted, last])
    wider = run(ROOT / "tools/compare-done", timeline, "--slack", "21", input=transcript(V6) * 13)
    is_same("slack", wider.returncode == 0 and "3: as the rules have it\n" in wider.stdout)
    for number, (text, rules) in enumerate((("race 1\nend\n", V6 * 0), ("record connected x\nrace 1\nend\n", V6),
                                            ("race 1\nend\n" * 2, V6), ("race 1\nend\n", None))):
        timeline.write_text(text)
        given = "nothing\n" if rules is None else transcript(rules) if rules else ""
        ran = run(ROOT / "tools/compare-done", timeline, input=given)
        is_same(f"fault {number}", ran.returncode == 1 and not ran.stdout
                and re.fullmatch(r"compare-done: .*\n", ran.stderr))
    is_same("no timeline", run(ROOT / "tools/compare-done", OPTIONS.folder / "nothing").returncode == 1)


def short(compared):
    for pattern, form in SHORT:
        if found := re.match(pattern, compared):
            return found.expand(form)
    raise ValueError(compared)


def cells(client):
    """By the name of a scenario: time to connect, attempts, and the first place where the client leaves the rules."""
    races = (CAPTURES / f"{client}.timeline").read_text().removesuffix("end\n").split("end\n")
    compared = noted((CAPTURES / f"{client}.compared").read_text()).values()
    found = {}
    for race, departures in zip(races, compared, strict=True):
        name = re.search(r"(?m)^record to (\S+)\.test ", race)[1]
        time = re.search(r"(?m)^record connected (\d+)$", race)
        answered = sum(len(line.split()) - 2 for line in re.findall(r"(?m)^(?:aaaa|a) .*[^e]$", race))
        tried = answered - race.count("\nrecord untried ")
        found[name] = f"{time[1] if time else 'never'}, {tried}: {short(departures)}"
    return found


def table():
    by_client = {client: cells(client) for client in CLIENTS}
    names = dict.fromkeys(name for found in by_client.values() for name in found)
    rows = [["Scenario", *CLIENTS.values()], ["---"] * (len(CLIENTS) + 1)]
    rows += [[f"`{name}`", *(found.get(name, "never, 0: no lookup") for found in by_client.values())] for name in names]
    return "".join(f"| {' | '.join(row)} |\n" for row in rows)
