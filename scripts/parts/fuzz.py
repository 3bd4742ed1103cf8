"""Runs a built program over texts that are drawn (drawn.py), and tells where it says something else than a second
reading of the rules (plain.py and the files plain_*.py beside it).

A round is one text: some races, half of them with record lines, at times with one thing broken. `he order` and `he replay` with 1, 2, 7 and 64 workers
get it in one piece, then one of the other commands with drawn settings, also as JSON, or `he check --all`, and last one
of all these in random pieces through a pipe. Output, faults and status are compared. Where they differ, the text is
made smaller by lines, and kept with what both said. A seed gives the same texts each time; each round's
seed is printed, and `--seed N --seconds 0` repeats it.
"""
import collections
import contextlib
import os
import re
import time
from concurrent.futures import ThreadPoolExecutor

import plain
import support
from drawn import HEADER, Drawer
from plain_wanted import WRITTEN, Wanted
from support import KEPT, OPTIONS, NotTried, tell

FAULT_LINE = re.compile(rb"^he: (?!line [0-9]+: warning).*\n", re.MULTILINE)
RUNS = [["order"]] + [["replay", "--workers", str(workers)] for workers in (1, 2, 7, 64)]
SECONDS, SECONDS_OF_A_RUN = 60, 120
MOST_SMALLER_TRIES = 400
ROUNDS_OF_A_REPORT = 1000
# Of a large text: the races that differ, and the least bytes, above which workers share its races.
LARGE_RACES = 30
LARGE_BYTES = 10 << 20


def new_run(drawer):
    """A run of one command with drawn settings, or of `check --all`."""
    command = drawer.choice([*WRITTEN, "explain", "compare", "check --all"])
    if command.startswith(("order", "check")):
        return command.split()
    return [*command.split(), *drawer.changes(1 if command == "compare" else 0)]


def run(words, text, pieces=None):
    """The program's answer: its output, its standard error and its status."""
    with contextlib.ExitStack() as held:
        given = {"input": text}
        if pieces:
            reading, writing = os.pipe()
            pool = held.enter_context(ThreadPoolExecutor())
            given = {"stdin": held.enter_context(open(reading, "rb")), "text": False}
            pool.submit(feed, open(writing, "wb", buffering=0), text, pieces)
        done = support.run(OPTIONS.program, *words, timeout=SECONDS_OF_A_RUN, **given)
    return done.stdout, done.stderr, done.returncode


def feed(pipe, text, chance):
    """Writes the text in pieces; a program that has seen enough may close its end."""
    place = 0
    with contextlib.suppress(BrokenPipeError), pipe:
        while place < len(text):
            size = chance.choice([1, 2, 7, 100, 4096, 65536])
            pipe.write(text[place:place + size])
            place += size
            time.sleep(0 if chance.randrange(3) else 0.0002)


def differences(text, chance, runs):
    """The runs that say something else, each with what was wanted and what came."""
    want, found = Wanted(text), []
    for words, in_pieces in runs:
        came = run(words, text, chance if in_pieces else None)
        if words[0] == "check":
            # (no second reading has its sentences and its warnings)
            came = came[0], b"".join(FAULT_LINE.findall(came[1])), came[2]
        if came != want.of(words):
            found.append((words, in_pieces, want.of(words), came))
    return found


def without(parts, differs):
    """The parts without those that the difference does not need: halves first, then smaller runs, then single ones."""
    size, tries = max(1, len(parts) // 2), 0
    while size >= 1 and tries < MOST_SMALLER_TRIES:
        place = 0
        while place < len(parts) and tries < MOST_SMALLER_TRIES:
            shorter = parts[:place] + parts[place + size:]
            tries += 1
            if differs(b"".join(shorter)):
                parts = shorter
            else:
                place += size
        size //= 2
    return parts


def keep(seed, text, found, chance):
    """Keeps the text without the races, and then without the lines, that the first difference does not need."""
    runs = [(words, in_pieces) for words, in_pieces, _, _ in found[:1]]

    def differs(shorter):
        return bool(differences(shorter, chance, runs))

    races = without(re.split(rb"(?<=\nend\n)", text), differs)
    text = b"".join(without(b"".join(races).splitlines(keepends=True), differs))
    KEPT.mkdir(exist_ok=True)
    (KEPT / f"{seed}.timeline").write_bytes(text)
    with open(KEPT / f"{seed}.said", "wb") as file:
        for words, in_pieces, want, came in differences(text, chance, runs) or found:
            file.write(f"he {' '.join(words)}{', in pieces' if in_pieces else ''}\n".encode())
            for name, (out, err, status) in (("wanted", want), ("came", came)):
                file.write(f"-- {name}, status {status}\n".encode() + out + err)


def with_records(text, drawer):
    """Half of the texts with record lines, of which one may be wrong. Where nothing is, the second reading is to find
    the same races, line numbers aside."""
    if drawer.is_one_in(2):
        return text
    recorded = drawer.with_records(text)
    races, fault = plain.read_text(text.decode("latin-1"))
    same, other = plain.read_text(recorded.decode("latin-1"))
    assert fault or (plain.replayed(races, {}), fault) == (plain.replayed(same, {}), other)
    return drawer.broken_record(recorded) if drawer.is_one_in(3) else recorded


def wanted_fault(text):
    """The kind of the text's fault, as a list of none or one; the numbers of policy rows are left out."""
    fault = plain.read_text(text.decode("latin-1"))[1]
    return [] if fault is None else [re.sub("rows [0-9]+ and [0-9]+", "rows", fault.kind)]


def check_texts():
    """One round after another, for these seconds."""
    rounds, runs_made, races, faults = 0, 0, 0, collections.Counter()
    end = time.monotonic() + (SECONDS if OPTIONS.seconds is None else OPTIONS.seconds)
    while rounds == 0 or time.monotonic() < end:
        seed = OPTIONS.seed + rounds
        drawer = Drawer(seed)
        text = with_records(drawer.text(), Drawer(f"{seed} records"))
        runs = [*RUNS, new_run(drawer)]
        runs = [(words, False) for words in runs] + [(drawer.choice(runs), True)]
        found = differences(text, drawer, runs)
        rounds += 1
        runs_made += len(runs)
        races += len(HEADER.findall(text))
        faults.update(wanted_fault(text))
        if found:
            keep(seed, text, found, drawer)
        tell(not found, f"seed {seed}: {len(found)} runs differ; see {KEPT / str(seed)}.said")
        if rounds % ROUNDS_OF_A_REPORT == 0:
            print(f"    {rounds} texts")
    told = ", ".join(f"{kind} {amount}" for kind, amount in faults.most_common())
    print(f"    faults: {told or 'none'}")
    print(f"    {rounds} texts from seed {OPTIONS.seed}, {faults.total()} of them faulty: {races} races begun,"
          f" {runs_made} runs")


def check_large():
    """With --full: a large text, and one that ends inside a race."""
    if not OPTIONS.full:
        raise NotTried("only with --full")
    drawer = Drawer(OPTIONS.seed)
    races = [drawer.large_race() for _ in range(LARGE_RACES)]
    said = [Wanted(race) for race in races]
    picks = [drawer.randrange(LARGE_RACES) for _ in range(2 * LARGE_BYTES // min(map(len, races)))]
    whole = b"".join(races[pick] for pick in picks)
    cut = len(whole) - drawer.randrange(2, len(races[picks[-1]]))
    assert cut > LARGE_BYTES
    line = f"he: line {whole.count(bytes([10]), 0, cut) + 1}: unfinished\n".encode()
    for text, complete, fault in ((whole, picks, b""), (whole[:cut], picks[:-1], line)):
        for words, in_pieces in [(words, False) for words in RUNS] + [(RUNS[-1], True)]:
            want = b"".join(said[pick].of(words)[0] for pick in complete), fault, 1 if fault else 0
            is_right = run(words, text, drawer if in_pieces else None) == want
            tell(is_right, f"he {' '.join(words)} differs on {len(text)} bytes{', in pieces' if in_pieces else ''}")
