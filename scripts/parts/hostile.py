"""Runs a built program where the system fails: streams that are closed, full, gone or no stream, and too little
memory; and over pipes that stay open, whose races are answered as they come. Bounds what it takes for texts of some
megabytes: processor time that grows with the text and not with its square, of `explain`, `draw`, `compare` and
`summary` not many times that of `replay`; and little memory. The bounds are wide: they are for a program that looks at
the whole of what it holds in each step, or that never gives memory back, and not for one that is a little slower.

needs: root for a disk that is full
"""
import contextlib
import os
import pathlib
import re
import resource
import socket
import subprocess
import tempfile
import threading

import support
from plain import MOST_LINE_BYTES
from plain_wanted import WRITTEN, Wanted
from support import DATA, OPTIONS, NotTried, tell

HE = OPTIONS.program
FILE = DATA / "ipv6-late-but-within-delay-leads.timeline"
RACE = FILE.read_bytes()
UNWRITTEN, UNREAD, NO_MEMORY = "he: cannot write the output", "he: cannot read the input", "he: out of memory"
CLOSED, FULL, IS_FOLDER, NO_FILE = ("Bad file descriptor (os error 9)", "No space left on device (os error 28)",
                                    "Is a directory (os error 21)", "No such file or directory (os error 2)")
FOLDER = os.open("/", os.O_RDONLY)
COMMANDS = ("replay", "order", "explain", "draw", "replay --json", "compare --set floor=10", "summary", "check",
            "check --all", "replay -v", "draw -v", "summary -v")
# The output where there is no race; by the other commands nothing.
OF_NO_RACE = {"compare": WRITTEN["compare"]([], {"floor": 10}), "summary": WRITTEN["summary"]([], {})}
HEADER = "a race begins with the line `race 1` or `race 2`"
NO_WORD = "no such word: lines begin with set, policy, source, route, aaaa, a, connect, pause or end"
FAULTS, MOST_TOLD = 100_000, 1_000  # of a check of all, and how many of them are explained
LEAST_MEMORY, MOST_MEMORY, MEMORY_STEP = 2_048, 1_048_576, 256  # KiB
# The example that is repeated, a race of 58 kB, and how often; and how much of the shorter text's time the longer one
# may take: four times as much is in proportion, sixteen times is the square. Less time (in seconds) is not compared.
EXAMPLE, SHORT, LONG, MOST_GROWTH, LEAST_TIME = "most-lines-of-a-race", 32, 128, 9, 0.02
# The C library gives a thread an arena of its own where another allocates just then, and each reserves 64 MiB that it
# need not use: with one for all, the bound is what the program takes.
ONE_ARENA = {"MALLOC_ARENA_MAX": "1"}
# Each command with the memory that it may map, in MiB (`compare` and `summary` hold the whole text, and threads have
# stacks), how many times the processor time of the first one it may take, where that is bounded (MEASURED has what it
# takes: a story and a comparison have two transcripts of a race), and the file that has what it writes.
BOUNDS = (
    ("replay --workers 1", 12, None, "transcript"), ("replay --workers 4", 80, None, "transcript"),
    ("order", 12, None, "order"), ("explain", 24, 6, None), ("explain --json", 24, None, None),
    ("replay --json --workers 1", 24, 3, None), ("draw", 24, 6, None), ("summary", 24, 3, None),
    ("compare --set attempt=20", 24, 6, None), ("check", 12, None, None), ("check --all", 12, None, None),
)


def he(command, *words, **more):
    """A run of the program: the command's words and further ones."""
    pipes = {"stdout": subprocess.PIPE, "stderr": subprocess.PIPE, "timeout": support.TIMEOUT, **more}
    pipes |= {} if {"stdin", "input"} & set(more) else {"stdin": subprocess.DEVNULL}
    with contextlib.ExitStack() as held:
        if isinstance(pipes.get("stdin"), pathlib.Path):  # a file that it reads
            pipes["stdin"] = held.enter_context(pipes["stdin"].open("rb"))
        return subprocess.run([HE, *command.split(), *words], **pipes)


def closing(*descriptors):
    return {"preexec_fn": lambda: [os.close(descriptor) for descriptor in descriptors]}


def limited(kind, most):
    return {"preexec_fn": support.limit(kind, most)}


def ends(name, ran, status=0, fault="", output=b"", files=(), is_first=False):
    """Compares a run's status, standard error and output (or the first line of each) with what is wanted, and files
    with what they must hold; beside them there is none whose name begins as theirs."""
    told = [(text or b"").splitlines(True)[:1 if is_first else None] for text in (ran.stderr, ran.stdout)]
    wrote = (ran.returncode, *map(b"".join, told))
    is_right = wrote == (status, f"{fault}\n".encode() if fault else b"", output)
    for file, text in dict(files).items():
        is_right &= file.read_bytes() == text and list(file.parent.glob(f"{file.name}*")) == [file]
    tell(is_right, f"{name}: status {ran.returncode}, wanted {status}; {wrote[1][:200]}")


def check_streams():
    """Each command on streams that fail: with a check and with -v the system's reason is printed too."""
    for command in COMMANDS:
        nothing = OF_NO_RACE.get(command.split()[0], b"")
        is_told = command.startswith("check") or command.endswith("-v")
        of_closed, of_full, of_folder = (f"\n  {reason}" if is_told else "" for reason in (CLOSED, FULL, IS_FOLDER))
        reading, writing = os.pipe()
        os.close(reading)
        with open("/dev/full", "wb") as full, open(writing, "wb") as pipe:
            for what, more, fault, output in (
                ("standard output closed", {"stdin": FILE, "stdout": None, **closing(1)}, UNWRITTEN + of_closed,
                 b""),
                ("full device", {"stdin": FILE, "stdout": full}, UNWRITTEN + of_full, b""),
                # (there is nobody to report to, and no file is named for it)
                ("pipe without reader", {"stdin": FILE, "stdout": pipe}, "", b""),
                ("standard input a directory", {"stdin": FOLDER}, UNREAD + of_folder, nothing),
                ("standard input closed", closing(0), UNREAD + of_closed, nothing),
                ("a fault and standard error closed", {"input": b"race 1\n", "stderr": None, **closing(2)}, "",
                 nothing),
            ):
                ends(f"{command}, {what}", he(command, **more), 1, fault, output)


def has_race(file):
    """Whether a file has one race that is sound."""
    return he("check", file).stdout.startswith(b"1 race, ")


def proxied(port, folder, closed):
    """Whether a proxy without these streams keeps the record of a session, and what is known of its address."""
    at, history = support.unused_port(), folder / "history"
    words = [HE, "proxy", "--listen", f"127.0.0.1:{at}", "--record", folder, "--history", history]
    with subprocess.Popen(words, stderr=subprocess.DEVNULL, **closing(*closed)) as proxy:
        try:
            if not support.is_up(proxy, lambda: support.is_listening(at)):
                return False
            with socket.create_connection(("127.0.0.1", at), support.TIMEOUT) as client:
                client.sendall(b"CONNECT 127.0.0.1:%d HTTP/1.1\r\n\r\n" % port)
                answered = client.recv(12) == b"HTTP/1.1 200"
            is_kept = support.comes(lambda: history.exists() and len(list(folder.rglob("*.timeline"))) == 1, 5)
            is_known = is_kept and re.fullmatch(r"127.0.0.1 127.0.0.1 \d+ \d+\n", history.read_text())
            return bool(answered and is_known and all(map(has_race, folder.rglob("*.timeline"))))
        finally:
            proxy.kill()


def check_closed_streams():
    """A file that a command makes has its own bytes alone, whichever standard streams are closed."""
    record, page, text = OPTIONS.folder / "closed.record", OPTIONS.folder / "closed.html", OPTIONS.folder / "closed.text"
    text.write_text("race 1\nsource 127.0.0.1/8 1\nroute 127.0.0.0/8 1\naaaa 0 none\na 0 127.0.0.1\nend\n")
    he("draw --html", page, FILE)
    whole = page.read_bytes()
    with support.listener_at("127.0.0.1") as listener:
        port = listener.getsockname()[1]
        support.accept_all(listener, lambda connection: connection.recv(1))
        for closed in ((0,), (1,), (2,), (0, 1), (0, 2), (1, 2), (0, 1, 2)):
            unwritten = int(1 in closed)
            for words, file, status in ((f"connect -z -v 127.0.0.1 {port} --record", record, 0),
                                        (f"live -v --port {port} {text} --record", record, unwritten),
                                        (f"draw -v {FILE} --html", page, 0)):
                file.unlink(missing_ok=True)
                ran = he(words, file, stdin=subprocess.DEVNULL, **closing(*closed))
                is_right = has_race(file) if file == record else file.read_bytes() == whole
                tell(is_right and ran.returncode == status, f"{words}, without {closed}: status {ran.returncode}")
            with tempfile.TemporaryDirectory() as folder:
                is_right = proxied(port, pathlib.Path(folder), closed)
                tell(is_right, f"proxy --record --history, without {closed}")


def check_pages():
    """A page: its file is full, or can't be made; the input breaks off, and the old page stays; standard output is
    closed, which it does not need; it goes to standard output; and a text that is named in its place stays as it
    is, and nothing is read."""
    full, absent, page = OPTIONS.folder / "full.html", OPTIONS.folder / "none/page.html", OPTIONS.folder / "page.html"
    full.symlink_to("/dev/full")
    ends("draw --html, full device", he("draw -v --html", full, FILE), 1, f"he: {full}: {FULL}")
    ends("draw --html, no such folder", he("draw --html", absent, FILE), 1, f"he: {absent}: {NO_FILE}")
    he("draw --html", page, FILE)
    whole = page.read_bytes()
    ran = he("draw --html", page, stdin=FOLDER)
    ends("draw --html, standard input a directory", ran, 1, UNREAD, files={page: whole})
    ends("draw --html -", he("draw --html -", FILE), output=whole)
    masked = OPTIONS.folder / "mode.html"
    ran = he("draw --html", masked, FILE, preexec_fn=lambda: os.umask(0o027))
    ends("draw --html, with a umask", ran)
    tell(masked.stat().st_mode & 0o777 == 0o640, f"mode {masked.stat().st_mode:o}")
    page.unlink()
    ends("draw --html, standard output closed", he("draw --html", page, FILE, stdout=None, **closing(1)),
         files={page: whole})
    text = OPTIONS.folder / "text"
    text.write_bytes(RACE)
    told = "the name of a page ends in `.html`, or is `-` for standard output"
    ends("draw --html, a text in the place of a page", he("draw --html", text), 2,
         f"he: invalid value for '--html <FILE>': {told}", files={text: RACE}, is_first=True)


def check_full_disk():
    """The old page stays."""
    small = OPTIONS.folder / "small"
    small.mkdir()
    if support.run("mount", "-t", "tmpfs", "-o", "size=8k", "small", small).returncode:
        raise NotTried("no tmpfs may be mounted")
    page = small / "page.html"
    page.write_bytes(b"an old page\n")
    ran = he("draw --html", page, input=RACE * 8)
    ends("draw --html, full disk", ran, 1, f"he: {page}: {FULL}", files={page: b"an old page\n"})
    support.run("umount", small)


def check_names():
    """Files: as many names as a line takes; a fault of a pipe, which gives its bytes once, is reported at once with -v
    too; names and words that would control a terminal are shown; of a directory, a name that is not UTF-8 is reported,
    and the other files are read."""
    most = resource.getrlimit(resource.RLIMIT_STACK)[1]
    ran = he("replay", *["-"] * 130_000, timeout=600, **limited("STACK", most))
    ends("replay, 130,000 names", ran)
    pipe, control = OPTIONS.folder / "pipe", OPTIONS.folder / "a\033[31mb"
    os.mkfifo(pipe)
    for what, command in (("with a fault", "echo race 9"), ("without end", "yes")):
        with subprocess.Popen(["sh", "-c", f'exec {command} > "$0"', pipe], stderr=subprocess.DEVNULL):
            ran = he("replay -v", pipe, timeout=20)
        ends(f"replay -v, a pipe {what}", ran, 1, f"he: {pipe}: line 1: header")
    control.write_bytes(RACE)
    empty = OPTIONS.folder / "empty"
    empty.touch()
    shown = f"{OPTIONS.folder}/a\\x1b[31mb"
    first, *_ = Wanted(RACE).of(["explain"])[0].splitlines(True)
    ends("explain, a name that controls a terminal", he("explain", control, empty),
         output=f"{shown}, ".encode() + first, is_first=True)
    ran = he("replay", f"{control}.no")
    ends("replay, such a name without a file", ran, 1, f"he: {shown}.no: {NO_FILE}")
    ends("replay, a word that controls a terminal", he("replay", "--\033[2J"), 2,
         "he: unexpected argument '--\\x1b[2J' found", is_first=True)
    folder = OPTIONS.folder / "not-utf8"
    folder.mkdir()
    (folder / "a.timeline").write_bytes(RACE)
    (pathlib.Path(os.fsdecode(os.fsencode(folder) + b"/\xff.timeline"))).write_bytes(RACE)
    fault = f"he: {folder}/(a name that is not UTF-8).timeline: {NO_FILE}"
    ends("summary of a directory, a name that is not UTF-8", he("summary --keep-going", folder), 1,
         f"{fault}\nhe: 1 file not read to its end", he("summary", FILE).stdout)


def check_faults():
    """A check: an input without end has its first fault at once; a check of all parts goes on after a faulty file,
    and tells the first of very many faults and how many more there are, in little memory. A summary counts what it
    did not read."""
    with subprocess.Popen(["yes"], stdout=subprocess.PIPE) as endless:
        ran = he("check", stdin=endless.stdout, timeout=20)
        endless.stdout.close()
    ends("check, an input without end", ran, 1, f"he: line 1: header\n  y\n  ^\n{HEADER}")
    bad = OPTIONS.folder / "bad"
    bad.write_text("race 9\n")
    fault = f"he: {bad}: line 1: header"
    told = f"{fault}\n  race 9\n  ^^^^^^\n{HEADER}: the number is the version of the format, not that of the race"
    ran = he("check --all", bad, FILE)
    ends("check --all, a faulty file and another", ran, 1, told, he("check", FILE).stdout)
    told = [f"he: line {2 * number}: word\n  x\n  ^\n{NO_WORD}" for number in range(1, MOST_TOLD + 1)]
    for count, more in ((FAULTS, [f"he: {FAULTS - MOST_TOLD} more faults"]), (MOST_TOLD + 1, ["he: 1 more fault"]),
                        (MOST_TOLD, [])):
        bound = limited("AS", 16 << 20) if count == FAULTS else {}
        ran = he("check --all", input=b"race 1\nx\n" * count, **bound)
        ends(f"check --all, {count} faults", ran, 1, "\n".join(told + more))
    ran = he("summary", FILE, bad, FILE)
    ends("summary, a faulty file", ran, 1, f"{fault}\nhe: 2 files not read to their end", he("summary", FILE).stdout)
    ran = he("summary --keep-going", FILE, bad, FILE)
    ends("summary --keep-going, a faulty file", ran, 1, f"{fault}\nhe: 1 file not read to its end",
         he("summary", FILE, FILE).stdout)


def check_open_pipes():
    """A pipe that stays open: its first race is answered before its second one is sent, and a line that is too long
    before it ends."""
    pipes = {"stdin": subprocess.PIPE, "stdout": subprocess.PIPE, "stderr": subprocess.PIPE}
    for command in ("replay", "order", "explain", "draw", "explain --json"):
        one, both = he(command, input=RACE).stdout, he(command, input=RACE * 2).stdout
        with subprocess.Popen([HE, *command.split()], **pipes) as running:
            killer = threading.Timer(support.TIMEOUT, running.kill)
            killer.start()
            running.stdin.write(RACE)
            running.stdin.flush()
            early = running.stdout.read(len(one))
            rest, said = running.communicate(RACE)
            killer.cancel()
        ran = subprocess.CompletedProcess(command, running.returncode, early + rest, said)
        ends(f"{command}, a pipe that stays open", ran, output=both)
        tell(early == one, f"{command}, a pipe that stays open: late")
        with subprocess.Popen([HE, *command.split()], **pipes) as running:
            running.stdin.write(b"race 1\n" + b"x" * (MOST_LINE_BYTES + 1))
            running.stdin.flush()
            status = running.wait(support.TIMEOUT)
            ran = subprocess.CompletedProcess("", status, running.stdout.read(), running.stderr.read())
        ends(f"{command}, a line too long on a pipe that stays open", ran, 1, "he: line 2: too many")


def check_workers():
    """Workers: as many threads as are asked for at most, and more than one where they are, of a text that takes a
    while; the reader of the output is gone in the first read that four workers share, and in the second one: what
    it took is the beginning of the whole."""
    file = OPTIONS.folder / "races.timeline"
    file.write_bytes((DATA / "one-thousand-drawn-races.timeline").read_bytes() * 3)
    by_one = he("replay --workers 1", file).stdout
    for workers in (1, 2, 7):
        for _ in range(5):
            ran, threads = replayed_by(workers, file)
            if workers == 1 or threads > 1:  # (on a busy machine the threads of a run may come and go unseen)
                break
            print("tried again: machine busy")
        ends(f"replay by {workers} workers", ran, output=by_one)
        is_right = threads <= workers and (workers == 1 or threads > 1)
        tell(is_right, f"replay by {workers} workers: {threads} threads")
    for count in (10_000, 150_000):
        with file.open("rb") as text, subprocess.Popen([HE, "replay", "--workers", "4"], stdin=text,
                                                       stdout=subprocess.PIPE, stderr=subprocess.PIPE) as running:
            taken = running.stdout.read(count)
            running.stdout.close()
            ran = subprocess.CompletedProcess("", running.wait(support.TIMEOUT), taken, running.stderr.read())
        ends(f"replay by 4 workers, a reader that takes {count} bytes", ran, 1, "", by_one[:count])


def replayed_by(workers, file):
    """A run, and how many threads were seen at once."""
    most, output = 0, OPTIONS.folder / "out"
    with file.open("rb") as text, output.open("wb") as out, subprocess.Popen(
            [HE, "replay", "--workers", str(workers)], stdin=text, stdout=out, stderr=subprocess.PIPE) as running:
        while running.poll() is None:
            status = pathlib.Path(f"/proc/{running.pid}/status").read_text()
            found = re.search(r"^Threads:\s+(\d+)$", status, re.M)
            most = max(most, int(found[1]) if found else 0)
        said = running.stderr.read()
    return subprocess.CompletedProcess("", running.returncode, output.read_bytes(), said), most


def check_memory():
    """From the first limit with which the program starts, in steps, until the whole output comes, of races of which
    a check has nothing to say: an answer is whole, or a first part of its lines, and the fault is reported."""
    file = OPTIONS.folder / "many.timeline"
    lines = "source 2001:db8::2/64 1\nsource 192.0.2.2/24 1\nroute ::/0 1\nroute 0.0.0.0/0 1"
    text = (DATA / "jobs-enough-for-two-workers.timeline").read_text()
    file.write_text(re.sub("(?m)^set limit .*$", rf"\g<0>\n{lines}", text) * 8)
    for command in [*COMMANDS[:4], *COMMANDS[5:9]]:
        whole, wholes = he(command, stdin=file).stdout, 0
        for limit in range(LEAST_MEMORY, MOST_MEMORY, MEMORY_STEP):
            bound = limited("AS", limit * 1024)
            try:
                if he("--version", **bound).returncode:
                    continue
            except OSError:
                continue
            ran = he(command, stdin=file, **bound)
            end, wanted, wholes = (0, ""), whole, wholes + (ran.returncode == 0)
            if ran.returncode:
                is_part = whole.startswith(ran.stdout) and ran.stdout.endswith(b"\n")
                wanted = ran.stdout if is_part and command in COMMANDS[:4] else b""
                end = (1, NO_MEMORY)
            ends(f"{command}, {limit} KiB of memory", ran, *end, wanted)
            if wholes == 3:
                break


def check_cost():
    """Each command on a text and on one four times as long, from a file and from a pipe, which gives the text in
    small pieces, and writes the same; and a check of all faults of texts with very many."""
    files, replayed = {times: OPTIONS.folder / str(times) for times in (SHORT, LONG)}, None
    for times, file in files.items():
        file.write_bytes((DATA / f"{EXAMPLE}.timeline").read_bytes() * times)
    for command, memory, most_times, kind in BOUNDS:
        outputs, wanted = [], DATA / f"{EXAMPLE}.{kind}"
        for is_piped in (False, True):
            used = []
            for times, file in files.items():
                seconds, status, output = bounded(command, memory, file, is_piped)
                is_right = status == 0 and (not wanted.exists() or output == wanted.read_bytes() * times)
                tell(is_right, f"{command}, the text {times} times, {memory} MiB: status {status}")
                used.append(seconds)
            outputs.append(output)
            has_grown(command, used)
            replayed = replayed or max(used[1], LEAST_TIME)
            if most_times and not is_piped:
                tell(used[1] <= most_times * replayed, f"{command}: {used[1]:.2f} s, of {replayed:.2f} s")
        tell(outputs[0] == outputs[1], f"{command}: not the same from a file and from a pipe")
    used, file = [], OPTIONS.folder / "faults"
    for count in (500_000, 2_000_000):
        file.write_bytes(b"race 1\nx\n" * count)
        seconds, status, output = bounded("check --all", 12, file, False)
        is_right = status == 1 and output.endswith(b"\nhe: %d more faults\n" % (count - MOST_TOLD))
        tell(is_right, f"check --all of {count} faults, 12 MiB: status {status}")
        used.append(seconds)
    has_grown("check --all of faults", used)


def has_grown(name, used):
    """With four times the text."""
    tell(used[1] <= MOST_GROWTH * max(used[0], LEAST_TIME), f"{name}: {used[1]:.2f} s, of {used[0]:.2f} s")


def bounded(command, memory, file, is_piped):
    """The processor time in seconds, the status and all output of a run, with so much memory at most."""
    before = support.seconds_of_children()
    with contextlib.ExitStack() as held:
        if is_piped:
            file = held.enter_context(subprocess.Popen(["cat", file], stdout=subprocess.PIPE)).stdout
        ran = he(command, stdin=file, stderr=subprocess.STDOUT, env={**os.environ, **ONE_ARENA},
                 **limited("AS", memory << 20))
    return support.seconds_of_children() - before, ran.returncode, ran.stdout
