"""Makes libhe of the proved library of crates/he_c, and tries its texts, its steps and its ABI.

needs: the proved library, by `make build-library`; gcc
"""
import ctypes
import functools
import importlib
import os
import re
import socket
import sys
import time

from support import DATA, OPTIONS, ROOT, NotTried, data_of, must, needs, run, tell

# The functions, with the words by which the program writes the same.
CALLS = {"replay": ["replay"], "order": ["order"], "explain": ["explain", "--json"]}
# The calls that the library may make, beside the loader's own weak names.
NEEDED = {"malloc", "realloc", "free", "memcpy", "memmove", "memset", "memcmp", "bcmp"}
# The further calls of he_host_lines, to ask Linux.
ASKED = {"socket", "connect", "getsockname", "close", "getifaddrs", "freeifaddrs", "inet_pton", "fopen", "fclose",
         "fscanf", "__isoc99_fscanf", "__isoc23_fscanf", "snprintf", "strcmp", "strchr", "strlen", "memchr",
         "_GLOBAL_OFFSET_TABLE_"}
MOST_BYTES = 300 << 10  # of libhe.so
HEADER = (ROOT / "include/he.h").read_text()
NUMBERS = {name: int(number) for name, number in re.findall(r"HE_(\w+) = (\d+)", HEADER)}
DONE, FAULT, TOO_SMALL = (NUMBERS[name] for name in ("DONE", "FAULT", "BUFFER_TOO_SMALL"))
START, WAIT, WON, EXHAUSTED, LIMIT = (
    NUMBERS[f"ACTION_{name}"] for name in ("START", "WAIT", "WON", "EXHAUSTED", "LIMIT"))
# The program's words for a fault, by the kind's number: the words of he_kind_text, with the rows of a policy table.
KINDS = {NUMBERS[f"KIND_{word.upper().replace(' ', '_')}"]: word for word in (
    "header", "word", "number", "address", "prefix", "repeated", "range", "too many", "unfinished")}
KINDS |= {NUMBERS["KIND_NONE"]: "", NUMBERS["KIND_NO_DEFAULT_ROW"]: "policy has no ::/0",
          NUMBERS["KIND_NO_MAPPED_ROW"]: "policy has no ::ffff:0:0/96",
          NUMBERS["KIND_SHARED_PRECEDENCE"]: "policy rows share a precedence"}
FILLER = b"\xa5"
NEVER = 1 << 40  # a tick
MOST_MICROSECONDS = 20, 2000  # of a call of he_next: 10 addresses, the largest race


@functools.cache
def prefix():
    """Where the library is put."""
    needs("gcc")
    if not (ROOT / "crates/he_c/out/libhe_c.a").exists():
        raise NotTried("the library is not built: make build-library")
    made = run(ROOT / "scripts/make-library", OPTIONS.folder)
    must(made.returncode == 0, made.stderr)
    return OPTIONS.folder


class Library:
    """libhe, by ctypes: the classes are those of the example in Python."""

    def __init__(self, file):
        sys.dont_write_bytecode = True  # examples/python is loaded
        os.environ["HE_LIBRARY"] = str(file)
        sys.path.append(str(ROOT / "examples/python"))
        self.example = importlib.import_module("happy_eyeballs._library")
        self.he = self.example.he

    def call_of(self, name):
        return getattr(self.he, f"he_{name}")

    def text(self, name, text, size=1 << 21):
        """The answer, what is reported, and the whole buffer."""
        room = ctypes.create_string_buffer(FILLER * size, size)
        told = self.example.Result()
        answer = self.call_of(name)(text, len(text), room, size, ctypes.byref(told))
        return answer, told, room.raw

    def step(self, record, started, now):
        step, told = self.example.Step(), self.example.Result()
        answer = self.he.he_next(record, len(record), started, now, ctypes.byref(step), ctypes.byref(told))
        return answer, step, told


@functools.cache
def library():
    return Library(prefix() / "lib/libhe.so.1")


def header_names():
    return set(re.findall(r"^\w+ (he_\w+)\(", HEADER, re.M))


def check_symbols():
    """Only the functions of he.h are exported; it calls only malloc, beside what every compiler takes as given;
    the loader is to bind names at once, and make their table read-only then."""
    shared = prefix() / "lib/libhe.so"
    for file, words in ((shared, ["-D"]), (prefix() / "lib/libhe.a", ["-g"])):
        lines = run("nm", *words, file).stdout.splitlines()
        names = [line.split()[-2:] for line in lines if len(line.split()) > 1]
        found = {name for kind, name in names if kind not in "Uw"}
        needed = {name.split("@")[0] for kind, name in names if kind == "U"}
        tell(found == header_names(), f"{file.name} exports {sorted(found)}, and he.h has {sorted(header_names())}")
        tell(needed <= NEEDED | ASKED, f"{file.name} needs {sorted(needed - NEEDED - ASKED)}")
    size = shared.stat().st_size
    tell(size < MOST_BYTES, f"libhe.so has {size} bytes, of at most {MOST_BYTES}")
    print(f"    libhe.so: {size} bytes")
    told = run("readelf", "-dlW", shared).stdout
    tell("[libhe.so.1]" in told, "libhe.so has not the soname libhe.so.1")
    tell("GNU_RELRO" in told and re.search(r"\bNOW\b", told), "libhe.so is not linked with relro and now")


def check_versions():
    """One version: the library's, the header's and that of its file."""
    version = re.search(r"^version=(\d+)\.(\d+)\.(\d+)$", (ROOT / "scripts/make-library").read_text(), re.M)
    major, minor, patch = map(int, version.groups())
    number = int(re.search(r"^#define HE_VERSION (\d+)$", HEADER, re.M)[1])
    found = library().he.he_version()
    tell(found == number == 10000 * major + 100 * minor + patch, f"he_version: {found}, he.h {number}, {version[0]}")


STRUCTS = r"""
#include <he.h>
#include <stdio.h>
#define PUT(name, member) printf("%s %zu", #member, offsetof(struct name, member))
int main(void)
{
    PRINTS
}
"""


def check_abi():
    """The functions and numbers of he.h, and the sizes and the offsets of its structs, are those of library/abi."""
    lines = [line for line in (ROOT / "library/abi").read_text().splitlines() if not line.startswith("#")]
    names = {line for line in lines if not line.startswith("struct ")}
    wanted = header_names() | {f"HE_{name} {number}" for name, number in NUMBERS.items()}
    tell(names == wanted, f"he.h and library/abi differ in {sorted(names ^ wanted)}")
    prints = []
    for name, members in re.findall(r"^struct (he_\w+) \{\n(.*?)^\};", HEADER, re.M | re.S):
        own = re.findall(r"^\s*uint\d+_t (\w+)", members, re.M)
        prints.append(f'printf("struct {name} %zu: ", sizeof(struct {name}));')
        prints.append(' printf(", "); '.join(f"PUT({name}, {member});" for member in own) + ' puts("");')
    source = prefix() / "structs.c"
    source.write_text(STRUCTS.replace("PRINTS", "\n    ".join(prints)))
    built = run("gcc", f"-I{prefix()}/include", "-o", prefix() / "structs", source)
    must(built.returncode == 0, built.stderr)
    found = run(prefix() / "structs").stdout.splitlines()
    tell(found == [line for line in lines if line.startswith("struct ")], f"the structs of he.h: {found}")


def check_bare():
    """A text and a buffer of length 0 may be null pointers."""
    example = library().example
    for name in (*CALLS, "check"):
        told = example.Result()
        answer = library().call_of(name)(None, 0, None, 0, ctypes.byref(told))
        wanted = (TOO_SMALL, len(b"0 races, 0 lines\n")) if name == "check" else (DONE, 0)
        tell((answer, told.length, told.kind) == (*wanted, 0), f"he_{name} of nothing: {answer}, {told.length} bytes")
    step, told = example.Step(), example.Result()
    answer = library().he.he_next(None, 0, 0, 1, ctypes.byref(step), ctypes.byref(told))
    found = answer, told.line, told.kind
    tell(found == (FAULT, 1, NUMBERS["KIND_HEADER"]), f"he_next of nothing: {found}")


def is_told(told, fault):
    """The numbers of a fault are those of the program's words, of which there are none without a fault."""
    words = KINDS.get(told.kind, "a kind that he.h has not").replace("rows share", r"rows \d+ and \d+ share")
    return re.fullmatch(f"he: line {told.line}: {words}\n" if words else "", fault.decode())


def compare(name, text, wanted, fault):
    """One call over one text: its bytes, its fault, and room that is too small by one."""
    answer, told, room = library().text(name, text)
    where = f"he_{name}: answer {answer}, line {told.line}, kind {told.kind}, {told.length} bytes"
    tell(room[:told.length] == wanted and answer == (FAULT if fault else DONE), where)
    tell(set(room[told.length:told.length + 64]) <= set(FILLER), f"{where}: wrote past its text")
    tell(is_told(told, fault), f"{where}, and not {fault}")
    size = len(wanted)
    answer, told, room = library().text(name, text, size)
    tell(answer == (FAULT if fault else DONE) and room == wanted, f"{where}: not with just enough room")
    if size:
        answer, told, room = library().text(name, text, size - 1)
        told_so = answer == TOO_SMALL and told.length == size and room == FILLER * (size - 1)
        tell(told_so, f"{where}: not with room one byte too small")


def compare_check(timeline, text, fault):
    """he_check: the program's words, on its standard output or after `he: ` on standard error."""
    answer, told, room = library().text("check", text)
    said, ran = room[:told.length], run(OPTIONS.program, "check", input=text)
    tell(b"he: " + said == (ran.stderr if fault else b"he: " + ran.stdout), f"{timeline.name}: he_check says {said}")
    tell((answer == FAULT) == bool(fault), f"{timeline.name}: he_check answers {answer}")


def check_examples():
    """The program's output; a buffer that is one byte too small is reported, and stays as it was."""
    for timeline in sorted(DATA.glob("*.timeline")):
        text = timeline.read_bytes()
        for name, words in CALLS.items():
            ran = run(OPTIONS.program, *words, input=text)
            compare(name, text, ran.stdout, ran.stderr)
        compare_check(timeline, text, ran.stderr)


class Script:
    """A recorded race, cut into what is known before it and what happens in it."""

    def __init__(self, text):
        self.head, self.answers, self.known, self.outcomes, self.pauses = [], {}, [], {}, []
        for line in text.splitlines(keepends=True)[:-1]:
            word, *rest = line.split()
            if word in ("aaaa", "a"):
                self.answers[word] = (int(rest[0]), line)
            elif word in ("rtt", "used"):
                self.known.append((data_of(rest[0]), line))
            elif word == "connect":
                self.outcomes[data_of(rest[0])] = (rest[1], int(rest[2]))
            elif word == "pause":
                self.pauses.append((int(rest[0]), int(rest[1])))
            else:
                self.head.append(line)

    def seen(self, tick):
        for start, end in self.pauses:
            if start <= tick < end:
                tick = end
        return tick


class Driver:
    """A client that runs the script's race by he_next: it sleeps where the script has a pause, and writes down what it
    finds when it wakes up. An answer keeps its own tick, so where one came in its sleep, the sleep is written too."""

    def __init__(self, script):
        self.script = script
        self.answers, self.connects, self.pauses = {}, [], []
        self.running, self.starts, self.end = [], [], None

    def record(self, end=""):
        answers = "".join(self.answers.get(word, "") for word in ("aaaa", "a"))
        there = {data_of(ip) for line in self.answers.values() for ip in line.split()[2:] if ip != "none"}
        known = "".join(line for ip, line in self.script.known if ip in there)
        pauses = [f"pause {start} {until}\n" for start, until in self.pauses]
        parts = [*self.script.head, answers, known, *self.connects, *pauses, end]
        return "".join(parts).encode()

    def outcome(self, ip, start):
        """The tick and the word of an attempt's end; of a silent one, never."""
        word, duration = self.script.outcomes.get(ip, (None, NEVER))
        return start + duration, word

    def happen(self, now):
        """Writes the events up to the tick."""
        for word, (tick, line) in self.script.answers.items():
            if tick <= now and word not in self.answers:
                self.answers[word] = line
                slept = {pause for pause in self.script.pauses if tick < pause[1] and pause[0] < now}
                self.pauses = sorted(slept.union(self.pauses))
        for ip, start in list(self.running):
            tick, word = self.outcome(ip, start)
            if tick <= now:
                self.running.remove((ip, start))
                text = socket.inet_ntop(socket.AF_INET6 if len(ip) == 16 else socket.AF_INET, ip)
                self.connects.append(f"connect {text} {word} {min(now - start, 3600000)}\n")

    def next_event(self):
        ticks = [tick for word, (tick, _) in self.script.answers.items() if word not in self.answers]
        return min([*ticks, *(self.outcome(*attempt)[0] for attempt in self.running)], default=NEVER)

    def run(self):
        now = self.script.seen(0)
        while True:
            self.happen(now)
            answer, step, told = library().step(self.record(), len(self.starts), now)
            if answer != DONE:
                return f"answer {answer}, line {told.line}, kind {told.kind}"
            if step.pause_until:
                self.pauses.append((step.pause_from, step.pause_until))
            if step.action == START:
                if step.tick != now or step.place != len(self.starts):
                    return f"place {step.place} at {step.tick}, in the turn at {now}"
                ip = bytes(step.address[:16 if step.family == 6 else 4])
                self.running.append((ip, now))
                self.starts.append((step.place, now, ip))
            elif step.action == WAIT:
                if step.tick <= now:
                    return f"waits for {step.tick} in the turn at {now}"
                now = self.script.seen(min(step.tick, self.next_event()))
            else:
                word = {WON: f"won {step.place}", EXHAUSTED: "exhausted", LIMIT: "limit"}.get(step.action)
                self.end = f"{word} {step.tick}"
                return None


def check_races():
    """With its own answers and outcomes each race starts the attempts of its transcript, and its record replays."""
    races = 0
    for timeline in sorted(DATA.glob("*.timeline")):
        if timeline.with_suffix(".fault").exists():
            continue
        for text in re.findall(r"race [12]\n(?:.*\n)*?end\n", timeline.read_text()):
            races += 1
            driver = Driver(Script(text))
            fault = driver.run()
            wanted = library().text("replay", text.encode(), 1 << 16)
            record = driver.record("end\n")
            found = library().text("replay", record, 1 << 16)
            attempts = re.findall(rb"^attempt (\d+) (\d+) (\S+)", found[2], re.M)
            starts = [(int(place), int(tick), data_of(ip.decode())) for place, tick, ip in attempts]
            end = found[2][:found[1].length].decode().splitlines()[-1]
            same = found[2] == wanted[2] and starts == driver.starts and end == driver.end
            what = fault or f"another race, {driver.end}"
            tell(fault is None and same, f"{timeline.name}: {what}:\n{text}-- driven:\n{record.decode()}")
    print(f"    {races} races driven by he_next")


def check_times():
    """How long a call of he_next takes: the least of many."""
    def least(record, started, now):
        best, until = 1e9, time.perf_counter() + 0.5
        while time.perf_counter() < until:
            began = time.perf_counter()
            library().step(record, started, now)
            best = min(best, time.perf_counter() - began)
        return best * 1e6
    v6 = " ".join(f"2001:db8:1::{n:x}" for n in range(1, 257))
    v4 = " ".join(f"198.51.100.{n}" for n in range(256))
    few = [" ".join(ips.split()[:5]) for ips in (v6, v4)]
    hosts = "source 2001:db8::2/64 1\nsource 192.0.2.2/24 1\nroute ::/0 1\nroute 0.0.0.0/0 1\n"
    small = f"race 1\n{hosts}aaaa 20 {few[0]}\na 25 {few[1]}\n".encode()
    rows = "policy ::/0 40 1\npolicy ::ffff:0:0/96 35 4\n"
    rows += "".join(f"policy 2001:db8:{n:x}::/48 {100 + n} {n + 10}\n" for n in range(62))
    many = "".join(f"source 2001:db8:{n:x}::2/64 {n + 1}\n" for n in range(64))
    ways = "".join(f"route 2001:db8:{n:x}::/48 {n + 1}\n" for n in range(64))
    outcomes = "".join(f"connect {ip} fail 9\n" for ip in (v6 + " " + v4).split())
    pauses = "".join(f"pause {100 + 8 * n} {105 + 8 * n}\n" for n in range(519))
    large = f"race 2\nset attempt 10\nset count 8\nset limit 3600000\n{rows}{many}{ways}"
    large = f"{large}aaaa 20 {v6}\na 25 {v4}\n{outcomes}{pauses}".encode()
    records = ("10 addresses", small), ("the largest race", large)
    for (name, record), most in zip(records, MOST_MICROSECONDS):
        # the next attempt after all pauses, to which the client comes a tick late: the record is read twice
        transcript = library().text("replay", record + b"end\n")[2]
        ticks = [int(tick) for tick in re.findall(rb"^attempt \d+ (\d+) ", transcript, re.M)]
        started = next(place for place, tick in enumerate(ticks) if tick > 4300 or len(ticks) == 10 and place > 1)
        answer, step, told = library().step(record, started, ticks[started] + 1)
        took = least(record, started, ticks[started] + 1)
        print(f"    he_next, {name}, a record of {len(record)} bytes, late: {took:.1f} microseconds")
        good = answer == DONE and step.pause_until and took <= most
        tell(good, f"{name}: answer {answer}, line {told.line}, kind {told.kind}, of at most {most} microseconds")


# Calls each function on the text of standard input, and refuses each growth in turn, up to a call in which none is: it
# answers HE_NO_MEMORY and leaves nothing, or what it answers with ample memory, where it can do without.
REFUSING = r"""
#include <he.h>
#include <stdio.h>
#include <stdlib.h>
#include <string.h>

enum { ROOM = 1 << 20, NEVER = -1, CALLS = 12 };
static long left = NEVER;
void *__real_malloc(size_t), *__real_realloc(void *, size_t);
void *__wrap_malloc(size_t size) { return left != NEVER && left-- == 0 ? NULL : __real_malloc(size); }
void *__wrap_realloc(void *at, size_t size) { return left != NEVER && left-- == 0 ? NULL : __real_realloc(at, size); }

static uint8_t text[ROOM], nothing[ROOM];
static _Alignas(16) uint8_t ample[ROOM], room[ROOM];
static size_t length;

static uint32_t call(int which, uint8_t *out, struct he_result *told)
{
    typedef uint32_t teller(const uint8_t *, size_t, uint8_t *, size_t, struct he_result *);
    teller *tellers[] = {he_replay, he_order, he_explain, he_check};
    static const uint8_t words[] = "to example.org 443", addresses[] = {192, 0, 2, 1, 192, 0, 2, 2};
    static const struct he_step step = {.family = 4, .tick = 10, .pause_from = 9, .pause_until = 10, .address = {10}};
    static const struct he_way way = {.family = 4, .interface = 2, .prefix_length = 24, .source = {192, 0, 2, 9}};
    memset(out, 0, ROOM);
    if (which < 4)
        return tellers[which](text, length, out, ROOM, told);
    switch (which) {
    case 4: return he_next(text, length - 4, 0, 7200, (struct he_step *)out, told); /* no `end`; late: read twice */
    case 5: return he_answer_line(4, addresses, sizeof addresses, 20, out, ROOM, told);
    case 6: return he_connect_line(&step, 1, 20, out, ROOM, told);
    case 7: return he_pause_line(&step, out, ROOM, told);
    case 8: return he_source_line(&way, out, ROOM, told);
    case 9: return he_route_line(&way, out, ROOM, told);
    case 10: return he_record_line(words, sizeof words - 1, out, ROOM, told);
    default: return he_setting_line((const uint8_t *)"limit", 5, 300, out, ROOM, told);
    }
}

int main(void)
{
    struct he_result wanted, told;
    length = fread(text, 1, ROOM, stdin);
    for (int which = 0; which < CALLS; which++) {
        uint32_t answer = call(which, ample, &wanted);
        int given_up = 0;
        for (long number = 0;; number++) {
            left = number;
            uint32_t found = call(which, room, &told);
            int is_refused = left == NEVER;
            left = NEVER;
            if (!is_refused) {
                int same = found == answer && !memcmp(room, ample, ROOM) && told.length == wanted.length;
                printf("%s %d %d\n", same ? "passed" : "failed", which, given_up);
                break;
            }
            int is_same = found == answer && !memcmp(room, ample, ROOM) && told.length == wanted.length;
            int is_nothing = !memcmp(room, nothing, ROOM) && !told.length && !told.line && !told.kind;
            if (!is_same && (found != HE_NO_MEMORY || !is_nothing))
                printf("failed %d growth %ld answer %u\n", which, number, found);
            given_up += found == HE_NO_MEMORY;
        }
    }
}
"""


def check_refused():
    """Where a growth is refused, each in turn, the answer is HE_NO_MEMORY, with nothing written, or as ever."""
    source = prefix() / "refusing.c"
    source.write_text(REFUSING)
    words = ["-O1", f"-I{prefix()}/include", "-Wl,--wrap=malloc", "-Wl,--wrap=realloc", "-o", prefix() / "refusing"]
    built = run("gcc", *words, source, prefix() / "lib/libhe.a")
    tell(built.returncode == 0, f"the caller that is refused memory does not build: {built.stderr}")
    text = (DATA / "ipv6-late-but-within-delay-leads.timeline").read_bytes()
    done = run(prefix() / "refusing", input=text)
    lines = done.stdout.decode().splitlines()
    tell(len(lines) == 12 and all(line.startswith("passed") for line in lines), f"refused memory: {lines}")
    given_up = [int(line.split()[-1]) for line in lines]
    tell(all(given_up), f"never HE_NO_MEMORY where growths are refused: {given_up}")
