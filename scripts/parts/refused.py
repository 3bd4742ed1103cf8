"""Refuses each allocation of a built program in turn: the first in one run, the second in the next, until a run meets
no refusal. Each run of `replay`, `order`, `explain` and `draw` must write the whole answer, or end with the fault of
memory after whole texts of some first races; each run of `check`, `compare` and `summary` must tell what it tells of
the text, or the fault of memory alone; each run of `live`, on loopback, must write a race that replays to its own
transcript, or tell a fault of memory or of the event loop and write nothing. Each run of the program of the crate
`cases`, over an example of a few races, must find nothing that differs, or end for want of memory: it runs each
attempt and each race by the calls of he_race, which take their memory from the program's one allocator.

needs: cc; for the program of the crate `cases` --cases
"""
import functools
import re
import subprocess

from support import DATA, OPTIONS, NotTried, accept_all, listener_at, needs, tell

SHIM = r"""
#include <fcntl.h>
#include <stdatomic.h>
#include <stdlib.h>
#include <sys/syscall.h>
#include <unistd.h>

void *__libc_malloc(size_t); /* glibc's own */
static atomic_long left = -1;
static int until_output;

__attribute__((constructor)) static void begin(void) {
    left = atol(getenv("REFUSED_GROWTH"));
    until_output = getenv("REFUSED_UNTIL_OUTPUT") != NULL;
}

/* Where it is asked for, all is granted from the first output on. */
ssize_t write(int file, const void *bytes, size_t size) {
    if (until_output && file == STDOUT_FILENO)
        left = -1;
    return syscall(SYS_write, file, bytes, size);
}

void *malloc(size_t size) {
    if (left > 0 && atomic_fetch_sub(&left, 1) == 1) {
        open(getenv("REFUSED_MARK"), O_CREAT | O_WRONLY, 0600);
        return NULL;
    }
    return __libc_malloc(size);
}
"""
MEMORY = b"he: out of memory\n"
RUNTIME = b"he: the event loop or the clock failed\n"
# A part of the line with which the program of the crate `cases` ends for want of memory.
CASES_MEMORY = b"OutOfMemory"
# The first words of the line with which the text of a race ends, of a transcript and an order, of an object, a picture
# and an image, and what precedes a story that is not the first.
LAST_LINES = (b"won ", b"exhausted ", b"limit ", b"end\n", b"{", b"\n", b"</svg>\n", b"<main>", b"</pre>")
BEFORE_STORY = b"\nrace "
# The text of a page between its races and its totals.
PAGE_END = b"</article></main>"
# An address that refuses, and one that is connected to.
RACE = b"""race 2
set attempt 10
set floor 10
source 127.0.0.1/8 1
route 127.0.0.0/8 1
aaaa 0 none
a 0 127.0.0.1 127.0.0.2
rtt 127.0.0.2 1
used 127.0.0.1
end
"""
EXAMPLES = ["four-races-in-one-text", "sixty-four-routes-and-sources", "most-addresses-of-each-family",
            "most-lines-of-a-race"]
# The races of the example for `cases`: more bytes together than a text has that is run in every cut.
CASES_EXAMPLES = ["failure-seen-after-a-pause", "four-races-in-one-text", "lower-rtt-is-tried-first",
                  "floor-after-a-failure"]
WRONG = b"race 1\nset attempt 9\nend\n" * 2
# The races of a text of this size are shared among workers. Its growths are many: the first are refused each, and
# then one in each tenth.
SHARED_BYTES = 1024 * 1024
EACH = 30


def long_race():
    """A race of some 20,000 bytes: a text has a limit of races."""
    v6 = [f"2001:0db8:0000:0000:0000:0000:0001:{n:04x}" for n in range(64)]
    v4 = [f"198.51.100.{100 + n}" for n in range(64)]
    lines = ["race 1", "set attempt 10"]
    lines += [f"source {ip}/128 {n + 1} deprecated temporary" for n, ip in enumerate(v6)]
    lines += [f"route {ip}/128 {n + 1} tunnel" for n, ip in enumerate(v6)]
    lines += [f"aaaa 20 {' '.join(v6)}", f"a 30 {' '.join(v4)}"]
    lines += [f"connect {ip} fail 3600000" for ip in v6 + v4]
    return "\n".join([*lines, "end", ""]).encode()


@functools.cache
def shim():
    """The library that refuses, built once."""
    needs("cc")
    source, library = OPTIONS.folder / "shim.c", OPTIONS.folder / "shim.so"
    source.write_text(SHIM)
    subprocess.run(["cc", "-shared", "-fPIC", "-O1", "-w", "-o", library, source], check=True)
    return library


def run(words, text, growth):
    """A run whose growth of this number is refused (0: none), and whether it asked for as many."""
    file = OPTIONS.folder / "text"
    file.write_bytes(text)
    with file.open("rb") as given:
        return run_refused([OPTIONS.program, *words], growth, stdin=given)


def run_refused(command, growth, more_environment={}, **more):
    mark = OPTIONS.folder / "refused"
    mark.unlink(missing_ok=True)
    environment = {"LD_PRELOAD": shim(), "REFUSED_GROWTH": str(growth), "REFUSED_MARK": mark, **more_environment}
    ran = subprocess.run(command, capture_output=True, env=environment, timeout=60, **more)
    return ran, mark.exists()


def walk(words, text, is_right, status=0):
    """Each growth of a run over the text in turn. The status is that of a run in which none is refused."""
    is_long = len(text) >= SHARED_BYTES
    walk_runs(" ".join(words), lambda growth: run(words, text, growth), is_right, status, is_long)


def walk_runs(name, run, is_right, status=0, is_long=False):
    growth, is_refused = 1, True
    while is_refused:
        ran, is_refused = run(growth)
        told = f"{name}, growth {growth}: status {ran.returncode}, {ran.stderr[:200]}, {ran.stdout[:200]}"
        tell(is_right(ran) and (is_refused or ran.returncode == status), told)
        last, growth = growth, growth + (growth // 10 if is_long and growth >= EACH else 1)
    print(f"    {name}: the last growth tried is {last}")


def is_live_answer(ran):
    if ran.returncode == 0:
        return ran.stderr == b"" and replays(ran.stdout)
    return ran.returncode == 1 and ran.stderr in (MEMORY, RUNTIME) and ran.stdout == b""


def replays(written):
    """Whether a live race was written: a transcript, and a record that replays to it."""
    begins = re.search(rb"(?m)^(record |race 2$)", written)
    if not begins or b"race 2\n" not in written:
        return False
    transcript, record = written[:begins.start()], written[begins.start():]
    ran, _ = run(["replay"], record, 0)
    return ran.returncode == 0 and ran.stdout == transcript != b""


def is_answer(ran, whole):
    if ran.returncode == 0:
        return ran.stderr == b"" and ran.stdout == whole != b""
    return ran.returncode == 1 and is_memory(ran.stderr) and are_first_races(ran.stdout, whole)


def is_memory(told):
    """Whether it is the fault, of a page's head with the name of its file."""
    return told == MEMORY or told.startswith(b"he: /") and told.endswith(b"/page.html: " + MEMORY.removeprefix(b"he: "))


def is_whole_or_nothing(ran, whole):
    return (ran.returncode, ran.stdout, ran.stderr) in (whole, (1, b"", MEMORY))


def is_cases_answer(ran, whole):
    if ran.returncode == 0:
        return ran.stdout == whole != b""
    return ran.returncode == 1 and ran.stdout == b"" and CASES_MEMORY in ran.stderr


def is_page(written, whole):
    """Whether it is a page of some first races, whose number is in its totals."""
    races, _, totals = written.partition(PAGE_END)
    told = re.search(rb"<b>(\d+)</b> races?<", totals)
    return whole.startswith(races) and told is not None and int(told[1]) == races.count(b"<section")


def are_first_races(written, whole):
    if PAGE_END in written:
        return is_page(written, whole)
    if written in (b"", whole) or whole[len(written):].startswith(BEFORE_STORY):
        return whole.startswith(written)
    return whole.startswith(written) and written.splitlines(True)[-1].startswith(LAST_LINES)


def joined(names, ending):
    return b"".join((DATA / f"{name}.{ending}").read_bytes() for name in names)


def check_answers():
    """Texts that are written of each race as it comes."""
    page = OPTIONS.folder / "page.html"
    page.symlink_to("/dev/stdout")
    for text, commands in (
        (joined(EXAMPLES, "timeline"), ["order", "explain", "explain --json", "order --json", "draw", "draw --svg",
                                        f"draw --html {page}", "replay --workers 1", "replay --json --workers 1",
                                        "replay --workers 7"]),
        (long_race() * (1 + SHARED_BYTES // len(long_race())), ["replay --workers 2", "replay --workers 7"]),
    ):
        for words in map(str.split, commands):
            whole = run(words, text, 0)[0].stdout
            walk(words, text, lambda ran: is_answer(ran, whole))


def check_wholes():
    """Texts that are written of a whole text, or not at all."""
    for text, commands in (
        (joined(EXAMPLES, "timeline"), ["check", "compare --set floor=20 --set attempt=20", "summary",
                                        "summary --json"]),
        (WRONG, ["check", "check --all"]),
        (b"", ["host"]),
    ):
        for words in map(str.split, commands):
            ran = run(words, text, 0)[0]
            whole = (ran.returncode, ran.stdout, ran.stderr)
            walk(words, text, lambda ran: is_whole_or_nothing(ran, whole), ran.returncode)


def check_live():
    with listener_at("127.0.0.1") as listener:
        accept_all(listener, lambda connection: None)
        walk(["live", "--port", str(listener.getsockname()[1])], RACE, is_live_answer)


def check_cases():
    """Each growth of the run over the examples, up to its first output: what it says of them."""
    if not OPTIONS.cases:
        raise NotTried("no --cases PROGRAM")
    folder, until = OPTIONS.folder / "cases", {"REFUSED_UNTIL_OUTPUT": "1"}
    folder.mkdir()
    for ending in ("timeline", "transcript"):
        (folder / f"races.{ending}").write_bytes(joined(CASES_EXAMPLES, ending))
    whole = run_refused([OPTIONS.cases], 0, cwd=folder)[0].stdout
    walk_runs("cases", lambda growth: run_refused([OPTIONS.cases], growth, until, cwd=folder),
              lambda ran: is_cases_answer(ran, whole))
