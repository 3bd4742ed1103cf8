"""Tries the clients that use libhe, in C, Python and Rust, on this machine alone, beside `he replay`.

needs: the proved library, by `make build-library`; gcc; what a client needs where it is there: libuv's header, cargo,
Python's build; valgrind where it is there
"""
import contextlib
import os
import re
import shutil
import sys
from pathlib import Path

from parts.library import DONE, library, prefix
from support import OPTIONS, ROOT, NotTried, has_six, listener_at, must, needs, run, silent, tell

PYTHONS = (sys.executable, "/usr/bin/python3")  # one of which may have the modules build and wheel
DELAY, MOST_LATE = 250, 5000  # ticks from one start to the next; of a client on a busy machine or under valgrind
WORDS = ["-std=c11", "-D_GNU_SOURCE", "-Wall", "-Wextra", "-Werror", "-g"]
CHECKED = ["-O1", "-fsanitize=address,undefined", "-fno-sanitize-recover=all"]


@contextlib.contextmanager
def servers():
    """A port at which 127.0.0.1 and ::1 answer, 127.0.0.2 refuses, and 127.0.0.3 is silent."""
    with contextlib.ExitStack() as held:
        port = held.enter_context(listener_at("127.0.0.1")).getsockname()[1]
        if has_six():
            held.enter_context(listener_at("::1", port))
        held.enter_context(silent("127.0.0.3", port))
        yield port


# The addresses of a race, how it ends, and what became of each.
RACES = [
    (["127.0.0.1"], "won 0", ["won"]),
    (["127.0.0.2", "127.0.0.1"], "won 1", ["failed", "won"]),
    (["127.0.0.3", "127.0.0.1"], "won 1", ["cancelled", "won"]),
    (["127.0.0.3", "127.0.0.2", "127.0.0.1"], "won 2", ["cancelled", "failed", "won"]),
    (["127.0.0.2", "127.0.0.4"], "exhausted", ["failed", "failed"]),
    *([(["127.0.0.2", "::1"], "won 0", ["won"])] if has_six() else []),
    (["127.0.0.1", "127.0.0.1"], "won 0", ["won"]),
]


def judge(what, race, transcript, record):
    ips, result, marks = race
    found = re.findall(r"^attempt \d+ \d+ \S+ (\w+) \d+$", transcript, re.M)
    last = transcript.splitlines()[-1] if transcript else ""
    tell(last.startswith(result) and found == marks, f"{what} {ips}:\n{transcript}")
    least, tick = DELAY * marks.count("cancelled"), int((last.split() or ["0"])[-1])  # a silent address costs one delay
    tell(least <= tick <= least + MOST_LATE, f"{what} {ips}: over at tick {tick}, not {least}")
    answer, told, room = library().text("replay", record.encode(), 1 << 16)
    same = answer == DONE and room[:told.length].decode() == transcript
    tell(same, f"{what} {ips}: the record does not replay:\n{record}")
    replayed = run(OPTIONS.program, "replay", input=record.encode()).stdout.decode()
    tell(replayed == transcript, f"{what} {ips}: he replay has another transcript:\n{replayed}")


def paths():
    """The environment for a program that is built and run with the shared library."""
    own = f"{prefix()}/lib"
    return {**os.environ, "PKG_CONFIG_PATH": f"{own}/pkgconfig", "LD_LIBRARY_PATH": own, "HE_LIB_DIR": own}


def try_client(before, env=None):
    """Runs the races by a client, which prints the transcript and keeps the record where RECORD says."""
    if not has_six():
        print("    no ::1: it is not tried")
    with servers() as port:
        for race in RACES:
            record = prefix() / "record"
            record.unlink(missing_ok=True)
            done = run(*before, str(port), *race[0], env={**(env or os.environ), "RECORD": str(record)})
            what = f"{Path(before[-1]).name}, status {done.returncode}, {done.stderr}"
            tell(done.returncode == (0 if race[1].startswith("won") else 3), f"{what}: {race[0]}")
            judge(what, race, done.stdout, record.read_text() if record.exists() else "")


def check_c():
    """examples/c connects past silent and refused addresses, also under gcc's sanitizers and valgrind."""
    sources = [ROOT / "examples/c/connect.c", ROOT / "examples/c/he_race.c"]
    for name, more in {"connect": ["-O2"], "checked": CHECKED}.items():
        built = run("gcc", *WORDS, *more, f"-I{prefix()}/include", "-o", prefix() / name, *sources,
                    prefix() / "lib/libhe.a")
        if more is CHECKED and re.search("cannot find .*(asan|ubsan)", built.stderr):
            print("    no libraries of gcc's sanitizers: examples/c is not tried with them")
            continue
        must(built.returncode == 0, f"examples/c does not build: {built.stderr}")
        try_client([prefix() / name])
    if shutil.which("valgrind"):
        try_client(["valgrind", "-q", "--error-exitcode=9", "--leak-check=full", prefix() / "connect"])
    else:
        print("    no valgrind: examples/c is not tried with it")


def check_pkg_config():
    """he.pc says how to build a program with the shared library."""
    needs("pkg-config")
    said = run("pkg-config", "--cflags", "--libs", "he", env=paths())
    sources = [ROOT / "examples/c/connect.c", ROOT / "examples/c/he_race.c"]
    built = run("gcc", *WORDS, "-o", prefix() / "shared", *sources, *said.stdout.split())
    must(built.returncode == 0, f"examples/c does not build by he.pc: {said.stderr}{built.stderr}")
    ran = run(prefix() / "shared", "1", "127.0.0.1", env=paths())
    tell(ran.returncode == 3 and " failed " in ran.stdout, f"examples/c with libhe.so: {ran.stdout}{ran.stderr}")


def check_libuv():
    """examples/libuv does the same in a loop of libuv."""
    if run("gcc", "-E", "-include", "uv.h", "-xc", os.devnull).returncode:
        raise NotTried("no header uv.h: libuv1-dev isn't installed")
    built = run("gcc", *WORDS, "-O2", f"-I{prefix()}/include", "-o", prefix() / "by_libuv",
                ROOT / "examples/libuv/connect.c", prefix() / "lib/libhe.a", "-luv")
    must(built.returncode == 0, f"examples/libuv does not build: {built.stderr}")
    try_client([prefix() / "by_libuv"])


# The program's memory is its own allocator's, which counts what it gives.
COUNTING = r"""
#include <he.h>
#include <stdio.h>
#include <stdlib.h>
static long calls, held;
static void *take(size_t size) { calls++, held++; return malloc(size); }
static void *again(void *memory, size_t size) { calls++, held += !memory; return realloc(memory, size); }
static void give(void *memory) { held -= memory != NULL; free(memory); }
int main(void)
{
    static const uint8_t text[] = "race 1\naaaa 5 none\na 5 192.0.2.1\nend\n";
    static uint8_t buffer[4096];
    struct he_result result;
    he_use_memory(take, again, give);
    uint32_t answer = he_replay(text, sizeof text - 1, buffer, sizeof buffer, &result);
    printf("%u %d %ld\n", answer, calls > 0, held);
}
"""


def check_own_memory():
    """he_use_memory: the library takes its memory from the program's functions, and gives all of it back."""
    source = prefix() / "counting.c"
    source.write_text(COUNTING)
    built = run("gcc", "-O1", f"-I{prefix()}/include", "-o", prefix() / "counting", source, prefix() / "lib/libhe.a")
    must(built.returncode == 0, built.stderr)
    found = run(prefix() / "counting").stdout
    tell(found == "0 1 0\n", f"he_use_memory: {found}")


def check_python():
    tested = run(sys.executable, "-m", "unittest", "test_happy_eyeballs", cwd=ROOT / "examples/python",
                 env={**os.environ, "HE_LIBRARY": str(prefix() / "lib/libhe.so.1"), "HE": OPTIONS.program,
                      "PYTHONDONTWRITEBYTECODE": "1"})
    must(tested.returncode == 0, tested.stderr)


def check_wheel():
    """`python3 -m build` makes a wheel and an sdist without a network, and the wheel can be imported."""
    python = next((one for one in PYTHONS if run(one, "-c", "import build, setuptools, wheel").returncode == 0), None)
    if not python:
        raise NotTried("no Python with the modules build, setuptools and wheel")
    copy = prefix() / "python"
    shutil.copytree(ROOT / "examples/python", copy, ignore=shutil.ignore_patterns("__pycache__", "build", "*.egg-info"))
    built = run(python, "-m", "build", "--no-isolation", ".", cwd=copy)
    must(built.returncode == 0, built.stdout + built.stderr)
    wheels = list((copy / "dist").glob("*.whl"))
    tell(len(wheels) == 1 and len(list((copy / "dist").glob("*.tar.gz"))) == 1, f"dist has {wheels}")
    words = "import happy_eyeballs; print(happy_eyeballs.library_version())"
    done = run(sys.executable, "-c", words, cwd=prefix(), env={
        **os.environ, "PYTHONPATH": str(wheels[0]), "HE_LIBRARY": str(prefix() / "lib/libhe.so.1")})
    tell(done.stdout == "10000\n", f"the wheel: {done.stdout}{done.stderr}")


def check_rust():
    """examples/rust builds without a network, passes its tests, and connects as the clients in C do."""
    needs("cargo")
    copy = prefix() / "rust"
    shutil.copytree(ROOT / "examples/rust", copy, ignore=shutil.ignore_patterns("target"))
    env = {**paths(), "CARGO_TARGET_DIR": str(prefix() / "target")}
    built = run("cargo", "test", "--offline", "--quiet", cwd=copy, env=env)
    must(built.returncode == 0, built.stdout + built.stderr)
    built = run("cargo", "build", "--offline", "--quiet", "--example", "connect", cwd=copy, env=env)
    must(built.returncode == 0, built.stdout + built.stderr)
    try_client([prefix() / "target/debug/examples/connect"], env)
