"""Fails one system call of a built program in each run, by strace: the first in one run, the second in the next. Each
run must end right, with status 0, or with a fault that it names, and status 1 or 3: with no wrong address, no hang, no
byte lost and no half file.

needs: strace. With --full each call is failed; else of each kind the first ones and the last.
"""
import collections
import itertools
import pathlib
import re
import tempfile

import support
from support import DATA, FOUR, OPTIONS, SIX, NotTried, Zone, greet, must, needs, replayed, serving, tell

HE = OPTIONS.program
HOST = "both.faults.test"
WRONG = "2001:db8:1e::bad", "127.0.0.66"  # addresses that a name server has for a name of the hosts file
SETUP = (support.NETWORK + support.file_of_etc("hosts", f"{SIX} pinned.test\n{FOUR} pinned.test\n")
         + support.file_of_etc("resolv.conf", "nameserver 127.0.0.1\n"))
RACE = DATA / "ipv6-late-but-within-delay-leads.timeline"
LIVE = f"race 1\nsource 127.0.0.1/8 1\nroute 127.0.0.0/8 1\naaaa 0 none\na 0 {FOUR}\nend\n"
TRACE = pathlib.Path("/run/he/trace")
# The errors with which each call is failed.
ERRORS = {
    "socket": "EMFILE ENOMEM EPERM", "bind": "EADDRINUSE EPERM", "connect": "EPERM ENOBUFS EINTR",
    "sendto": "EPERM ENOBUFS EINTR EAGAIN ENOMEM", "recvfrom": "EINTR EAGAIN ENOMEM", "epoll_create1": "EMFILE ENOMEM",
    "epoll_ctl": "ENOMEM ENOSPC", "epoll_wait": "EINTR", "openat": "EMFILE EIO EACCES EINTR", "read": "EIO EINTR EAGAIN",
    "write": "EIO EINTR ENOSPC EAGAIN", "rename": "EIO ENOSPC", "getrandom": "EAGAIN EINTR",
}
# Of these, those after which a run must end right all the same: a query is lost and sent again, a call is made again.
PASSING = {"sendto": "EPERM ENOBUFS EINTR EAGAIN ENOMEM", "recvfrom": "EINTR", "epoll_wait": "EINTR",
           "openat": "EINTR", "read": "EINTR", "write": "EINTR"}
FIRST_CALLS = 2  # of each kind, that are failed without --full
LONGEST = 8  # seconds: with one lost query, one server that is asked again
FAULT = rb"(he: [^\n]+\n(  [^\n]+\n)?)+"
REMARK = rb"(?m)^he: cannot read /[^\n]+: [^\n]+$"  # of a file of this machine that is there and can't be read


def traced(*strace, words, given=b""):
    """A run under strace, and its record and the files beside it, where it makes one."""
    with tempfile.TemporaryDirectory() as folder:
        record = pathlib.Path(folder, "record")
        words = [record if word == "RECORD" else word for word in words]
        done = support.run("timeout", LONGEST, "strace", "-f", "-o", TRACE, *strace, HE, *words, input=given)
        names = sorted(file.name for file in pathlib.Path(folder).iterdir())
        return done, record.read_text() if names == ["record"] else "", names


def calls_of(trace):
    """How often the program's first thread made each of the calls before its own work began, and in all."""
    before, whole, first = collections.Counter(), collections.Counter(), None
    for line in trace.splitlines():
        found = re.match(r"(\d+) +(?:<\.\.\. )?(\w+)\(", line)
        if found and found[2] in ERRORS and found[1] == (first := first or found[1]):
            whole[found[2]] += 1
        if support.STARTING.search(line):
            before = whole.copy()
    return before, whole


def addresses_of(output):
    """The addresses in what is written, whose ticks differ from run to run."""
    return sorted(re.findall(rb"(?<= )[0-9a-f]*[.:][0-9a-f.:]+", output))


def is_less(output, wanted):
    """Whether lines are left out, and none is there that isn't wanted."""
    return set(output.splitlines()) < set(wanted.splitlines())


def tried(name, words, given=b"", of_output=lambda output: output, has_record=False, fault=FAULT, remark=None):
    """Fails one call after another of a run. Where that is remarked, lines may be left out."""
    done, record, _ = traced("-e", "trace=" + ",".join(ERRORS), words=words, given=given)
    wanted = of_output(done.stdout)
    must(done.returncode == 0 and bool(record) == has_record, f"{name}: {done.returncode}, {done.stderr}")
    before, whole = calls_of(TRACE.read_text())
    for call, errors in ERRORS.items():
        numbers = list(range(before[call] + 1, whole[call] + 1))
        if not OPTIONS.full and len(numbers) > FIRST_CALLS:
            numbers = [*numbers[:FIRST_CALLS], numbers[-1]]
        for number, error in itertools.product(numbers, errors.split()):
            inject = f"inject={call}:error={error}:when={number}"
            done, record, names = traced("-e", f"trace={call}", "-e", inject, words=words, given=given)
            if "(INJECTED)" not in TRACE.read_text():  # (where fewer calls were made this time)
                continue
            found = of_output(done.stdout)
            is_told = bool(remark and re.search(remark, done.stderr)) and is_less(found, wanted)
            is_right = done.returncode == 0 and (found == wanted or is_told)
            is_right &= bool(record) == has_record and (not record or FOUR in replayed(record))
            is_fault = done.returncode in (1, 3) and re.fullmatch(fault, done.stderr) and names in ([], ["record"])
            is_fault = is_fault and (not record or replayed(record) is not None) and b"uncategorized" not in done.stderr
            is_fault = is_fault and error not in PASSING.get(call, "").split()
            tell(is_right or is_fault, f"{name}, {call} {number} fails with {error}: status {done.returncode}, "
                 f"{done.stdout[:200]}, {done.stderr[:200]}, {names}")


def check_texts():
    needs("strace")
    if support.run("strace", "-o", "/dev/null", "true").returncode:
        raise NotTried("strace may not trace here")
    for command in ("replay", "summary"):
        tried(command, [command, RACE])
        tried(f"{command} of standard input", [command], RACE.read_bytes())


def check_names():
    needs("strace")
    with Zone() as zone:
        tried("names", ["names", "--resolver", zone.at, HOST], of_output=addresses_of)
    with Zone(*WRONG, port=53):
        tried("names of the hosts file", ["names", "pinned.test"], of_output=addresses_of)
    tried("host", ["host"], remark=REMARK)


def check_connections():
    needs("strace")
    with Zone() as zone, serving(greet) as port:
        at = "--resolver", zone.at, HOST, port
        tried("connect", ["connect", *at])
        tried("connect --record", ["connect", "--record", "RECORD", *at], has_record=True)
        tried("connect to an address", ["connect", "-z", FOUR, port])
        with Zone(*WRONG, port=53):
            tried("connect to a name of the hosts file", ["connect", "pinned.test", port])
        # (an attempt that fails is in the transcript)
        tried("live", ["live", "--port", port, "--must-connect"], LIVE.encode(), of_output=addresses_of,
              fault=b"|" + FAULT)
