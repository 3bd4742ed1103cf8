"""Refuses each allocation of a built program in turn, as the part refused does, where it connects and probes on a
machine with only IPv6, whose network has a NAT64 or none. Each run must end as one that is refused nothing, or tell a
fault of memory or of the event loop alone. Where the refusal ends its look-up or its attempt, it must say so, and write
a whole record.

needs: cc
"""
import re

from parts.nat64 import SERVER, WELL_KNOWN, Discovering, embedded
from parts.nat64 import SETUP as MACHINE
from parts.refused import MEMORY, RUNTIME, run, run_refused, walk_runs
from support import OPTIONS, accept_all, listener_at

# The host's address by the prefix is this machine's own, so that no translator is needed.
AT = embedded(WELL_KNOWN, SERVER)
SETUP = f"{MACHINE}ip address add {AT}/128 dev lo nodad\n"
NO_NAT64 = "he: this machine has no IPv4, and its network no NAT64\n"
BY_NAT64 = [rf"^record lookup a nat64\nrecord nat64 {WELL_KNOWN}$", rf"^aaaa \d+ {AT}\na 0 none$"]
NO_ADDRESS = [r"^aaaa \d+ none\na 0 none$"]


def ends(ran, status, told, wanted):
    """Whether a run ended so, told this alone, a pattern, and wrote a record with these lines, which replays."""
    record = ran.stdout.decode()
    return (ran.returncode == status and re.fullmatch(told, ran.stderr.decode())
            and all(re.search(line, record, re.M) for line in wanted)
            and run(["replay"], ran.stdout, 0)[0].returncode == 0)


def is_fault(ran, host):
    """Whether a run told a fault alone, or that of a look-up with a record that has no address."""
    if ran.returncode == 1 and ran.stderr in (MEMORY, RUNTIME):
        return ran.stdout == b""
    return ends(ran, 1, f"he: out of memory: {host}\n", NO_ADDRESS)


def walk(command, server, host, port, is_right, status=0):
    words = [*command.split(), "--record", "-", "--resolver", server.at, host, str(port)]
    walk_runs(" ".join(words), lambda growth: run_refused([OPTIONS.program, *words], growth),
              lambda ran: is_fault(ran, host) or is_right(ran), status)


def check_embedded():
    """A literal, and a name, that are reached through the NAT64. If an attempt is refused its memory, it fails."""
    def is_right(ran):
        return ends(ran, 0, "", [*BY_NAT64, rf"^connect {AT} ok \d+$"]) or ends(
            ran, 3, rf"he: no connection to .*: 1 address tried: {AT} unknown reason after \d+ ms\n",
            [*BY_NAT64, rf"^connect {AT} fail \d+$"])

    with Discovering(WELL_KNOWN) as server, listener_at(AT) as listener:
        accept_all(listener, lambda connection: None)
        for host in (SERVER, "four.test"):
            walk("connect -z", server, host, listener.getsockname()[1], is_right)


def check_none():
    """A literal, and a name, where the network has no NAT64."""
    with Discovering() as server:
        for host, lack in [(SERVER, ""), ("four.test", "he: four.test has no IPv6 address\n")]:
            for command in ("connect -z", "probe"):
                walk(command, server, host, 443, lambda ran: ends(ran, 3, f"{lack}{NO_NAT64}", NO_ADDRESS), status=3)


def check_probed():
    """A literal, and a name, that are probed through the NAT64. If an attempt is refused its memory, it fails."""
    with Discovering(WELL_KNOWN) as server, listener_at(AT) as listener:
        accept_all(listener, lambda connection: None)
        for host in (SERVER, "four.test"):
            walk("probe", server, host, listener.getsockname()[1],
                 lambda ran: ends(ran, 0, "", [*BY_NAT64, rf"^connect {AT} ok \d+$"])
                 or ends(ran, 3, "", [*BY_NAT64, rf"^connect {AT} fail \d+$"]))
