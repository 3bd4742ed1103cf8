"""The base of the harnesses: how they run their parts and what they count, runs and namespaces of their own, addresses
that answer, refuse or are silent, servers, and a name server.

needs: Linux, python3 and its standard library
"""
import argparse
import collections
import concurrent.futures
import contextlib
import functools
import hashlib
import http.server
import importlib
import itertools
import os
import pathlib
import random
import re
import resource
import select
import shlex
import shutil
import signal
import socket
import struct
import subprocess
import sys
import tempfile
import threading
import time

ROOT = pathlib.Path(__file__).resolve().parent.parent
DATA = ROOT / "crates/cases/data"
OPTIONS = argparse.Namespace()  # the command line of a harness, read before a part is loaded; a part's own folder
KEPT = pathlib.Path("fuzz-found")  # where a text is kept that was drawn, and is read wrong
TIMEOUT = 60  # seconds, of a run that never ends
ALONE = 0.1  # seconds in which this machine answers itself
os.environ["PATH"] += ":/usr/sbin:/sbin"  # where dnsmasq, sshd and ip may be
os.environ["LC_ALL"] = "C.UTF-8"  # in which pictures are not drawn in ASCII
# The parts of each harness, scripts/parts/NAME.py, in their order.
PARTS = {
    "examples": "examples lines page documents documents_parallel manual installed architecture edits "
                "captures captures_records library library_lines library_clients fuzz",
    "network": "session hosts hosts_bytes live names names_files connect connect_relay nat64 nat64_names probe "
               "proxy proxy_socks proxy_users proxy_rules proxy_clients proxy_log proxy_load proxy_names proxy_strangers "
               "proxy_http proxy_responses proxy_metrics proxy_drawn proxy_programs proxy_service",
    "hostile": "hostile refused refused_nat64 faults",
}
# Those that look at no time and share nothing run side by side, before the others, the longest first.
ASIDE = "examples captures_records captures page manual lines installed architecture edits".split()

# A harness, its parts and their checks


COUNTS = collections.Counter()  # how many checks passed (True) and failed (False)
TOLD = []  # what is wrong in the check that runs
WRONG = "FAILED: "  # how the line of a check begins that failed


def tell(is_right, *told):
    """Counts a check, and prints what is wrong."""
    COUNTS[bool(is_right)] += 1
    if not is_right:
        TOLD.append(" ".join(map(str, told)))


def end():
    print(f"{COUNTS[True]} passed, {COUNTS[False]} failed")
    sys.exit(COUNTS[False] > 0)


class NotTried(Exception):
    """This machine lacks something that a check needs."""


def must(is_right, *told):
    """Ends a check if something is wrong, and prints that."""
    if not is_right:
        raise ValueError(" ".join(map(str, told)))


def needs(*programs):
    """Ends a check, which then isn't tried, where one of the programs is missing."""
    missing = [name for name in programs if shutil.which(name) is None]
    if missing:
        raise NotTried(f"{', '.join(missing)} isn't installed")


# Pauses of this machine


PAUSE = 0.005  # seconds of a pause that may explain why a check of short times fails
LONG_PAUSE = 0.05  # and of one that may explain why any other check does
CALM, MOST_WAIT = 1, 30  # seconds without a pause before another try, and how long they are waited for at most
TRIES = 5  # of what fails while this machine pauses


class Pauses:
    """The pauses of this machine while a part runs, as scripts/pauses.py sees them: none where it may not."""

    def __init__(self):
        self.found = [(time.monotonic(), 0.0)]
        watching = [sys.executable, ROOT / "scripts/pauses.py"]
        self.watching = subprocess.Popen(watching, stdin=subprocess.PIPE, stdout=subprocess.PIPE, text=True)
        in_thread(self.read)

    def read(self):
        for line in self.watching.stdout:
            self.found.append(tuple(map(float, line.split())))

    def longest_since(self, began):
        """The seconds of the longest pause that ended after this time of the monotonic clock."""
        return max((length for end, length in self.found if end > began), default=0)

    def end(self):
        """Waits until there is none for a while."""
        last = time.monotonic() + MOST_WAIT
        while time.monotonic() < last and self.longest_since(time.monotonic() - CALM) > PAUSE:
            time.sleep(0.1)


@functools.cache
def pauses():
    return Pauses()


def settled(attempt, what="", most_failed=2, least=PAUSE):
    """The result of an attempt that says as its first value whether it is right. It is made again while it isn't: until
    it failed as often without a pause of this machine of the least length, and at most TRIES times. With it the longest
    pause of the last try."""
    pauses()
    for tries_left in reversed(range(TRIES)):
        began = time.monotonic()
        result = attempt()
        pause = pauses().longest_since(began)
        most_failed -= pause < least
        if result[0] or not tries_left or not most_failed:
            return *result, pause
        print(f"{what}: tried again (the longest pause of this machine: {1_000 * pause:.0f} ms)")
        pauses().end()


def timed(check):
    """Marks a check that looks at short times: it is tried again where it fails, also where no pause is seen."""
    check.is_timed = True
    return check


def run_check(name, check):
    """Runs a check, and again where it fails and this machine paused meanwhile, in another folder: it isn't tried where
    all tries failed so. It counts as one, but where it counts itself."""
    is_timed, before, folder, tries = hasattr(check, "is_timed"), COUNTS.copy(), OPTIONS.folder, itertools.count()

    def attempt():
        COUNTS.clear()
        TOLD.clear()
        if next(tries):
            OPTIONS.folder = pathlib.Path(tempfile.mkdtemp(dir=folder))
        try:
            check()
        except (NotTried, PermissionError) as error:
            print(f"{name}: not tried ({error})")
            return (True,)
        except Exception as error:
            is_told = isinstance(error, ValueError)
            tell(False, f"{name}: {error}" if is_told else f"{name}: {type(error).__name__}: {error}")
        else:
            if not COUNTS:
                tell(True)
        if TOLD and not TOLD[0].startswith(name):
            TOLD[0] = f"{name}: {TOLD[0]}"
        return (not TOLD,)

    least = PAUSE if is_timed else LONG_PAUSE
    is_right, pause = settled(attempt, name, 1 + is_timed, least)
    if not is_right and pause >= least:
        COUNTS.clear()
        print(f"{name}: not tried (this machine paused in each of {TRIES} tries, in the last one for "
              f"{1_000 * pause:.0f} ms: {TOLD[0]})")
    else:
        print("".join(f"{WRONG}{told}\n" for told in TOLD), end="")
    COUNTS.update(before)
    OPTIONS.folder = folder


def program(name):
    """The path of a program that the command line names."""
    if not os.access(name, os.X_OK):
        raise argparse.ArgumentTypeError(f"no program {name}")
    return os.path.abspath(name)


def read_options(doc):
    parser = argparse.ArgumentParser(description=doc, formatter_class=argparse.RawDescriptionHelpFormatter)
    parser.add_argument("program", type=program, help="the built program")
    parser.add_argument("part", nargs="*", help="how the names PART.CHECK begin of the checks that are run: else all")
    parser.add_argument("--full", action="store_true", help="with what takes minutes")
    parser.add_argument("--seconds", type=float, help="how long a check goes on that draws what it tries")
    parser.add_argument("--seed", type=int, default=1, help="of what is drawn")
    parser.add_argument("--cases", type=program, metavar="PROGRAM", help="the program of the crate cases")
    parser.add_argument("--before", default="0 passed, 0 failed", metavar="COUNTS", help="which the last line adds")
    parser.add_argument("--run", help=argparse.SUPPRESS)  # the part that this process runs
    parser.add_argument("--inside", action="store_true", help=argparse.SUPPRESS)  # in namespaces of its own
    parser.parse_intermixed_args(namespace=OPTIONS)


def checks_of(name, part):
    """The functions check_* of a part, by PART.CHECK, of those that the command line names."""
    checks = {f"{name}.{word[6:]}": check for word, check in vars(part).items() if word.startswith("check_")}
    return {word: check for word, check in checks.items() if word.startswith(tuple(OPTIONS.part or [""]))}


def run_part(name, part, say=print):
    """Runs a part in a process of its own, tells each line that it writes, its time and its counts; returns these, and
    the lines of the checks that failed. Where the part has a SETUP, lines of sh, it runs in network and mount namespaces
    which they set up; where these can't be made, it is tried without them if it has ANYWHERE."""
    began, counts, wrong = time.monotonic(), None, []
    words = [sys.executable, "-u", *sys.argv, "--run", name]
    if hasattr(part, "SETUP"):
        inside = ["unshare", "-n", "-m", "sh", "-ec", f'{part.SETUP}\nexec "$0" "$@"']
        if shutil.which("unshare") and run(*inside, "true").returncode == 0:
            words = [*inside, *words, "--inside"]
        elif not hasattr(part, "ANYWHERE"):
            say(f"{name}: not tried (no network of its own can be made)")
            return 0, 0, []
    with subprocess.Popen(words, stdout=subprocess.PIPE, text=True) as running:
        for line in running.stdout:
            counts = re.fullmatch(r"(\d+) passed, (\d+) failed\n", line)
            if not counts:
                say(line.rstrip("\n"))
            wrong += [line] * line.startswith(WRONG)
    if not counts:
        wrong.append(f"{WRONG}{name} breaks off, status {running.returncode}\n")
    passed, failed = map(int, counts.groups() if counts else (0, 1))
    say(f"{name}, {time.monotonic() - began:.0f} s: {passed} passed, {failed} failed")
    return passed, failed, wrong


def run_aside(name, part):
    """Runs a part beside others; tells what it wrote once it has ended."""
    lines = []
    result = run_part(name, part, lines.append)
    print("\n".join(lines))
    return result


def run_harness(doc, *harnesses):
    """Runs the parts of harnesses, or what the command line names of them, and tells of each its time and its counts,
    and at the end what failed. The last line counts all."""
    read_options(doc)
    signal.signal(signal.SIGINT, signal.default_int_handler)  # (in the background a shell has it passed over)
    sys.stdout.reconfigure(line_buffering=True)
    parts = {name: importlib.import_module(f"parts.{name}") for each in harnesses for name in PARTS[each].split()}
    checks = {name: checks_of(name, part) for name, part in parts.items()}
    for word in OPTIONS.part:
        if not any(check.startswith(word) for each in checks.values() for check in each):
            sys.exit(f"no check begins with {word}: the parts are {', '.join(parts)}")
    if OPTIONS.run:
        with tempfile.TemporaryDirectory() as folder:
            OPTIONS.folder = pathlib.Path(folder)
            for each in checks[OPTIONS.run].items():
                run_check(*each)
        end()
    COUNTS.update(dict(zip((True, False), map(int, re.findall(r"\d+", OPTIONS.before)))))
    chosen = {name: part for name, part in parts.items() if checks[name]}
    aside = {name: chosen.pop(name) for name in ASIDE if name in chosen}
    with concurrent.futures.ThreadPoolExecutor(len(os.sched_getaffinity(0))) as pool:
        ended = [*pool.map(run_aside, aside, aside.values())]
    ended += itertools.starmap(run_part, chosen.items())
    for passed, failed, wrong in ended:
        COUNTS.update({True: passed, False: failed})
        print("".join(wrong), end="")
    end()


# Runs


def run(*words, **more):
    """A run that has ended; its output is text, but where bytes are given."""
    is_text = not isinstance(more.get("input"), bytes)
    return subprocess.run([str(word) for word in words], **{"capture_output": True, "text": is_text, **more})


def limit(kind, most):
    """A function that limits a resource of a run before it begins (as NOFILE); None for no limit."""
    return most and (lambda: resource.setrlimit(getattr(resource, f"RLIMIT_{kind}"), (most, most)))


def first_of_all():
    """Gives a run that begins the processor before all other programs, if that is allowed."""
    with contextlib.suppress(PermissionError):
        os.sched_setscheduler(0, os.SCHED_FIFO, os.sched_param(30))


def seconds_of_children():
    """The processor time of all programs that were run."""
    used = resource.getrusage(resource.RUSAGE_CHILDREN)
    return used.ru_utime + used.ru_stime


def attempts_of(transcript):
    """Each attempt's start, address and end."""
    found = re.findall(r"^attempt \d+ (\d+) (\S+) (\w+)", transcript, re.M)
    return [(int(start), ip, end) for start, ip, end in found]


def replayed(record, command="replay"):
    """The output of a command for a record without a fault."""
    done = run(OPTIONS.program, *command.split(), input=record)
    must(done.returncode == 0, f"he {command} of the record: {done.stderr!r}: {record!r}")
    return done.stdout


# A line of a trace before the program's own work begins: a library is opened and its first bytes are read, or a
# checked build looks at its process.
STARTING = re.compile(r'\.so[".]|\\177ELF|"/proc/self/')
MEMORY = "mmap,munmap,mremap,mprotect,madvise,brk"  # the calls that get memory


class Run:
    """A run of the program that raced: its status, its messages, its transcript with the attempts and the winner, and
    its record."""

    def __init__(self, done, transcript, record):
        self.status, self.told, self.transcript, self.record = done.returncode, done.stderr, transcript, record
        self.attempts = attempts_of(transcript)
        self.won = next((ip for _, ip, end in self.attempts if end == "won"), None)


def comes(is_there, seconds=20):
    """Whether it comes to be there by then."""
    end = time.monotonic() + seconds
    while not is_there():
        if time.monotonic() > end:
            return False
        time.sleep(0.02)
    return True


def is_up(server, is_there):
    """Whether a program that was started comes to be ready, and has not ended."""
    return comes(lambda: server.poll() is not None or is_there()) and server.poll() is None


# Addresses of this machine


def family_of(address):
    return socket.AF_INET6 if ":" in address else socket.AF_INET


def data_of(address):
    return socket.inet_pton(family_of(address), address)


def listener_at(address, port=0, backlog=64, interface=0):
    """A listener, at an address that may be on one interface alone."""
    more = (0, interface) if interface else ()
    return socket.create_server((address, port, *more), family=family_of(address), backlog=backlog)


def unused_port(address="127.0.0.1"):
    with listener_at(address) as listener:
        return listener.getsockname()[1]


def has_six():
    """Whether this machine has IPv6."""
    with contextlib.suppress(OSError), listener_at("::1"):
        return True
    return False


@contextlib.contextmanager
def silent(address, port=0):
    """A listener that takes no connection, since one is in its queue, which has no room for another: whoever
    connects then waits. Gives the listener, and a stack for what is held as long."""
    with contextlib.ExitStack() as held:
        listener = held.enter_context(listener_at(address, port, backlog=0))
        to = address.replace("0.0.0.0", "127.0.0.1"), listener.getsockname()[1]
        held.enter_context(socket.create_connection(to, TIMEOUT))
        must(select.select([listener], [], [], TIMEOUT)[0], f"no connection comes to {address}")
        yield listener, held


def in_tcp_table(port, state, column, table="tcp"):
    """How many IPv4 sockets of all programs have the port in that column (1: theirs, 2: the other's) and the state."""
    lines = [line.split() for line in pathlib.Path("/proc/net", table).read_text().splitlines()[1:]]
    return sum(line[column].endswith(f":{port:04X}") and line[3] == state for line in lines)


def is_listening(port, address="127.0.0.1"):
    return in_tcp_table(port, "0A", 1, "tcp6" if ":" in address else "tcp") > 0


# A network of a part's own: addresses that answer, others that are silent, a link, and names of a file of hosts


SIX, FOUR = "2001:db8:1e::1", "127.0.0.1"  # addresses of this machine
DEAD_SIX, DEAD_FOUR = "2001:db8:1e::9", "127.0.0.9"  # others, at which nothing answers
WIDE_FOUR = "10.77.0.1"  # the IPv4 address of this machine beyond loopback, without which IPv4 is not asked for
NAMES = {"both.test": [SIX, FOUR], "dead6.test": [DEAD_SIX, FOUR], "dead.test": [DEAD_SIX, DEAD_FOUR],
         "four.test": [FOUR], "six.test": [SIX], "far.test": ["198.51.100.9"]}
# Where a server listens, the host that is asked for, and the address that wins.
TAKEN = [(FOUR, "four.test", FOUR), (SIX, "six.test", SIX), (FOUR, FOUR, FOUR), (SIX, SIX, SIX),
         (FOUR, "dead6.test", FOUR), (FOUR, "both.test", FOUR), (SIX, "both.test", SIX)]


def file_of_etc(name, text):
    """A line of sh after those of NETWORK that sets a text in as /etc/NAME; the file itself is /run/he/NAME."""
    return (f"[ ! -e /etc/{name} ] || {{ printf %s {shlex.quote(text)} > /run/he/{name};"
            f" mount --bind /run/he/{name} /etc/{name}; }}\n")


NETWORK = f"""
ip link set lo up
ip link add here type veth peer name there
ip link set here up
ip link set there up
ip address add {SIX}/64 dev here nodad
ip address add {DEAD_SIX}/64 dev here nodad
ip address add {WIDE_FOUR}/24 dev here
mount -t sysfs sysfs /sys
mkdir -p /run/he
mount -t tmpfs tmpfs /run/he
""" + file_of_etc("hosts", "".join(f"{address} {name}\n" for name, found in NAMES.items() for address in found))


def in_thread(work, *given):
    thread = threading.Thread(target=work, args=given, daemon=True)
    thread.start()
    return thread


def accept_all(listener, serve):
    """Calls `serve` with each connection, each in a thread, until the listener is closed."""
    def take(connection):
        with connection, contextlib.suppress(OSError):
            serve(connection)

    def accept():
        with contextlib.suppress(OSError):
            while True:
                in_thread(take, listener.accept()[0])

    return in_thread(accept)


@contextlib.contextmanager
def serving(serve, address=FOUR, interface=0, port=0):
    """A server that calls `serve` with each connection, each in a thread, at an address that may be on one interface
    alone; gives its port, at which the two addresses that are dead are silent."""
    listener = listener_at(address, port, backlog=1024, interface=interface)
    port = listener.getsockname()[1]
    thread = accept_all(listener, serve)
    try:
        with silent(DEAD_SIX, port), silent(DEAD_FOUR, port):
            yield port
    finally:
        listener.shutdown(socket.SHUT_RDWR)
        thread.join(10)
        listener.close()


def greet(connection):
    connection.sendall(b"hello\n")


def digest_of(given):
    return hashlib.sha256(given).hexdigest().encode()


def read_all(connection):
    """The digest of all that comes, and its length."""
    digest, length = hashlib.sha256(), 0
    while piece := connection.recv(1 << 17):
        digest.update(piece)
        length += len(piece)
    return digest.hexdigest().encode(), length


def answer_digest(connection):
    """Answers a whole transfer, once its end has come, with its digest."""
    connection.sendall(read_all(connection)[0])


def set_to_reset(connection):
    """The end of the connection is then a reset."""
    connection.setsockopt(socket.SOL_SOCKET, socket.SO_LINGER, struct.pack("ii", 1, 0))


# Programs of others


@contextlib.contextmanager
def server_at(port, *command, is_there=None, **more):
    """A program that listens at the port; one that does not cannot be tried."""
    quiet = {"stdin": subprocess.DEVNULL, "stdout": subprocess.DEVNULL, "stderr": subprocess.DEVNULL}
    with subprocess.Popen([str(word) for word in command], **{**quiet, **more}) as server:
        try:
            if not is_up(server, is_there or (lambda: is_listening(port))):
                raise NotTried(f"{' '.join(map(str, command))} does not listen")
            yield server
        finally:
            server.terminate()


class Quiet(http.server.SimpleHTTPRequestHandler):
    def log_message(self, *_):
        pass


@contextlib.contextmanager
def web_server(folder, tls=None):
    """A web server of the folder, with TLS by a context; gives its port."""
    with http.server.ThreadingHTTPServer((FOUR, 0), functools.partial(Quiet, directory=folder)) as server:
        if tls:
            server.socket = tls.wrap_socket(server.socket, server_side=True)
        in_thread(server.serve_forever)
        yield server.server_port
        server.shutdown()


def is_reached(address, port):
    with contextlib.suppress(OSError), socket.create_connection((address, port), ALONE):
        return True
    return False


@contextlib.contextmanager
def sshd(address, folder, port=None, inside=(), settings=()):
    """sshd at an address, after words that run it elsewhere, its files in the folder; gives its port, and the words of
    a client that may log in."""
    needs("sshd", "ssh", "ssh-keygen")
    for name in ("host", "key"):
        run("ssh-keygen", "-q", "-t", "ed25519", "-N", "", "-f", f"{folder}/{name}", check=True)
    port = port or unused_port(address)
    pathlib.Path("/run/sshd").mkdir(exist_ok=True)
    lines = [f"Port {port}", f"ListenAddress {address}", f"HostKey {folder}/host", "PidFile none", "StrictModes no",
             f"AuthorizedKeysFile {folder}/key.pub", "UsePAM no", "PermitRootLogin yes", *settings]
    options = ["StrictHostKeyChecking=no", "BatchMode=yes", f"UserKnownHostsFile={folder}/known", "LogLevel=ERROR"]
    command = [*inside, shutil.which("sshd"), "-D", "-f", "/dev/null", *(f"-o{line}" for line in lines)]
    with server_at(port, *command, is_there=lambda: is_reached(address, port)):
        yield port, ["ssh", "-F", "none", "-i", f"{folder}/key", *(f"-o{option}" for option in options)]


def must_log_in(proxy_command):
    """ssh logs in at both.test through a command, and all of a file comes over."""
    with tempfile.TemporaryDirectory() as folder, sshd(FOUR, folder) as (port, ssh):
        given = random.Random(5).randbytes(3_000_000)
        words = [*ssh, "-o", f"ProxyCommand={proxy_command} %h %p", "-p", port, "both.test", "cat"]
        done = run(*words, input=given, timeout=TIMEOUT)
    must(done.stdout == given, done.returncode, len(done.stdout), "bytes", done.stderr)


# Messages of the domain name system, and a server


A, CNAME, AAAA, OPT = 1, 5, 28, 41
NOERROR, FORMERR, SERVFAIL, NXDOMAIN, NOTIMP, REFUSED = range(6)
BADVERS = 16
OWN_NAME = b"\xc0\x0c"  # of the question, by a pointer


def wire(name):
    return b"".join(bytes([len(label)]) + label.encode() for label in name.split(".") if label) + b"\0"


def record(name, kind, data, ttl=60):
    return name + struct.pack("!HHIH", kind, 1, ttl, len(data)) + data


def addresses(kind, *given, ttl=60):
    """Records of the question's name for those of the addresses that are of the kind."""
    return [record(OWN_NAME, kind, data_of(ip), ttl) for ip in given if (":" in ip) == (kind == AAAA)]


def opt(code=NOERROR, owner=b"\0"):
    """An OPT record (RFC 6891), with the upper 8 bits of a response's code."""
    return owner + struct.pack("!HHIH", OPT, 1_232, code >> 4 << 24, 0)


def question_of(query):
    return query[12:query.index(b"\0", 12) + 5]


def kind_of(query):
    return struct.unpack("!H", question_of(query)[-4:-2])[0]


def labels_of(query):
    return [label.decode() for label in re.findall(rb"[\w-]+", question_of(query)[:-5])]


def message(query, records=(), code=NOERROR, truncated=False, count=None, question=None, ident=None, flags=0x8180,
            more=()):
    """A response to the query: its header, its question, as many records as it says, or as there are, and more in the
    additional section, where a code above 15 has its upper bits."""
    question = question_of(query) if question is None else question
    more = [*more, *([opt(code)] if code > 15 else [])]
    head = struct.pack("!HHHHH", flags | code & 15 | (0x200 if truncated else 0), bool(question),
                       len(records) if count is None else count, 0, len(more))
    return (ident or query[:2]) + head + question + b"".join([*records, *more])


class NameServer:
    """A name server at an address, over UDP and TCP, and the queries that it was sent. `replies` tells what it sends
    for one: messages, each after a wait in seconds."""

    def __init__(self, address, port=0):
        self.seen = []
        ip, _, zone = address.partition("%")
        interface = socket.if_nametoindex(zone) if zone else 0
        for tries_left in range(20 if port == 0 else 1, 0, -1):
            self.datagrams = socket.socket(family_of(ip), socket.SOCK_DGRAM)
            self.datagrams.bind((ip, port, 0, interface) if interface else (ip, port))
            self.port = self.datagrams.getsockname()[1]
            try:
                self.listener = listener_at(ip, self.port, interface=interface)
                break
            except OSError:  # (a connection may have the port over TCP)
                self.datagrams.close()
                if tries_left == 1:
                    raise
        self.at = f"[{ip}]:{self.port}" if ":" in ip else f"{ip}:{self.port}"
        self.threads = [accept_all(self.listener, self.serve_stream), in_thread(self.serve_datagrams)]

    def __enter__(self):
        return self

    def __exit__(self, *_):
        for sock in self.datagrams, self.listener:
            with contextlib.suppress(OSError):
                sock.shutdown(socket.SHUT_RDWR)
        for thread in self.threads:
            thread.join(10)
        self.datagrams.close()
        self.listener.close()

    def replies(self, query, stream):
        raise NotImplementedError

    def put_to(self, peer):
        def put(reply):
            with contextlib.suppress(OSError):
                self.datagrams.sendto(reply, peer)
        return put

    def serve_datagrams(self):
        with contextlib.suppress(OSError):
            while True:
                query, peer = self.datagrams.recvfrom(4096)
                if peer is None:  # (the socket was shut down)
                    return
                self.seen.append((time.monotonic(), query, peer[1]))
                self.take(query, peer)

    def take(self, query, peer):
        in_thread(self.send, query, self.put_to(peer), False)

    def serve_stream(self, stream):
        """Answers the queries of a connection in their order, in pieces."""
        def put(reply):
            whole = struct.pack("!H", len(reply)) + reply
            for at in range(0, len(whole), 9_973):
                stream.sendall(whole[at:at + 9_973])
                time.sleep(0.001)
        while len(head := stream.recv(2)) == 2:
            self.send(stream.recv(struct.unpack("!H", head)[0]), put, True)

    def send(self, query, put, stream):
        for wait, reply in self.replies(query, stream):
            time.sleep(wait)
            put(reply)


class Zone(NameServer):
    """A name server at which each name has these addresses, for this many seconds, and for none under the label `none`;
    `lacks` is no name. The answer for AAAA may be late, and be refused by a code."""

    def __init__(self, *ips, port=0, ttl=60, late=0, six_code=NOERROR):
        self.ips, self.ttl, self.late, self.six_code = ips or (SIX, FOUR), ttl, late, six_code
        super().__init__(FOUR, port)

    def replies(self, query, _):
        label, kind = labels_of(query)[0], kind_of(query)
        late, code = (self.late, self.six_code) if kind == AAAA else (0, NOERROR)
        code = NXDOMAIN if label == "lacks" else code
        found = [] if code else addresses(kind, *self.ips, ttl=0 if label == "none" else self.ttl)
        return [(late, message(query, found, code))]

    def asked(self, label):
        """How often it was asked for a name that begins so."""
        return sum(labels_of(query)[0] == label for _, query, _ in self.seen)

    def kinds(self):
        """The questions that it got."""
        return {kind_of(query) for _, query, _ in self.seen}


@contextlib.contextmanager
def dnsmasq(address, *records):
    """dnsmasq with these records at an address of this machine; gives what names it as a resolver."""
    needs("dnsmasq")
    port = unused_port(address)
    command = ["dnsmasq", "--keep-in-foreground", "--conf-file=/dev/null", "--no-resolv", "--no-hosts", "--pid-file=",
               "--user=", "--bind-interfaces", f"--listen-address={address}", f"--port={port}", *records]
    with server_at(port, *command):
        yield f"{address}:{port}"
