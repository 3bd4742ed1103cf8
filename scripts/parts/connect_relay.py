"""Relays by a built program's `he connect`, and looks at each byte that goes either way, at how it ends, and at what it
leaves open.

needs: sshd and ssh to log in through ProxyCommand, curl, nc. With --full it transfers 100 MB.
"""
import contextlib
import fcntl
import os
import pathlib
import queue
import random
import re
import signal
import socket
import subprocess
import tempfile
import time

import support
from parts.connect import HE, IS_FULL, Run, started
from support import (FOUR, TIMEOUT, NotTried, answer_digest, digest_of, greet, must, needs, read_all, serving,
                     set_to_reset, timed, unused_port)

SETUP = support.NETWORK
SIZE = 100_000_000 if IS_FULL else 20_000_000  # bytes of a transfer


def check_transfers():
    """All bytes come over, each way, and the end of standard input ends the sending alone."""
    given = random.Random(1).randbytes(SIZE)
    with serving(answer_digest) as port:
        there = Run(FOUR, port, given=given)
    with serving(lambda connection: connection.sendall(given)) as port:
        back = Run(FOUR, port)
    print(f"    {SIZE / there.seconds / 1e9:.2f} GB/s there, {SIZE / back.seconds / 1e9:.2f} GB/s back")
    there.must(output=digest_of(given))
    back.must(output=given)


def read_on(connection, got):
    """Ends its own way first, and puts the digest of all that comes then."""
    connection.shutdown(socket.SHUT_WR)
    got.put(read_all(connection))


def check_first_end():
    """A remote that ends its way first still gets what standard input has."""
    got, given = queue.SimpleQueue(), random.Random(2).randbytes(SIZE)
    with serving(lambda connection: read_on(connection, got)) as port:
        Run(FOUR, port, given=given).must()
    must(got.get(timeout=TIMEOUT) == (digest_of(given), SIZE), "not all came over")


def end_of(running):
    """The status, and what was printed."""
    return running.wait(TIMEOUT), running.stderr.read()


LEFT = b"he: the remote has closed, and standard input was not read to its end\n"


@timed
def check_remote_ends():
    """It ends soon once the remote has closed, while standard input stays open, at a pipe and at a terminal: nothing
    that was to be sent is missed."""
    for stdin in (subprocess.PIPE, os.openpty()[1]):
        with serving(greet) as port, started(FOUR, port, stdin=stdin) as running:
            began = time.monotonic()
            end, seconds, output = end_of(running), time.monotonic() - began, running.stdout.read()
        must((end, output) == ((0, b""), b"hello\n") and 0.4 < seconds < 2, end, "after", seconds, "s,", output)


@timed
def check_pause():
    """Input that comes after a pause, once the remote has ended its way, is waited for as long as --wait says."""
    got = queue.SimpleQueue()
    for words, pause, is_sent in [([], 0.2, True), ([], 1.0, False), (["--wait", 2000], 1.0, True),
                                  (["--wait", 50], 0.3, False)]:
        with serving(lambda connection: read_on(connection, got)) as port, started(*words, FOUR, port) as running:
            running.stdin.write(b"one\n")
            running.stdin.flush()
            time.sleep(pause)
            with contextlib.suppress(BrokenPipeError):
                running.stdin.write(b"three\n")
                running.stdin.close()
            end = end_of(running)
        sent, ends = b"one\n" + b"three\n" * is_sent, (*end, got.get(timeout=TIMEOUT))
        must(ends == (0, b"", (digest_of(sent), len(sent))), words, pause, "s:", ends)


@timed
def check_late_input():
    """Input after the end, while standard output still takes what the remote sent, is a fault; that nothing comes,
    or the end, is none."""
    given = random.Random(7).randbytes(220_000)  # (more than a pipe and one read of the connection)
    for late, wanted in [(b"late\n", (1, LEFT)), (b"", (0, b""))]:
        for is_closed in (False, True):
            with serving(lambda connection: connection.sendall(given)) as port:
                with started("--wait", 50, FOUR, port) as running:
                    time.sleep(0.5)
                    running.stdin.write(late)
                    running.stdin.flush()
                    if is_closed:
                        running.stdin.close()
                    output, end = running.stdout.read(), end_of(running)
            must((end, output) == (wanted, given), late, is_closed, "ends", end, len(output), "bytes")


@timed
def check_times():
    """A time with its unit, and without one; a bare --timeout below 100 is said to be milliseconds."""
    slip = "he: --timeout 50 is 50 milliseconds; --timeout 50s is 50 seconds\n"
    for word, seconds, told in [("50", 0.05, slip), ("50ms", 0.05, ""), ("500", 0.5, ""), ("1s", 1.0, "")]:
        with serving(greet) as port:
            began = time.monotonic()
            done = support.run(HE, "connect", "-z", "--timeout", word, "dead.test", port, timeout=TIMEOUT)
            took = time.monotonic() - began
        is_told = done.stderr.startswith(f"{told}he: no connection to dead.test port {port}: ")
        must(done.returncode == 3 and is_told and seconds <= took < seconds + 1, word, took, "s,", done)


@timed
def check_unsent():
    """If the remote has closed while more is there, that is reported, and how much was not sent."""
    reading, writing = os.pipe()
    fcntl.fcntl(writing, fcntl.F_SETPIPE_SZ, 1 << 20)
    with serving(lambda connection: None) as port, started(FOUR, port, stdin=reading) as running:
        os.close(reading)
        time.sleep(0.2)
        os.write(writing, bytes(500_000))
        os.close(writing)
        status, told = end_of(running)
    found = re.fullmatch(rb"he: the remote has closed, and (\d+) bytes more were not sent\n", told)
    must(status == 1 and found and 0 < int(found[1]) <= 131_072, status, told)


@timed
def check_closed_remote():
    """A remote that closed while more was to come, and resets it, did not get what the system took to send: also where
    standard input then ends."""
    for _ in range(20):
        with serving(lambda connection: None) as port, started(FOUR, port) as running:
            time.sleep(0.1)
            running.send_signal(signal.SIGSTOP)  # so that the bytes and the end come at once
            running.stdin.write(b"hello\n")
            running.stdin.close()
            running.send_signal(signal.SIGCONT)
            end = end_of(running)
        must(end == (1, b"he: the remote reset the connection: 6 bytes sent, 0 received\n"), end)


def check_output_waits():
    """An output that does not block is waited for, and all comes over."""
    given, got = random.Random(6).randbytes(3_000_000), b""
    reading, writing = os.pipe()
    os.set_blocking(writing, False)
    with serving(lambda connection: connection.sendall(given)) as port:
        with started(FOUR, port, stdin=subprocess.DEVNULL, stdout=writing) as running, open(reading, "rb") as output:
            os.close(writing)
            while piece := output.read(50_000):
                got += piece
                time.sleep(0.005)
            status, told = end_of(running)
    must((status, got) == (0, given), status, len(got), "bytes", told)


@timed
def check_reset():
    """A remote that resets is a fault that tells what went over the connection, and ends it at once."""

    def serve(connection):
        connection.sendall(b"hello\n")
        connection.recv(20, socket.MSG_WAITALL)
        set_to_reset(connection)

    with serving(serve) as port, started(FOUR, port) as running:
        running.stdout.read(6)
        running.stdin.write(b"x" * 20)
        running.stdin.flush()
        began = time.monotonic()
        end, seconds = end_of(running), time.monotonic() - began
    must(end == (1, b"he: the remote reset the connection: 20 bytes sent, 6 received\n") and seconds < 2, end, seconds)


def check_reader_stops():
    """Where standard output is closed, a write to it ends the relay, though standard input stays open: without a word,
    with status 1. An output that is full is reported."""

    def serve(connection):
        while True:
            connection.sendall(b"y\n" * 40000)

    with serving(serve) as port, started(FOUR, port) as running:
        running.stdout.read(10)
        running.stdout.close()
        end = end_of(running)
    must(end == (1, b""), end)
    with serving(serve) as port, open("/dev/full", "wb") as full, started(FOUR, port, stdout=full) as running:
        status, told = end_of(running)
    must(status == 1 and b"cannot write the output" in told, "/dev/full:", status, told)


def check_descriptors():
    """While it relays it has the three standard descriptors and one socket."""

    def serve(connection):
        connection.sendall(b"hello\n")
        connection.recv(1)

    with serving(serve) as port, started("dead6.test", port) as running:
        running.stdout.read(6)
        held = sorted(os.readlink(f"/proc/{running.pid}/fd/{fd}") for fd in os.listdir(f"/proc/{running.pid}/fd"))
        running.stdin.close()
        status = running.wait(TIMEOUT)
    must(status == 0 and len(held) == 4 and sum(name.startswith("socket") for name in held) == 1, status, held)


def check_curl():
    """An answer of python's web server is what curl gets of it."""
    needs("curl")
    with tempfile.TemporaryDirectory() as folder:
        pathlib.Path(folder, "page").write_bytes(random.Random(4).randbytes(1_000_000))
        with support.web_server(folder) as port:
            got = Run("four.test", port, given=b"GET /page HTTP/1.0\r\n\r\n").output
            wanted = support.run("curl", "-s", "--noproxy", "*", f"http://{FOUR}:{port}/page", text=False).stdout
    must(len(wanted) == 1_000_000 and got.endswith(b"\r\n\r\n" + wanted), len(got), "bytes")


def check_nc():
    """nc listens, and gets what standard input has."""
    needs("nc")
    port = unused_port()
    for words in (["-l", FOUR, port], ["-l", "-s", FOUR, "-p", port]):
        with contextlib.suppress(NotTried):
            with support.server_at(port, "nc", *words, stdout=subprocess.PIPE) as server:
                Run(FOUR, port, given=b"hello\n").must()
                server.terminate()
                return must(server.stdout.read() == b"hello\n", "not all came over")
    raise NotTried("nc does not listen")


def check_ssh():
    support.must_log_in(f"{HE} connect")
