"""Runs a built program by the command lines in scripts/lines/*.lines, and compares how each ends.

A line that begins with `$` has the words of a run, in which `\\x1b` is such a byte. The lines after it, up to an empty
one, may be:
  < FILE     its input, a file beside it: one-race.timeline where no line says otherwise
  env A=TEXT a variable of its environment, which has COLUMNS and the locale from these lines alone
  reset      the input breaks off after its bytes
  room N     the output takes N bytes and no more
  = N        the status: 0 where no line says otherwise
  1> TEXT    a line of standard output
  2> TEXT    a line of standard error
These lines are all that is written. Where the last of them ends with `…`, anything may follow in its place. Each run is
repeated with a full device as standard error: status and output stay as they are.
"""
import os
import pathlib
import re
import resource
import shlex
import signal
import socket
import subprocess

from support import DATA, OPTIONS, set_to_reset, tell

LINES = pathlib.Path(__file__).parent.parent / "lines"
SECONDS = 30
TERMINAL = "COLUMNS", "LC_ALL", "LC_CTYPE", "LANG"
ESCAPED = re.compile(r"\\x([0-9a-f]{2})")


def byte_of(escaped):
    return chr(int(escaped[1], 16))


class Row:
    """A command line, its streams, and how it must end."""

    def __init__(self, block):
        self.input, self.breaks_off, self.room, self.status = "one-race.timeline", False, None, 0
        self.environment = {name: text for name, text in os.environ.items() if name not in TERMINAL}
        self.written = {"1>": [], "2>": []}
        for line in block.split("\n"):
            mark, _, rest = line.partition(" ")
            if mark == "$":
                self.words = [ESCAPED.sub(byte_of, word) for word in shlex.split(rest)[1:]]
            elif mark == "<":
                self.input = rest
            elif mark == "env":
                self.environment.update([rest.split("=", 1)])
            elif mark == "reset":
                self.breaks_off = True
            elif mark == "room":
                self.room = int(rest)
            elif mark == "=":
                self.status = int(rest)
            else:
                self.written[mark].append(rest)

    def matches(self, mark, text):
        """Whether these bytes are what the lines of this mark have."""
        wanted = "\n".join(self.written[mark])
        if wanted.endswith("…"):
            return text.startswith(wanted[:-1].encode())
        return text == (wanted + "\n" if wanted else "").encode()


def rows(file):
    for block in file.read_text().split("\n\n"):
        if block.startswith("$"):
            yield Row(block.rstrip("\n"))


def input_of(row):
    """A stream of the row's input; where it breaks off, that of a connection that is reset after its bytes."""
    text = (LINES / row.input).read_bytes()
    if not row.breaks_off:
        file = OPTIONS.folder / "input"
        file.write_bytes(text)
        return file.open("rb")
    with socket.create_server(("127.0.0.1", 0)) as listener:
        reading = socket.create_connection(listener.getsockname())
        writing, _ = listener.accept()
    writing.sendall(text)
    while len(reading.recv(len(text) + 1, socket.MSG_PEEK)) < len(text):
        pass
    set_to_reset(writing)
    writing.close()
    return reading


def run_of(row, errors=subprocess.PIPE):
    """The status of a run of the row, and what it writes on standard output and, where that is a pipe, on error."""
    output = OPTIONS.folder / "output"
    bound = None if row.room is None else lambda: resource.setrlimit(resource.RLIMIT_FSIZE, (row.room, row.room))
    with input_of(row) as given, output.open("wb") as written:
        ran = subprocess.run([OPTIONS.program, *row.words], stdin=given, stdout=written, stderr=errors, cwd=DATA,
                             preexec_fn=bound, restore_signals=False, timeout=SECONDS, env=row.environment)
    return ran.returncode, output.read_bytes(), ran.stderr


def compare(row, name):
    status, output, said = run_of(row)
    is_full = row.room is None or len(output) == row.room
    tell(status == row.status, f"{name}: status {status}")
    tell(row.matches("1>", output) and is_full, f"{name}: it writes {output[:120]!r}")
    tell(row.matches("2>", said), f"{name}: it says {said[:120]!r}")
    with open("/dev/full", "wb") as full:
        again = run_of(row, full)
    is_timed = "…" in "".join(row.written["1>"])
    tell(again[0] == status and (is_timed or again[1] == output), f"{name}: otherwise with a full standard error")


def check_each():
    """Each command line."""
    signal.signal(signal.SIGXFSZ, signal.SIG_IGN)  # else a full file ends the program
    for file in sorted(LINES.glob("*.lines")):
        for row in rows(file):
            compare(row, f"{file.name}: he {shlex.join(row.words)}")
