"""Runs the command lines in README.md, docs/ and the manual page, and compares what they print with what is
written below them. A file that one page makes is there for the pages after it, of which README.md is the last.

A line that begins with `$ ` is run by a shell, with the built program as `he`; the lines after it, up to the next
one or the block's end, are what standard output and standard error must hold. A `$ cat FILE` whose file isn't there
yet makes the file. An image `docs/NAME.svg` must be what `he draw --svg NAME.timeline` draws then. Where `he live`
runs, a server listens at port 8080 of 127.0.0.1, and ticks may differ by 100, at a second try at the latest (a busy
machine is late); where that port is taken, these lines are not tried, nor those with `tools/from-capture` where tshark
isn't there. Of the other lines of the shell blocks those that begin with `he` or `sed`, or are about the capture
`mine.pcap`, must end with status 0, and those that begin with `make` must name a target; of those that look for a host
on the network, or never end, only the words are tried. Each option of a command `he ..`, wherever a page has one, must
be one of that command. (Blocks of `console`, rules of a firewall and filters of a capture are tried in a network, by
session.py, lines of `parallel` by documents_parallel.py, those of a client of the proxy by proxy_programs.py.)
"""
import contextlib
import os
import re
import shutil
import subprocess

import support
import words
from parts.manual import OPTION
from support import DATA, OPTIONS, ROOT, settled, tell

PORT = 8080
MOST_TICKS_APART = 100
PAGES = [*sorted((ROOT / "docs").glob("*.md")), ROOT / "docs/he.1", ROOT / "README.md"]
GIVEN = {"mine.pcap": "curl.pcap", "mine.host": "host-lines", "curl.timeline": "curl.timeline"}  # of examples/captures


def blocks_of_markdown(text, kind="text"):
    return re.findall(rf"^ *```{kind}\n(.*?)^ *```$", text, re.MULTILINE | re.DOTALL)


def blocks_of_page(text):
    """The blocks of a manual page between .EX and .EE, with its escapes undone."""
    blocks = re.findall(r"^\.EX\n(.*?)^\.EE$", text, re.MULTILINE | re.DOTALL)
    return [block.replace("\\-", "-").replace("\\(aq", "'").replace("\\(ha", "^") for block in blocks]


def shell_lines(text):
    """The lines of the shell blocks of a text, without their comments."""
    return [line.split("  #")[0].strip() for block in blocks_of_markdown(text, "sh") for line in block.splitlines()]


def commands_of(block):
    """Pairs of a command line and what is written below it."""
    commands = []
    for line in block.splitlines(keepends=True):
        if line.startswith("$ "):
            commands.append((line[2:].strip(), []))
        elif commands:
            commands[-1][1].append(line)
    return [(command, "".join(lines)) for command, lines in commands]


def is_alike(printed, written, has_raced):
    """Whether both are the same; after a race their ticks may be a little apart."""
    one, other = printed.split(), written.split()
    return printed == written or has_raced and len(one) == len(other) and all(map(are_near, one, other))


def are_near(x, y):
    return x == y or x.isdigit() and y.isdigit() and abs(int(x) - int(y)) <= MOST_TICKS_APART


def run(command, folder):
    """The output of the command in the folder, where `he` is the program, and its status."""
    done = support.run("sh", "-c", command, cwd=folder, capture_output=False, stdout=subprocess.PIPE,
                       stderr=subprocess.STDOUT)
    return done.stdout, done.returncode


def tried(line):
    """The line as it is run: one that looks for a host on the network, or never ends, asks for help after its words."""
    return f"{line.split(' <')[0]} --help" if line.startswith(("he names", "he connect", "he probe", "he proxy")) else line


def run_shell_lines(text, folder):
    """Runs the lines of the shell blocks, `make` without doing anything; of each what is wrong, or None."""
    for name, file in GIVEN.items():
        shutil.copy(ROOT / "examples/captures" / file, folder / name)
    for line in shell_lines(text):
        word = line.split(" ")[0]
        if word == "make":
            printed, status = run(f"make -n{line[4:]}", ROOT)
        elif word in ("he", "sed") or line.startswith("tools/from-capture mine") and shutil.which("tshark"):
            printed, status = run(tried(line), folder)
        else:
            continue
        yield f"{line}\nends with status {status}\n{printed}" if status else None


def code_of(page):
    """The code in a page: its blocks and what is in backquotes, or all of a manual page."""
    text = page.read_text()
    if page.suffix == ".1":
        return [text.replace("\\-", "-")]
    return re.findall(r"^ *```\w*\n(.*?)^ *```$|`([^`]+)`", text, re.MULTILINE | re.DOTALL)


def check_options():
    """Each option that a page writes after `he COMMAND` is one of that command."""
    options = {each.name: {name for option in each.options for name in option.names()}
               for each in words.described(OPTIONS.program) if each.name}
    command = re.compile(rf"\bhe ({'|'.join(options)})\b([^|&;<>#'\"\n]*)")
    for page in [*PAGES, ROOT / "CONTRIBUTING.md", ROOT / "CHANGELOG.md"]:
        for name, rest in command.findall("\n".join(map("".join, code_of(page)))):
            wrong = set(re.findall(OPTION, rest)) - options[name] - {"--help"}
            tell(not wrong, f"{page.relative_to(ROOT)}: he {name} has no {' '.join(wrong)}")


def try_block(block, folder, is_live):
    """As run_block: a block with `he live` again where it isn't right; not at all where something it needs lacks."""
    if "he live" in block and not is_live:
        print(f"port {PORT} is taken: a block with he live is not tried")
        return []
    if "tools/from-capture" in block and not shutil.which("tshark"):
        print("tshark isn't installed: a block with tools/from-capture is not tried")
        return []
    if "he live" not in block:
        return list(run_block(block, folder))

    def attempt():
        ends = list(run_block(block, folder))
        return not any(ends), ends

    _, ends, _ = settled(attempt, "a block with he live")
    return ends


def run_block(block, folder):
    """Runs the commands of one block in order; of each what is wrong, or None."""
    has_raced = False
    for command, written in commands_of(block):
        file = re.fullmatch(r"cat (\S+)", command)
        if file and not (folder / file[1]).exists():
            (folder / file[1]).write_text(written)
            continue
        has_raced = has_raced or "he live" in command
        printed, _ = run(command, folder)
        is_right = is_alike(printed, written, has_raced)
        yield None if is_right else f"$ {command}\nprints\n{printed}where stands\n{written}"


def check_pages():
    folder = OPTIONS.folder
    (folder / "bin").mkdir()
    (folder / "bin/he").symlink_to(OPTIONS.program)
    os.environ["PATH"] = f"{folder}/bin:{os.environ['PATH']}"
    for name in ("examples", "tools"):
        (folder / name).symlink_to(ROOT / name)
    # A record of `he proxy --record day/`.
    record = folder / "day/2026-01-02/12-00-00.000-example.org-443.timeline"
    record.parent.mkdir(parents=True)
    record.write_bytes((DATA / "ipv6-late-but-within-delay-leads.timeline").read_bytes())
    with contextlib.ExitStack() as held:
        is_live = False
        with contextlib.suppress(OSError):
            is_live = held.enter_context(support.listener_at("127.0.0.1", PORT)) is not None
        for page in PAGES:
            text = page.read_text()
            blocks = blocks_of_page(text) if page.suffix == ".1" else blocks_of_markdown(text)
            ends = [end for block in blocks for end in try_block(block, folder, is_live)]
            ends += run_shell_lines(text, folder)
            for end in ends:
                tell(end is None, f"{page.relative_to(ROOT)}: {end}")
    for image in sorted((ROOT / "docs").glob("*.svg")):
        drawn, status = run(f"he draw --svg {image.stem}.timeline", folder)
        tell(status == 0 and drawn == image.read_text(), f"{image.relative_to(ROOT)} is not what is drawn")
