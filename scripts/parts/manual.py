"""Holds the help of a built program, the manual page and the completions together: what is written from the help (the
completions, the synopsis of the page) must be in their files, the page must have each option at its command, no line
of help may pass 80 columns, and each shell must complete lines that are typed in a terminal.

needs: bash. Where groff is installed, the page is formatted too, and must give no warning; where fish and zsh are,
their completions are tried too.
"""
import functools
import os
import pty
import re
import select
import time

import words
from support import OPTIONS, ROOT, must, needs, run, tell
from words import PAGE

HE = OPTIONS.program
OPTION = r"(?<![\w-])(?:--[a-z0-9]+(?:-[a-z0-9]+)*|-[A-Za-z0-9])(?![\w-])"
MOST_COLUMNS = 80

# A command `he` that writes its words.
SHOWS = "he() { printf '<%s>' \"$@\"; echo; }"
SHOWS_FISH = "function he; printf '<%s>' $argv; echo; end"

# The typed words, and those that a tab must add. A space is last where the word is whole.
TYPED = (
    ("he expl", "ain "), ("he explain ", "day.timeline "), ("he explain --js", "on "),
    ("he draw --html ", "day.timeline "), ("he live --port 80 ", "day.timeline "), ("he replay --set att", "empt="),
    ("he names --resolver s", "ystem "), ("he help dr", "aw "), ("he connect -z buil", "d.example.org "),
)


def of_page():
    """From each command to its options: OPTIONS has those of all commands, and a command's section its own and the
    names of those in COMMON OPTIONS."""
    text = PAGE.read_text().replace("\\-", "-")
    sections = dict(re.findall(r"^\.SH ([A-Z ]+)\n(.*?)(?=^\.SH |\Z)", text, re.MULTILINE | re.DOTALL))
    every, common = options_of_tags(sections["OPTIONS"]), tags(sections["COMMON OPTIONS"])
    told = {"": every}
    parts = re.findall(r"^\.SS ([a-z]+)\n(.*?)(?=^\.SS |\Z)", sections["COMMANDS"], re.MULTILINE | re.DOTALL)
    for command, body in parts:
        shared = re.findall(r"^Also\n(.*)\nof COMMON OPTIONS\.$", body, re.MULTILINE)
        names = {name for line in shared for name in re.findall(OPTION, line)}
        told[command] = set() if command == "help" else options_of_tags(body) | (every - {"-V", "--version"})
        told[command] |= {name for tag in common if tag & names for name in tag}
    return told


def tags(body):
    """The options in each tag of a list."""
    return [set(re.findall(OPTION, tag)) for tag in re.findall(r"^\.TP\n(.*)$", body, re.MULTILINE)]


def options_of_tags(body):
    """The options in the tags of a list, each the line after `.TP`."""
    return set().union(*tags(body))


def check_options():
    """The manual page has the commands of the help in their order, and each with the same options."""
    helped = {each.name: {name for option in each.options for name in option.names()} for each in words.described(HE)}
    page = of_page()
    tell(list(page) == list(helped), "the manual page has other commands than the help, or in another order")
    for command in helped.keys() & page.keys():
        own, other = helped[command], page[command]
        tell(own == other, f"he {command}: the program alone has {own - other}, the manual page alone {other - own}")


def check_files():
    for path, text in words.written(words.described(HE)):
        tell(path.read_text() == text, f"{path.relative_to(ROOT)} is not what scripts/manual --write makes of the help")


def check_columns():
    for name in [command.name for command in words.described(HE) if command.name != "help"]:  # (the program's)
        lines = words.output(HE, *name.split(), "--help").splitlines()
        wide = [line for line in lines if len(line) > MOST_COLUMNS]
        tell(not wide, f"he {name} --help has lines of more than {MOST_COLUMNS} columns:", *wide)


def check_groff():
    needs("groff")
    told = run("groff", "-man", "-Tutf8", "-ww", "-z", PAGE).stderr
    must(not told, told)


def read_quiet(terminal, quiet, most):
    """The output of a terminal until it is quiet for this time."""
    text, end = b"", time.monotonic() + most
    while time.monotonic() < end and select.select([terminal], [], [], quiet)[0]:
        try:
            text += os.read(terminal, 65536)
        except OSError:
            break
    return text.decode(errors="replace")


def complete(start, setup, home, line, quiet):
    """A line as a shell in a terminal completes it, once a tab was typed after it and another word: the shell is
    asked to write the line as it is. It is waited for until it is quiet for these seconds."""
    environment = {"HOME": home, "PATH": os.environ["PATH"], "TERM": "dumb", "HISTFILE": "/dev/null", "LANG": "C.UTF-8"}
    pid, terminal = pty.fork()
    if pid == 0:
        os.chdir(home + "/texts")
        os.execvpe(start[0], start, environment)
    try:
        os.write(terminal, (setup + "\n").encode())
        read_quiet(terminal, quiet, 20)
        os.write(terminal, (line + "\t").encode())
        read_quiet(terminal, quiet, 10)
        os.write(terminal, b"X\n")
        return read_quiet(terminal, quiet, 10)
    finally:
        os.close(terminal)
        os.kill(pid, 9)
        os.waitpid(pid, 0)


def type_in(start, setup):
    """Types the lines in a shell, which these words start and this line sets up."""
    needs(start.split()[0])
    home = OPTIONS.folder
    for folder in ("texts", ".ssh"):
        (home / folder).mkdir(exist_ok=True)
    (home / "texts/day.timeline").touch()
    (home / ".ssh/known_hosts").write_text("build.example.org ssh-ed25519 AAAA\n")
    for line, added in TYPED:
        arguments = "".join(f"<{word}>" for word in (line + added + "X").split(" ")[1:])
        for quiet in (1, 5):  # (the machine may be busy)
            shown = complete(start.split(), setup, str(home), line, quiet)
            if arguments in shown:
                break
        tell(arguments in shown, f"{start}: {line!r} and a tab gave {shown[-200:]!r}, not {line + added!r}")


check_bash, check_zsh, check_fish = (functools.partial(type_in, *each) for each in (
    ("bash --norc --noprofile -i", f". {ROOT}/completions/he.bash; {SHOWS}"),
    ("zsh -f -i", f"fpath=({ROOT}/completions $fpath); autoload -Uz compinit; compinit -D; {SHOWS}"),
    ("fish --no-config -i", f"source {ROOT}/completions/he.fish; {SHOWS_FISH}"),
))
