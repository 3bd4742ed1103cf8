"""The commands in a built program's help, and the files that are written from it: the completions of three shells, and
the synopsis of the manual page. scripts/manual writes the files, scripts/parts/manual.py compares them."""
import re
import subprocess
from collections import namedtuple
from dataclasses import dataclass

from support import ROOT

PAGE = ROOT / "docs/he.1"
SYNOPSIS = re.compile(r"(?<=^\.SH SYNOPSIS\n).*?(?=^\.SH )", re.MULTILINE | re.DOTALL)
SETTINGS = ("attempt", "resolution", "count", "limit", "floor")
NAMES_OF_SETTINGS = " ".join(f"{name}=" for name in SETTINGS)
GROUPS = "file hour family host"
# How a value is completed: bash's option of compopt and its words for compgen, what fish has, zsh's action.
Values = namedtuple("Values", "compopt compgen fish zsh")
VALUES = {
    "FILE": Values("filenames", "-f", " -r -F", ":file:_files"),
    "PORT": Values("", "-A service", " -x", ":port:_ports"),
    "RESOLVER": Values("", "-W system", " -x -a system", ":resolver:(system)"),
    "GROUP": Values("", f"-W '{GROUPS}'", f" -x -a '{GROUPS}'", f":group:({GROUPS})"),
    "NAME=N": Values("nospace", f"-W '{NAMES_OF_SETTINGS}'", f" -x -a '{NAMES_OF_SETTINGS}'", ":setting:_he_settings"),
}


@dataclass
class Option:
    short: str
    long: str
    value: str
    help: str
    is_required: bool
    is_repeated: bool
    is_many: bool  # whether it takes several values

    def kind(self):
        """The kind of its value: a list of numbers is completed as one."""
        return "NAME=N" if self.value.startswith("NAME=N") else self.value

    def names(self):
        return [name for name in (self.long, self.short) if name]


@dataclass
class Command:
    name: str
    about: str
    options: list
    words: list  # the names of its words, as FILE
    is_optional: bool  # whether they may be left out
    is_many: bool  # whether the last word may be repeated


def output(*words):
    return subprocess.run(words, capture_output=True, text=True, check=True).stdout


def part(text, heading):
    """The lines of a help text below a heading, up to the next empty line."""
    found = re.search(rf"^{heading}:\n((?:.+\n)+)", text, re.MULTILINE)
    return found[1] if found else ""


def options_of(text):
    """The options of a help text. A line that begins with no option goes on with the one above."""
    usage = re.search(r"^Usage: .*$", text, re.MULTILINE)[0]
    options = []
    for line in part(text, "Options").splitlines():
        head = re.match(r"  (?:(-\w)|  )(?:(?:, |  )(--[a-z0-9-]+))?(?: <([^>]+)>(\.\.\.)?)?  +(.*)$", line)
        if head and (head[1] or head[2]):
            names = {name for name in head.groups()[:2] if name}
            is_required = any(re.search(rf"(?<!\[){re.escape(name)} <", usage) for name in names)
            options.append(Option(*(word or "" for word in head.group(1, 2, 3, 5)), is_required,
                                  bool(head[4]) or "repeatable" in head[5], bool(head[4])))
        elif options:
            options[-1].help += " " + line.strip()
            options[-1].is_repeated |= "repeatable" in options[-1].help
    return options


def described(program):
    """The commands of the program in the order of its help, with '' for the program itself as the first."""
    top = output(program, "--help")
    commands = [Command("", "", options_of(top), ["COMMAND"], False, False)]
    for name, about in re.findall(r"^  ([a-z]+) +(.+)$", part(top, "Commands"), re.MULTILINE):
        if name == "help":
            commands.append(Command(name, about, [], ["COMMAND"], True, False))
            continue
        text = output(program, name, "--help")
        usage = re.search(r"^Usage: .*$", text, re.MULTILINE)[0]
        words = [word for word in re.findall(r"[<\[]([A-Z]+)[>\]]", usage) if word != "OPTIONS"]
        words = [word for word in words if not re.search(rf"--[a-z]+ <{word}>", usage)]
        is_optional = any(f"[{word}]" in usage for word in words)
        commands.append(Command(name, about, options_of(text), words, is_optional, usage.endswith("...")))
    return commands


def first_sentence(text):
    return re.split(r"[;.](?= |$)|, as ", text)[0]


BASH = """\
# Completion of the command line of he in bash. Written by scripts/manual --write from the help of the program.
# Installed as PREFIX/share/bash-completion/completions/he, or read by hand: . completions/he.bash
_he_hosts() {
    compgen -A hostname -- "$1"
    [ -r ~/.ssh/known_hosts ] && compgen -W "$(sed 's/^[|@].*//; s/[ ,].*//; s/^\\[\\(.*\\)\\].*/\\1/' ~/.ssh/known_hosts)" -- "$1"
}

_he() {
    local word=${COMP_WORDS[COMP_CWORD]} before=${COMP_WORDS[COMP_CWORD - 1]} command=${COMP_WORDS[1]} options= words=
    COMPREPLY=()
    # bash parts words at `=`
    [ "$word" = = ] && word=
    [ "$before" = = ] && before=${COMP_WORDS[COMP_CWORD - 2]}
    if [ "$COMP_CWORD" -eq 1 ]; then
        mapfile -t COMPREPLY < <(compgen -W '%(commands)s%(top)s' -- "$word")
        return
    fi
    case "$command $before" in
%(values)s
    esac
    case $command in
%(cases)s
    esac
    case $word in
        -*) mapfile -t COMPREPLY < <(compgen -W "$options" -- "$word") ;;
        *)
            case $words in
                FILE) compopt -o filenames; mapfile -t COMPREPLY < <(compgen -f -- "$word") ;;
                HOST) mapfile -t COMPREPLY < <(_he_hosts "$word" | sort -u) ;;
                COMMAND) mapfile -t COMPREPLY < <(compgen -W '%(commands)s' -- "$word") ;;
            esac ;;
    esac
}
complete -F _he he
"""


def bash_values(commands):
    """The lines of a case on `COMMAND OPTION`, for the options that have values."""
    by_value = {}
    for command in commands:
        for option in filter(lambda option: option.value, command.options):
            by_value.setdefault(option.kind(), []).extend(f'"{command.name} {name}"' for name in option.names())
    for value, names in by_value.items():
        compopt, compgen, *_ = VALUES.get(value, ("", ""))
        words = [f"compopt -o {compopt}"] * bool(compopt)
        words += [f'mapfile -t COMPREPLY < <(compgen {compgen} -- "$word")'] * bool(compgen)
        yield f"        {' | '.join(names)})\n            {'; '.join([*words, 'return'])} ;;"


def bash(commands):
    top, *options = (" ".join(name for option in command.options for name in option.names()) for command in commands)
    cases = [f"        {command.name}) options='{names}' words={''.join(command.words[:1])} ;;"
             for command, names in zip(commands[1:], options)]
    return BASH % {"commands": " ".join(command.name for command in commands[1:]), "top": f" {top}",
                   "values": "\n".join(bash_values(commands)), "cases": "\n".join(cases)}


def quoted(text):
    return "'" + text.replace("'", "'\\''") + "'"


FISH = """\
# Completion of the command line of he in fish. Written by scripts/manual --write from the help of the program.
# Installed as PREFIX/share/fish/vendor_completions.d/he.fish.
complete -c he -f
"""


def fish(commands):
    lines = [f"__fish_use_subcommand -a {c.name} -d {quoted(c.about)}" for c in commands[1:]]
    lines.append(f"'__fish_seen_subcommand_from help' -a '{' '.join(command.name for command in commands[1:])}'")
    for command in commands:
        where = f"'__fish_seen_subcommand_from {command.name}'" if command.name else "__fish_use_subcommand"
        word = {"FILE": " -F", "HOST": " -a '(__fish_print_hostnames)'"}.get("".join(command.words[:1]))
        lines += [where + word] if word else []
        lines += [where + fish_option(option) for option in command.options]
    return FISH + "".join(f"complete -c he -n {line}\n" for line in lines)


def fish_option(option):
    short = f" -s {option.short[1:]}" if option.short else ""
    long = f" -l {option.long[2:]}" if option.long else ""
    value = (VALUES[option.kind()].fish if option.kind() in VALUES else " -x") if option.value else ""
    return f"{short}{long}{value} -d {quoted(first_sentence(option.help))}"


ZSH = """\
#compdef he
# Completion of the command line of he in zsh. Written by scripts/manual --write from the help of the program.
# Installed as PREFIX/share/zsh/site-functions/_he.
_he_settings() {
    local -a settings=(%(settings)s)
    compadd -S = -- $settings
}

_he() {
    local -a commands=(
%(commands)s
    )
    if (( CURRENT == 2 )); then
        _describe command commands
        _arguments %(top)s
        return
    fi
    shift words
    (( CURRENT-- ))
    case $words[1] in
%(cases)s
    esac
}
_he "$@"
"""


def zsh(commands):
    cases = [f"        {each.name})\n            _arguments -s {zsh_options(each)}{zsh_words(each)}\n            ;;"
             if each.name != "help" else "        help) _describe command commands ;;" for each in commands[1:]]
    names = [f"        {quoted(command.name + ':' + command.about)}" for command in commands[1:]]
    return ZSH % {"settings": " ".join(SETTINGS), "commands": "\n".join(names), "top": zsh_options(commands[0]),
                  "cases": "\n".join(cases)}


def zsh_options(command):
    texts = []
    for option in command.options:
        action = VALUES[option.kind()].zsh if option.kind() in VALUES else f":{option.value}:" if option.value else ""
        text = re.sub(r"([][:])", r"\\\1", first_sentence(option.help))
        rest = f"[{text}]{action}"
        long, *short = option.names()
        if short:
            texts.append(f"'({short[0]} {long})'{{{short[0]},{long}}}{quoted(rest)}")
        else:
            sign = "=" if option.value and option.long else ""
            texts.append(quoted("*" * option.is_repeated + long + sign + rest))
    return " \\\n                ".join(texts)


def zsh_words(command):
    actions = {"FILE": "file:_files", "HOST": "host:_hosts", "PORT": "port:_ports"}
    mark = "*:" if command.is_many else "::" if command.is_optional else ":"
    texts = [mark + actions.get(word, f"{word}:") for word in command.words]
    return "".join(f" \\\n                {quoted(text)}" for text in texts)


def synopsis(commands):
    """The lines of the synopsis of the manual page."""
    lines = []
    for command in commands[1:]:
        lines.append(f".B he {command.name}")
        shown = [option for option in command.options if "--help" not in option.names()]
        lines += [line for option in shown for line in synopsis_option(option)]
        for at, word in enumerate(command.words):
            is_many = command.is_many and at + 1 == len(command.words)
            lines.append(f'.RI [ {word} " ...]"' if is_many else f".RI [ {word} ]" if command.is_optional else f".I {word}")
        lines.append(".br")
    return "\n".join([*lines, ".B he", ".RB [ \\-h | \\-V ]"]) + "\n"


def synopsis_option(option):
    name = (option.long or option.short).replace("-", "\\-")
    if not option.value:
        return [f".RB [ {(option.short or option.long).replace('-', chr(92) + '-')} ]"]
    if option.is_required:
        return [f".B {name}", f".I {option.value}"]
    end = '" ...]"' if option.is_many else "]"
    return [f".RB [ {name}", f".IR {option.value} {end}"]


def written(commands):
    """Each file that is written from the help, with its text."""
    yield ROOT / "completions/he.bash", bash(commands)
    yield ROOT / "completions/he.fish", fish(commands)
    yield ROOT / "completions/_he", zsh(commands)
    yield PAGE, SYNOPSIS.sub(lambda _: synopsis(commands), PAGE.read_text())
