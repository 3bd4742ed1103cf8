"""Compares docs/ARCHITECTURE.md with the tree: each file, folder and crate that it names is there, and each crate that
is there is named.

A word in backquotes that begins with src/, specs/ or proofs/ is a file of the crate that was named last before it on
the line, and one that begins with crates/, docs/, examples/, scripts/, tools/, include/, library/ or completions/ a
file of the tree.
"""
import re

from support import ROOT, tell


def check_names():
    crates = {folder.name for folder in (ROOT / "crates").iterdir() if (folder / "src").is_dir()}
    named = set()
    for number, line in enumerate((ROOT / "docs/ARCHITECTURE.md").read_text().splitlines(), 1):
        crate = None
        for word in re.findall(r"`([^`\s]+)`|\b(he_[a-z_]+|[a-z]+_[a-z_]+|cases|refusing)\b", line):
            word = word[0] or word[1]
            if word in crates or re.fullmatch(r"he_[a-z_]+", word):
                crate, place = word, f"crates/{word}"
                named.add(word)
            elif crate and re.match(r"(src|specs|proofs|data|must-fail|more-edits)/.", word):
                place = f"crates/{crate}/{word}"
            elif re.match(r"(crates|docs|examples|scripts|tools|include|library|completions)/.", word):
                place = word
            else:
                continue
            tell((ROOT / place).exists(), f"docs/ARCHITECTURE.md:{number}: {place} is not there")
    unnamed = sorted(crate for crate in crates - named if not crate.endswith("_tests"))
    tell(not unnamed, "docs/ARCHITECTURE.md does not name", *unnamed)


def check_proved():
    """The functions that docs/PROVED.md names of a crate are there."""
    rows = re.findall(r"(?m)^\| \[(\w+)\]\(\S+\) \| (.*) \|$", (ROOT / "docs/PROVED.md").read_text())
    tell(rows, "docs/PROVED.md has no crate")
    for crate, named in rows:
        source = "".join(file.read_text() for file in (ROOT / "crates" / crate / "src").rglob("*.rt"))
        functions = set(re.findall(r"\bfn\s+(\w+)", source))
        types = set(re.findall(r"\b(?:struct|enum|trait)\s+(\w+)", source)) | {"Allocator"}
        for word in re.findall(r"`([\w:]+)`", named):
            last = word.split("::")[-1]
            tell(last in functions | types or last.startswith("_"), f"docs/PROVED.md: {crate} has no {word}")
