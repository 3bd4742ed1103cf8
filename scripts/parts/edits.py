"""Looks whether each mutation, crates/NAME/must-fail/*.edit and crates/NAME/more-edits/*.edit, fits the code: its file
is there, and has each text that is replaced once, after the replacements before it. Whether the prover refuses it, the
gate and `make edits` say.
"""
from support import ROOT, tell


def check_fit():
    for edit in sorted((ROOT / "crates").glob("*/*/*.edit")):
        name, text, before = edit.relative_to(ROOT), "", None
        for line in edit.read_text().splitlines():
            key, _, value = line.partition(": ")
            if key == "file":
                file = edit.parent.parent / value
                text = file.read_text() if file.is_file() else ""
                tell(text, f"{name}: no file {value}")
            elif key == "old":
                before = value
                tell(text.count(before) == 1, f"{name}: not once in its file: {before}")
            elif key == "new":
                tell(before and before != value, f"{name}: it changes nothing")
                text = text.replace(before or value, value)
