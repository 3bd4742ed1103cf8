#!/usr/bin/env python3
"""The output that a run of `he` must have for a text, by the second readings beside this file.

needs: python3 and its standard library
usage: scripts/plain_wanted.py COMMAND [--json] [--ascii] [--openmetrics] [--races] [--slowest N] [NAME=N ..] < TEXT
           with these settings in place of each race's own, as with --set; of `compare` one name may have a list
       scripts/plain_wanted.py summary --by GROUP [--json] [NAME=N ..] -- FILE ..
"""
import pathlib
import sys

import plain
import plain_compared
import plain_drawn
import plain_json
import plain_story
import plain_summary

# The output of a command, with this option if there is one.
WRITTEN = {
    "order": plain.ordered, "replay": plain.replayed, "order --json": plain_json.ordered,
    "replay --json": plain_json.replayed, "explain": plain_story.written, "compare": plain_compared.written,
    "draw": plain_drawn.written, "draw --ascii": plain_drawn.written_ascii, "summary": plain_summary.written,
    "summary --json": plain_summary.written_json, "summary --openmetrics": plain_summary.written_metrics,
    "explain --json": plain_json.explained, **plain_summary.WRITTEN_BY,
}
# The words that tell what is written, of a command that has settings too.
WORDS = ("--json", "--ascii", "--openmetrics", "--by", *plain_summary.GROUPINGS)


class Wanted:
    """The answer that a run must give for a text: its output, its standard error and its status."""

    def __init__(self, text):
        self.text = text.decode("latin-1")
        self.races, self.fault = plain.read_text(self.text)
        self.outputs = {}

    def of(self, words):
        if words == ["check", "--all"]:
            return self.of_check()
        command = " ".join([words[0], *(word for word in words if word in WORDS)])
        changes = [word for word in words if "=" in word]
        key = (command, *changes)
        if key not in self.outputs:
            self.outputs[key] = WRITTEN[command](self.races, plain.changes_of(changes))
        return self.outputs[key], plain.fault_line(*self.fault[:2]) if self.fault else b"", 1 if self.fault else 0

    def of_check(self):
        faults = plain.read_on(self.text)
        counts = plain.counted(len(self.races), "race"), plain.counted(self.text.count("\n"), "line")
        output = b"" if faults else f"{', '.join(counts)}\n".encode()
        return output, b"".join(plain.fault_line(*fault) for fault in faults), 1 if faults else 0


def main(words):
    if not words or words[0] not in {command.split()[0] for command in WRITTEN}:
        sys.exit(__doc__.strip())
    *words, files = (*words[:words.index("--")], words[words.index("--") + 1:]) if "--" in words else (*words, [])
    texts = [(name, Wanted(pathlib.Path(name).read_bytes()).races) for name in files]
    wanted = Wanted(b"" if files else sys.stdin.buffer.read())
    settings = [word for word in words if "=" in word]
    if files:
        by = words[words.index("--by") + 1]
        output = plain_summary.written_by(by, texts, plain.changes_of(settings), "--json" in words)
    elif words[0] == "compare":
        rows = plain_compared.rows_of(settings)
        output = plain_compared.written_for(wanted.races, rows, "--json" in words, "--races" in words)
    elif "--slowest" in words:
        make = plain_summary.written_json if "--json" in words else plain_summary.written
        output = make(wanted.races, plain.changes_of(settings), int(words[words.index("--slowest") + 1]))
    else:
        output = wanted.of(words)[0]
    sys.stdout.buffer.write(output)
    sys.stdout.buffer.flush()
    sys.exit(plain.fault_line(*wanted.fault[:2]).decode().rstrip() if wanted.fault else 0)


if __name__ == "__main__":
    main(sys.argv[1:])
