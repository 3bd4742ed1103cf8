"""Writes a page of races by `he draw --html`, and reads it as a browser would: every tag is ended where it must be, no
name occurs twice, each link leads to one, nothing is taken from elsewhere and no script runs. What it shows is
compared with the second reading (plain.py and others): of each race its section, with its end, its heading, its rows,
the ticks of their bars and its story; and of all races the totals and the end of the scale. Tried on the texts of
crates/cases/data that have stories, on all that have transcripts as one page, and on settings in place of the races'
own.
"""
import html.parser
import pathlib
import re
from collections import namedtuple

import plain
import plain_drawn
import plain_story
from plain_summary import percentile
from support import DATA, OPTIONS, run, tell

HE = OPTIONS.program
VOID = {"meta", "input"}
NO_TEXT = {"style", "script", "title"}
# The numbers above all races, by the words after them.
PERCENTS = (50, 90, 99)
COUNTED = ("races", "median ms", "p90 ms", "p99 ms", "connected by IPv6", "connected by IPv4", "not connected")

# The contents of a section: its anchor, the end by which it is sorted, its heading, its rows and its story. A row: its
# label, its words and its bars, each with its kind, the tick where it begins and its length; a dot has no length.
Section = namedtuple("Section", "anchor end heading rows story")


class Page(html.parser.HTMLParser):
    """The contents of a page, and what is wrong with it."""

    def __init__(self, text):
        super().__init__(convert_charrefs=True)
        self.open, self.faults, self.names, self.links = [], [], [], []
        self.sections, self.totals, self.files, self.scale = [], [], [], ""
        self.feed(text)
        self.close()
        if self.open != ["html", "body"]:
            self.faults.append(f"left open: {self.open}")
        self.faults += [f"twice: {name}" for name in set(self.names) if self.names.count(name) > 1]
        self.faults += [f"leads nowhere: {link}" for link in self.links if link not in self.names]
        end = re.search(r"<style>:root\{--end:([0-9]+)\}</style>", text)
        self.end = int(end[1]) if end else None

    def handle_starttag(self, tag, attributes):
        given = dict(attributes)
        self.faults += [f"taken from elsewhere: {name}" for name, value in attributes
                        if name in ("src", "onclick") or "//" in (value or "")]
        if tag in ("script", "link", "img"):
            self.faults.append(f"not wanted: {tag}")
        if "id" in given:
            self.names.append(given["id"])
        if tag == "a":
            self.links.append(given["href"].removeprefix("#"))
        if tag == "section":
            end = int(re.fullmatch(r"--t:([0-9]+)", given["style"])[1])
            self.sections.append(Section(given["id"], end, [""], [], [""]))
        if tag == "div" and "section" in self.open:
            self.sections[-1].rows.append(["", "", []])
        if tag == "i" and "section" in self.open:
            ticks = re.fullmatch(r"--s:([0-9]+)(?:;--l:([0-9]+))?", given["style"])
            self.sections[-1].rows[-1][2].append((given["class"], *(int(it) for it in ticks.groups() if it)))
        if tag not in VOID:
            self.open.append(tag)

    def handle_endtag(self, tag):
        if not self.open or self.open.pop() != tag:
            self.faults.append(f"ends what is not open: {tag}")

    def handle_data(self, data):
        within = self.open[-1] if self.open else None
        if "header" in self.open and within in ("b", "span"):
            self.totals.append(data.strip())
        elif "header" in self.open and within == "p":
            self.scale += data
        elif within == "h2":
            self.files.append(data)
        elif "section" in self.open and within not in NO_TEXT:
            shown = self.sections[-1]
            if within == "pre":
                shown.story[0] += data
            elif "div" in self.open:
                shown.rows[-1][0 if within == "span" else 1] += data
            elif "h3" in self.open:
                shown.heading[0] += data


# The class of a bar by the last word of its row: no answer has the colour of a failure.
CLASSES = {"connected": "won", "failed": "failed", "answer": "silent", "stopped": "stopped", "unknown": "stopped"}


def bars(row, end):
    """The bars of a row of a picture, with their ticks up to the end of the race."""
    length = min(row.stop, end) - row.start
    if row.between == "attempt":
        return [(CLASSES[row.words.split()[-1]], row.start, length)]
    if row.between in ("wait", "pause"):
        return [(row.between, row.start, length)] + ([("dot", row.start)] if row.between == "wait" else [])
    return [] if row.first == " " else [("dot", row.start)]


def section(file, name, number, race):
    end = race.report.result.tick
    heading = f"{end} ms {plain_story.heading(number, race, name)}{plain_story.result(race, race.report)}"
    anchor = f"race-{number}" + (f"-of-{file + 1}" if file else "")
    rows = [[row.label, row.words, bars(row, end)] for row in plain_drawn.rows(race)]
    # (a line end after the tag is none of the text)
    return Section(anchor, end, [heading], rows, [plain_story.story(number, race).removeprefix("\n")])


def totals(races):
    won = [race.report for race in races if race.report.winner]
    times = [report.result.tick for report in won]
    families = [report.winner.address.family for report in won]
    numbers = [len(races), *(percentile(times, percent) if times else None for percent in PERCENTS),
               families.count(6), families.count(4), len(races) - len(won)]
    return [it for number, words in zip(numbers, COUNTED, strict=True) if number is not None
            for it in (str(number), words)]


def scale(ends):
    """The end of the scale that all races share, by which 99 of 100 have ended, and its words."""
    end, longest = (percentile(ends, percent) if ends else 0 for percent in (99, 100))
    cut = (f", by which 99 of 100 have ended; longer bars are cut and end in dots; the longest race took {longest} ms"
           if longest != end else "")
    return end, f"one scale for all races: 0 to {end} ms{cut}"


def read(text, changes):
    races, _ = plain.read_text(pathlib.Path(text).read_bytes().decode("latin-1"))
    return [race.changed(changes) for race in races]


def faults_of(words, texts):
    """The faults of the page of these texts."""
    page = OPTIONS.folder / "page.html"
    end = run(HE, "draw", "--html", page, *words, *texts, timeout=600)
    if end.returncode or end.stdout:
        return [f"status {end.returncode}: {end.stdout}{end.stderr}"]
    shown = Page(page.read_text(encoding="utf-8"))
    files = [read(text, plain.changes_of(words[1:])) for text in texts]
    races = [race for file in files for race in file]
    wanted = [section(place, texts[place], number, race) for place, file in enumerate(files)
              for number, race in enumerate(file, 1)]
    shown.sections = [one._replace(story=[one.story[0].removeprefix("\n")]) for one in shown.sections]
    faults = shown.faults
    if shown.sections != wanted:
        at = [place for place, (one, other) in enumerate(zip(shown.sections, wanted)) if one != other]
        told = f"{shown.sections[at[0]]}, not {wanted[at[0]]}" if at else "none differs"
        faults.append(f"{len(shown.sections)} sections of {len(wanted)} races: {told}")
    end, words = scale([race.report.result.tick for race in races])
    for what, own, right in (("totals", shown.totals, totals(races)), ("the end of the scale", shown.end, end),
                             ("the scale", shown.scale, words),
                             ("files", shown.files, list(texts) if len(texts) > 1 else [])):
        faults += [] if own == right else [f"{what}: {own}, not {right}"]
    return faults


def check_pages():
    texts, every = (sorted(str(it.with_suffix(".timeline")) for it in DATA.glob(f"*.{ending}")
                           if not it.with_suffix(".fault").exists() or ending == "story")
                    for ending in ("story", "transcript"))
    for given, those in [*(((), [text]) for text in texts), ((), every), (("--set", "attempt=100"), texts)]:
        faults = faults_of(given, those)
        tell(not faults, *given, f"{those[0]}{' ..' if len(those) > 1 else ''}:", *faults)


def check_names():
    """Whatever a file is called, its name on a page is the text of its heading, and no tag or attribute has any of
    it."""
    folder = OPTIONS.folder / "names"
    folder.mkdir()
    names = ["<b>&amp;", "' onclick='x' id='y", '" id="z', "</h2><script>"]
    texts = [folder / name.replace("/", "") for name in names]
    for text in texts:
        text.write_text("race 1\nend\n")
    page = folder / "page.html"
    done = run(HE, "draw", "--html", page, *texts)
    shown = Page(page.read_text())
    tell(done.returncode == 0 and not shown.faults and shown.files == [str(text) for text in texts],
         done.stderr, shown.faults, shown.files)
    tags = re.findall(r"<h2[^>]*>", page.read_text())
    tell(tags == ["<h2>"] * len(texts), tags)
