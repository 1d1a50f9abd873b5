"""The page of a run for a case file: HTML with inline SVG in one file, without scripts, made of the events of the run alone."""

from collections.abc import Sequence

from . import drawing
from .disks import UPPER, Disks, scale
from .drawing import HEIGHT, Bar, Lane
from .parts import box, bullets, code, legend, listed, runs, section, soft, table, text
from .record import Event, Record
from .style import STYLE

# How high unsound rows are drawn at least, of HEIGHT, so that they are seen.
MIN_UNSOUND = 20
ABOUT = """This page reports what one run of reraid-try read, tried and found. reraid-try only reads the images. It does not choose between
candidates: each listed layout passed the tests that are named beside it."""
RATINGS = """++: long files are intact or all data checksums match, and no file system checker reports errors. +: only a checker reports no errors, or
the rating was lowered. A candidate rated + may be wrong: open files before you rely on it."""
PROVED = """It is proved that the program reraid lists exactly the layouts that pass, and that it writes exactly the volume of a layout. The search
and this page come from a script that is tested, and not proved."""
NOT_KNOWN = """There is no record of the toolchain that proved and built this program reraid. The search and this page come from a script that is
tested, and not proved."""
NO_GOOD = "<b>No candidate was rated.</b> The layouts that passed, if any, are listed below."
TERMS = (("layout", "RAID level, parity pattern, chunk size, data offset and disk order, as one string"),
         ("candidate", "a layout that passed the tests, with all layouts that give the same volume"),
         ("inconsistent row", "a row of sectors, one of each disk, in which the parity is wrong"),
         ("landmark", "a sector that states its place in the volume, such as a superblock"),
         ("relaxed", "the tests that were made weaker before the layout passed"),
         ("intact file", "a file that its own format shows to be complete"))
HEAD = """<!DOCTYPE html>
<html lang="en">
<head>
<meta charset="utf-8">
<meta name="viewport" content="width=device-width, initial-scale=1">
<title>{title}</title>
<style>{style}</style>
</head>
<body>
"""
WHOLE = "M0 0h22v14h-22z"
# The most names of files that stand in a list.
MAX_FILES = 500
# The lines above what is to be typed, and above what ends that.
TYPED, ENDS = "to mount it read-only, as root:", "to undo that:"
# The events that say what was taken from the images, and those that say what was not tried or not to its end.
SAID = ("resume", "taken over", "fill", "place", "relation", "metadata", "copies", "unlike", "reason", "group", "hint", "pairs")
LEFT = ("not tried", "late", "failed", "many", "put off", "doubtful", "begins")
STEPS = (("step", True), ("what", False), ("why", False), ("relaxed", False), ("layouts", True), ("outcome", False))
CANDIDATES = (("candidate", True), ("rating", False), ("layout", False), ("relaxed", False), ("rows and landmarks", False), ("its volume", False))


def rating(candidate: Event) -> str:
    """Return the rating of a candidate; nothing where it has none."""
    told = "+" * max(0, int(candidate.get("score", 0)) - 1)
    return f'<span class="rating">{told}</span>' if told else ""


def beside(told: str) -> tuple[list[str], list[str]]:
    """Return the lines of a candidate before what is to be typed, and those after that."""
    lines = told.split("\n")
    place = next((k for k, line in enumerate(lines) if line.strip() == TYPED), len(lines))
    behind = [line.strip() for line in lines[place + 1:] if not line.startswith("    ")]
    return [line.strip() for line in lines[:place]], [line for line in behind if line != ENDS]


class Page:
    """The page of what is recorded."""

    def __init__(self, record: Record) -> None:
        self.record, self.run, self.found = record, record.last("run"), list(record.of("candidate"))

    def whole(self) -> str:
        """Return all of it."""
        parts = [self.head(), self.best(), self.terms(), self.lost_files(), Disks(self.record).made(), self.said(), self.steps(), self.not_tried(),
                 self.candidates(), self.nearest(), self.made_with()]
        title = f"reraid-try, {self.run['began']}" if self.run else "reraid-try"
        return HEAD.format(title=text(title), style=STYLE) + "\n".join(filter(None, parts)) + "\n</body>\n</html>\n"

    def head(self) -> str:
        """Return what it is, with which words and when."""
        run, done = self.run, self.record.last("finished")
        ended = f"{done['ended']}, after {done['seconds']} s" if done else "still running when this page was made"
        ended += "; it was interrupted" if self.record.last("interrupted") else ""
        names = listed([("case", text(run.get("case", ""))), ("examiner", text(run.get("examiner", ""))),
                        ("command line", code(" ".join(run.get("words", [])))), ("in the folder", code(run.get("folder", ""))),
                        ("begun", text(run.get("began", ""))), ("ended", text(ended))])
        return f"<h1>Images of an array: what was found</h1>\n{soft(text(ABOUT))}\n{names}"

    def best(self) -> str:
        """Return the best in words, with what to type."""
        made = []
        for it in self.record.of("words"):
            if "set" not in it:
                continue
            candidate: Event = next((one for one in self.found if one["class"] == it["class"]), {})
            (head, *said), rest = beside(it["text"])
            part = f"<p><b>{rating(candidate)} {text(head)}</b></p>" + "".join(f"<p>{text(line)}</p>" for line in said)
            lines = "\n".join(it.get("commands", []))
            part += soft("To mount it read-only, as root:") + f"<pre>{text(lines)}</pre>" if lines else ""
            ends = "\n".join(it.get("ends", []))
            part += soft("To undo that:") + f"<pre>{text(ends)}</pre>" if ends else ""
            part += "".join(soft(text(line)) for line in rest)
            made.append(f'<div class="verdict">{part}</div>')
        if not made:
            return f'<div class="verdict none">{self.answer() or f"<p>{NO_GOOD}</p>"}</div>'
        return section("The best candidates", soft(text(RATINGS)), *made)

    def terms(self) -> str:
        """Return the box with the terms of this page."""
        return section("Terms", listed([(term, text(meaning)) for term, meaning in TERMS]))

    def lost_files(self) -> str:
        """Return which files of the best volume touch what is lost."""
        told = [(it["text"], it["files"]) for it in self.record.of("lost files")]
        more = [[f"and {len(files) - MAX_FILES:,} more"] * (len(files) > MAX_FILES) for _, files in told]
        made = (f"<p>{text(said)}</p>" + bullets([*files[:MAX_FILES], *rest]) for (said, files), rest in zip(told, more))
        return section("Files that touch lost sectors", *made) if told else ""

    def answer(self) -> str:
        """Return what the images are if they are no array, with what to type; nothing if they may be one."""
        found = self.record.last("answer")
        lines = text("\n".join(found.get("commands", [])))
        typed = soft("To mount it read-only, as root:") + f"<pre>{lines}</pre>" if lines else ""
        return f"<p><b>{text(found['said'])}.</b></p>{typed}" if found else ""

    def said(self) -> str:
        """Return what was taken from the images before anything was tried."""
        hints = bullets(dict.fromkeys(it["text"].strip() for it in self.record.of(*SAID)))
        return section("Evidence from the images", hints) if hints else ""

    def steps(self) -> str:
        """Return what was tried: the reasons, what was relaxed, and what came of it."""
        rows = [(str(it["number"]), text(it["shape"]), text(it.get("reason", "")), text(" and ".join(it["loosened"]) or "nothing"),
                 f"{it['listed']:,}" + ("" if it["total"] is None else f" of {it['total']:,}"), text(self.outcome(it)))
                for it in self.record.of("trial")]
        return section("What was tried", table(STEPS, rows)) if rows else ""

    def outcome(self, step: Event) -> str:
        """Return what came of a step: its note, and which candidates are of it."""
        classes = [int(it["class"]) for it in self.found if it.get("trial") == step["number"]]
        told = [step["note"]] if step.get("note") else []
        told += ["its layouts were deferred"] if step["number"] in self.put_off() else []
        told += [f"candidates: {runs(classes)}"] if classes else ["no new candidate" if step["listed"] else "no layout passes"]
        return "; ".join(told)

    def put_off(self) -> set[int]:
        """Return the steps whose sets were put off, which is said right behind each."""
        found, number = set(), 0
        for it in self.record.of("trial", "put off"):
            if it["event"] == "trial":
                number = it["number"]
            else:
                found.add(number)
        return found

    def not_tried(self) -> str:
        """Return what was not tried, or not to its end, and why."""
        told = dict.fromkeys(it["text"].strip() for it in self.record.of(*LEFT))
        return section("What was not tried, or not to its end", bullets(told)) if told else ""

    def candidates(self) -> str:
        """Return all candidates, and of the best where parity holds."""
        rest = bullets(it["text"] for it in self.record.of("rest"))
        if not self.found:
            why = "no layout passed in any step" if self.record.last("trial") else "there was no search step"
            return section("Candidates", rest or f"<p>None: {why}.</p>")
        rows = [(str(it["class"]), rating(it), "<br>".join(code(word) for word in (it["set"], *it.get("alike", []))),
                 text(" and ".join(it["loosened"]) or "nothing"), text(self.fits(it)), text(self.volume(it))) for it in self.found]
        about = soft("Layouts below one another give the same volume. Of landmarks, the first number counts matches, the second mismatches.")
        return section("Candidates", about, table(CANDIDATES, rows), rest, *(self.parity(it) for it in self.record.of("parity")))

    def fits(self, it: Event) -> str:
        """Return the unsound rows and the fits of a candidate."""
        return ", ".join([*([f"{it['unsound']} rows inconsistent"] if it.get("unsound") else []), *it.get("fits", [])]) or "-"

    def volume(self, it: Event) -> str:
        """Return what was found in the volume of a candidate."""
        files = [f"{it['files_whole']} of {it['files']} files intact"] if it.get("files") else []
        related = [f"the same volume as candidate {it['same']}"] if it.get("same") is not None else []
        related += [f"candidate {it['inside'][0]} without its first {it['inside'][1]} stripes"] if it.get("inside") else []
        return "; ".join([*(it.get("found") or ["nothing recognized"]), *files, *filter(None, [it.get("note", ""), *it.get("doubts", [])]), *related])

    def parity(self, it: Event) -> str:
        """Where parity holds for a candidate, region by region."""
        regions = [region for region in it["regions"] if region.get("unsound") is not None and region["tested"]]
        end = max((region["first"] + region["rows"] for region in it["regions"]), default=1)
        bars = tuple(bar for region in regions for bar in self.region(region))
        tested, unsound = (sum(region[name] for region in regions) for name in ("tested", "unsound"))
        told = f"{unsound:,} of {tested:,} tested rows are inconsistent, in {len(regions)} parts of the disks. {it.get('how', '')}"
        shown = legend([(box("sound", WHOLE), "consistent: parity is correct, as it also is in zeros"),
                        (box("unsound", UPPER), "inconsistent: the height shows their share, at least a fifth")])
        lane = Lane("parity", f"parity: {unsound} of {tested} tested rows are inconsistent", bars)
        title = f"candidate {it['class']}: consistent rows by sectors of the disks"
        return (f'<div class="disk"><h3>{text(title)}</h3>{soft(text(told))}{shown}{drawing.lane(lane, end, end)}{drawing.axis(scale(end))}</div>')

    def region(self, it: Event) -> list[Bar]:
        """Return the bars of a region: its unsound rows above, the others below."""
        first, last = it["first"], it["first"] + it["rows"]
        bad = max(MIN_UNSOUND, HEIGHT * it["unsound"] // it["tested"]) if it["unsound"] else 0
        return ([Bar(first, last, "sound", HEIGHT - bad)] if bad < HEIGHT else []) + ([Bar(first, last, "unsound", bad, HEIGHT - bad)] if bad else [])

    def nearest(self) -> str:
        """Return the nearest sets, where none was good."""
        told = bullets(it["text"].strip() for it in self.record.of("diagnosis", "near"))
        return section("The nearest layouts", told) if told else ""

    def made_with(self) -> str:
        """Return the versions of all that had a part in it."""
        run = self.run
        programs: Sequence[tuple[str, str]] = [(it["name"], f"{code(it['file'])}<br>SHA-256 {code(it['sha256'])}") for it in run.get("programs", [])]
        tools = [(name, text(told)) for name, told in run.get("tools", {}).items()]
        machine = ", ".join(filter(None, (run.get("kernel", ""), run.get("machine", ""))))
        pairs = [("search", text(f"reraid-try {run.get('version', '')}")), ("program", text(run.get("program", ""))),
                 ("proved and built with", text(run.get("kit", ""))), *programs,
                 ("kernel", text(machine)), ("host", text(run.get("host", ""))), ("Python", text(run.get("python", ""))), *tools]
        return section("Made with", soft(text(PROVED if run.get("kit") else NOT_KNOWN)), listed(pairs))


def page(record: Record) -> str:
    """Return the page of what is recorded."""
    return Page(record).whole()
