"""The list of the candidates."""

from collections.abc import Sequence
from typing import Any

from ..checks import kin
from ..checks.candidates import Candidate
from ..checks.verdicts import Score
from ..evidence.images import Image
from ..units import counted
from . import words
from .report import Report, Shown

LAST = """\
reraid-try does not choose between candidates. The order is by rating, and then by the number of matching landmarks.
++: long files are intact or all data checksums match, and no checker reports errors.
+: only a checker reports no errors, or ++ was lowered for a reason above. It may be wrong, so open files."""
NONE = "no candidates"
NONE_SHORT = f"{NONE}. -v prints the evidence and the search steps"
MANY = 24
# Before what belongs to a candidate.
INDENT = " " * 8
Numbered = tuple[int, Candidate]


def lines(number: int, it: Candidate) -> list[str]:
    """Return the lines of a candidate: its layouts, its volume, and what the tests give."""
    lacks = "no rating" if it.score < Score.CHECKED else "rating lowered"
    volume = "; ".join(filter(None, [it.found.text(), *(f"{lacks}: {doubt}" for doubt in it.doubts), kin.text(it)]))
    matches = [f"landmarks that match: {' '.join(group.short() for group in it.groups)}"] if it.groups else []
    bad = [counted(it.unsound, "inconsistent row")] if it.unsound else []
    tests = "; ".join([f"relaxed: {' and '.join(it.step.relaxed) or 'nothing'}", *matches, *bad])
    return [f"{it.score.rating:4}{number:<4}{it.word.text}", *(INDENT + told for told in (*it.alike, volume, tests))]


def fields(number: int, it: Candidate) -> dict[str, Any]:
    """Return what programs are told of a candidate."""
    found = it.found
    inside = [it.inside.number, it.inside.rows] if it.inside else None
    return {"class": number, "set": it.word.text, "rank": it.rank, "loosened": it.step.relaxed, "unsound": it.unsound,
            "fits": [group.short() for group in it.groups], "alike": it.alike, "score": int(it.score), "sign": it.score.rating, "doubts": it.doubts,
            "clean": found.clean, "files": found.files.found, "files_whole": found.files.whole, "same": it.same, "inside": inside,
            "found": [finding.text() for finding in found.findings], "note": "; ".join(found.notes), "trial": it.step.number}


def shown(as_json: bool, order: Sequence[Candidate]) -> tuple[list[Numbered], list[str]]:
    """Return the candidates that are printed, with their numbers, and why others are not."""
    told = list(enumerate(order))
    if as_json:
        return told, []
    known = [(number, it) for number, it in told if it.found.findings]
    said = [f"{len(told) - len(known)} more: nothing recognized in the volume"] if len(known) < len(told) else []
    if len(known) > MANY:
        kept = [pair for pair in known if pair[1].score] or sorted(sorted(known, key=soundness)[:MANY], key=lambda pair: pair[0])
        said = [f"{len(known) - len(kept)} more: a checker reports errors (--json lists them all)"] * (len(kept) < len(known)) + said
        known = kept
    return known, said


def soundness(pair: Numbered) -> tuple[int, int, int]:
    """Return what candidates with a fault are sorted by: the longest whole file, how many are whole, and the order of all."""
    number, it = pair
    return -it.found.files.longest, -it.found.files.whole, number


def show(report: Report, tested: Sequence[Candidate], images: Sequence[Image]) -> None:
    """Prints the candidates, one of each class, that none is chosen, and what the best are in words."""
    order = kin.in_order(tested, images)
    told, others = shown(report.as_json, order)
    if told and not report.as_json:
        report.say("head", "Candidates: rating, number, layout")
    for number, it in told:
        report.say("candidate", "\n".join(lines(number, it)), **fields(number, it))
    for said in others:
        report.say("rest", said)
    none = NONE if report.shown is Shown.DETAILS else NONE_SHORT
    report.say("end", LAST if order else none, candidates=len(order))
    words.show(report, order, images)
