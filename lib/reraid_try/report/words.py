"""What a candidate is in words, and what to type next: the end of a run, for the classes of which most is known."""

import collections
import os
import shlex
from collections.abc import Sequence

from ..calls.sets import LAST_Q, Word
from ..checks import kin
from ..checks.candidates import Candidate
from ..checks.members import named
from ..checks.verdicts import Score
from ..evidence.images import Image
from ..units import sectors_said
from .report import Report
from .typed import Typed, commands, of_maps, typed_maps

MAX_TOLD = 3
PATTERNS = {"la": "left-asymmetric", "ra": "right-asymmetric", "ls": "left-symmetric", "rs": "right-symmetric", "parity-first": "parity first",
            "parity-last": "parity last", "n-restart": "N restart", "n-continue": "N continue"}
ORDERS = {"by-data": "Q coefficients by data number", "by-slot": "Q coefficients by slot"}
# What stands above the lines to type, and above those that end what they begin.
LOOK, END = "to mount it read-only, as root:", "to undo that:"
ALONE = "(this names only the images in slots, and numbers only these, since a shorter image would shorten the volume)"
NUMBERS = {1: "one", 2: "two", 3: "three", 4: "four"}


def layout(word: Word) -> str:
    """Return the level, the disks and the order of a set."""
    if word.copying:
        return f"RAID 10 ({word.copying.kind}={word.copying.copies}) of {len(word.slots)} disks"
    name = PATTERNS.get(word.rotation.removesuffix(LAST_Q), word.rotation)
    said = [f"RAID {word.level} of {len(word.slots)} disks"]
    said += [f"{name}-6 (Q on the last slot)" if word.rotation.endswith(LAST_Q) else name] if word.level != "0" else []
    said += [f"delayed parity: it moves after {word.delay} rows, as with Smart Array controllers"] if word.delay > 1 else []
    return ", ".join(said + ([ORDERS[word.order]] if word.order in ORDERS else []))


def begins(word: Word, names: Sequence[str]) -> str:
    """Where the data of the members begin."""
    if len(word.offsets) == 1:
        return f"data offset: {word.offset} sectors"
    each = (f"{offset} of {name}" for number, (offset, name) in enumerate(zip(word.offsets, names)) if number in word.slots)
    return "data offset in sectors: " + ", ".join(each)


def short(names: Sequence[str]) -> list[str]:
    """Return the names without their folders, where they are unlike then, as a shell takes them."""
    last = [os.path.basename(name) for name in names]
    return [shlex.quote(name) for name in (last if len(set(last)) == len(names) else names)]


def slots(word: Word, names: Sequence[str]) -> str:
    """Return the image of each slot; of copies that fill slots side by side with an equals sign between them."""
    told = ["(missing)" if slot is None else names[slot] for slot in word.slots]
    if word.together > 1:
        groups = ("=".join(told[first:first + word.together]) for first in range(0, len(told), word.together))
        return f"disk order: {' '.join(groups)} (which of {NUMBERS[word.together]} copies is the first cannot be known)"
    return f"disk order: {' '.join(told)}"


def missing(word: Word) -> str:
    """Return the slots that are empty; of slots that hold the same which of them that is cannot be told."""
    empty = [place for place, slot in enumerate(word.slots) if slot is None]
    if not empty and word.level == "0":
        return "missing: none, or only copies (a RAID 10 with one copy left of each disk is such a RAID 0)"
    if not empty:
        return "missing: none"
    if word.together == 1:
        return "missing: " + ", ".join(f"slot {place}" for place in empty) + f" of 0 to {len(word.slots) - 1}"
    lost = collections.Counter(place // word.together * word.together for place in empty)
    told = (lost_copies(first, count, word.together) for first, count in lost.items())
    return f"missing: {', '.join(told)}"


def lost_copies(first: int, lost: int, copies: int) -> str:
    """So many lost of so many slots that hold the same, from a first one on; which of them cannot be told, where one is there."""
    places = [f"slot {place}" for place in range(first, first + copies)]
    names = f"{', '.join(places[:-1])} and {places[-1]}"
    if lost == copies:
        return names
    return f"{NUMBERS[lost]} of {names} ({NUMBERS[lost]} of {NUMBERS[copies]} copies; which one is unknown)"


def in_words(word: Word, names: Sequence[str], whole: Word | None = None) -> list[str]:
    """Return the lines that describe a layout with the names of the images; those that are left out of it for their bad rows with their slots in the
    whole one."""
    names = short(names)
    out = {slot: place for place, slot in enumerate(whole.slots) if slot is not None and slot not in word.slots} if whole else {}
    unused = " ".join(name for number, name in enumerate(names) if number not in word.slots and number not in out) or "none"
    unused += "; left out for bad rows: " + ", ".join(f"{names[slot]} (slot {place})" for slot, place in out.items()) if out else ""
    head = f"{layout(word)}, chunks of {sectors_said(word.chunk)}"
    return [head, slots(word, names), missing(word), begins(word, names), f"unused images: {unused}"]


def twins(word: Word, images: Sequence[Image]) -> list[str]:
    """Return the images of a set that hold the same as another one, but for the copies of a RAID 10."""
    names = short([image.called for image in images])
    alike = [(image.number, image.like) for image in images if image.like is not None and not {image.number, image.like}.isdisjoint(word.images)]
    said = "hold the same data: which of them belongs there cannot be known"
    return [] if word.is_mirrored else [f"{names[one]} and {names[other]} {said}" for one, other in alike]


def best(order: Sequence[Candidate]) -> list[tuple[int, Candidate]]:
    """Return the candidates, with their numbers, that have a rating, those with `++` first. One alone of those with the same volume."""
    return sorted(((number, it) for number, it in enumerate(order) if it.score >= Score.CHECKED and it.same is None), key=lambda pair: -pair[1].score)


def encrypted(order: Sequence[Candidate]) -> list[tuple[int, Candidate]]:
    """Return the candidates, with their numbers, whose volumes are encrypted, or have an encrypted part."""
    return [(number, it) for number, it in enumerate(order) if it.found.encrypted and it.score and it.same is None]


def lines_of(number: int, it: Candidate, images: Sequence[Image], said: Sequence[str], typed: Typed) -> list[str]:
    """Return what is printed of a candidate."""
    relaxed = "relaxed: " + (" and ".join(it.step.relaxed) or "nothing")
    lines = [f"candidate {number}: {said[0]}"]
    lines += [f"  {text}" for text in (*said[1:], relaxed, it.rows, it.alike_said, *it.old, *twins(it.word, images), kin.text(it)) if text]
    lines += [f"  {LOOK}", *("    " + line for line in typed.lines), f"  {END}", *("    " + line for line in typed.ends)]
    members = named(it.word, images)
    lines += [f"  {ALONE}"] * (members.word != it.word)
    return lines + of_maps(it.word, [images[slot] for slot in it.word.images], bool(typed_maps(members)))


def apart_lines(it: Candidate, order: Sequence[Candidate]) -> list[str]:
    """In which classes the other physical volumes of a group lie that no image has by itself."""
    found = []
    for identifier in (identifier for finding in it.found.findings for identifier in finding.apart):
        owners = [number for number, other in enumerate(order)
                  if other.same is None and identifier in (one.own for one in other.found.findings)]
        if owners:
            found.append(f"  the physical volume {identifier} of its volume group is in candidate {' or '.join(map(str, owners))}: mount that too, "
                         "and attach it with losetup before vgchange")
    return found


def say_class(report: Report, number: int, it: Candidate, images: Sequence[Image], order: Sequence[Candidate] = ()) -> None:
    """What a class is, what was relaxed for it, and what to type; `order` are all classes."""
    names = [image.called for image in images]
    said, typed = in_words(it.word, names, it.whole.word if it.whole else None), commands(number, it, images)
    report.say("words", "\n".join(lines_of(number, it, images, said, typed) + apart_lines(it, order)),
               **{"class": number, "set": it.word.text, "words": "; ".join(said), "rows": it.rows, "old": list(it.old), "commands": list(typed.lines),
                  "ends": list(typed.ends)})


def show(report: Report, order: Sequence[Candidate], images: Sequence[Image]) -> None:
    """For each class with a rating what it is, what was relaxed for it, and what to type; it chooses none. What is encrypted is told apart by no
    checker."""
    told, closed = best(order), encrypted(order)
    for number, it in told:
        say_class(report, number, it, images, order)
    closed = [pair for pair in closed if pair not in told]
    if closed:
        kinds = " and ".join(dict.fromkeys(finding.kind for _, it in closed for finding in it.found.encrypted))
        numbers = ", ".join(str(number) for number, _ in closed)
        report.say("encrypted", f"encrypted ({kinds}): no checker tells {'this candidate' if len(closed) == 1 else 'these candidates'} from a wrong "
                   f"one. Try each with its key: candidate {numbers}", classes=[number for number, _ in closed], kinds=kinds)
    for number, it in closed[:MAX_TOLD]:
        say_class(report, number, it, images, order)
    if len(closed) > MAX_TOLD:
        report.say("words", f"{len(closed) - MAX_TOLD} more of these are only in the list above", more=len(closed) - MAX_TOLD)
