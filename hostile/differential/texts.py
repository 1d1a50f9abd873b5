"""Words, plans and set words, as docs/FORMATS.md has them."""

import re
from typing import NamedTuple

SECTOR = 512
FAR = 2 ** 55
MOVED = 2 ** 54  # lengths and offsets are below it where each image has an offset of its own
RANKS = 2 ** 64
PLAN_BYTES = 4194304
MOST = 24
MOST_RELATED = 64  # images of `relations`
MOST_LINES = 4000000
MOST_SETS = 1024
LEVELS = [0, 5, 6]
PATTERNS = ("plain la ra ls rs parity-first parity-last n-restart n-continue la-6 ra-6 ls-6 rs-6 parity-first-6").split()
SYNDROMES = ["none", "after-q", "by-data", "by-slot"]
KINDS = ["gpt", "ntfs", "xfs", "btrfs", "lvm", "ext", "extinode", "xfs5", "btrfstree", "mft"]
USUAL_KINDS = KINDS[:5]
MARKS_OF = {"gpt": ["gpt"], "ntfs": ["boot", "record"], "xfs": ["super", "agf", "agi"], "btrfs": ["btrfs"], "lvm": ["lvm"], "ext": ["ext"],
            "extinode": ["extinode"], "xfs5": ["xfs5"], "btrfstree": ["btrfstree"], "mft": ["mft"]}
LAYOUTS = [f"{kind}{copies}" for kind in ("near", "far", "offset") for copies in (2, 3, 4)]
FIVE = PATTERNS[1:7]
SIX = PATTERNS[1:]
STAYING = ["plain", "parity-first", "parity-last", "parity-first-6"]  # parity moves in no row
LONGEST_DELAY = 1024
REDUNDANCY = {0: 0, 5: 1, 6: 2}
FEWEST = {0: 2, 5: 3, 6: 4}


class Stop(Exception):
    """The end of a run with a status and its line."""

    def __init__(self, status, line):
        super().__init__(status, line)
        self.status, self.line = status, line


# Numbers, lists and set words

def number(text, least, most):
    """The number that the text spells, if it lies between these."""
    if re.fullmatch("0|[1-9][0-9]*", text, re.ASCII) and len(text) < 40 and least <= int(text) <= most:
        return int(text)
    return None


def rising(text, element, most=None):
    """The elements that the text lists, each read by `element` as something that can be compared, if they rise strictly."""
    elements = [element(part) for part in text.split(",")]
    if None in elements or (most is not None and len(elements) > most):
        return None
    return elements if all(a < b for a, b in zip(elements, elements[1:])) else None


def named(names):
    """How a list of these names is read."""
    def read(text):
        places = rising(text, lambda part: names.index(part) if part in names else None)
        return None if places is None else [names[place] for place in places]
    return read


def numbers(least, most, count=None, only=lambda n: True):
    """How a list of such numbers is read."""
    def element(part):
        value = number(part, least, most)
        return value if value is not None and only(value) else None
    return lambda text: rising(text, element, count)


def one(least, most):
    """How a number is read."""
    return lambda text: number(text, least, most)


LISTS = {
    "levels": lambda text: rising(text, lambda part: int(part) if part in ("0", "5", "6") else None),
    "members": numbers(2, MOST),
    "patterns": named(PATTERNS),
    "delays": numbers(1, LONGEST_DELAY, 16),
    "syndromes": named(SYNDROMES),
    "chunks": numbers(1, 32768, 16, lambda n: n & (n - 1) == 0),
    "offsets": numbers(0, FAR - 1, 64),
    "origins": numbers(0, FAR - 1, 64),
    "missing": one(0, 2),
    "foreign": one(0, MOST),
    "badrows": one(0, FAR - 1),
    "window": one(1, FAR - 1),
    "misfits": one(0, FAR - 1),
    "least": one(0, FAR - 1),
}
# What else a list or number has to be where each image has an offset of its own
MOVABLE = {"offsets": numbers(0, MOVED - 1, 64), "foreign": one(0, 0)}
CHUNKS = [2 ** power for power in range(16)]
# The lines of a plan, but for that of delays, which stands after the patterns where there are others than 1
ORDER = "levels members patterns syndromes chunks offsets origins missing foreign badrows window misfits least".split()


class Array:
    """Chunks of images that begin at an offset, with the images, or none, in their slots."""

    def __init__(self, chunk, offset, slots):
        self.chunk, self.offset, self.slots = chunk, offset, tuple(slots)
        self.members = len(self.slots)
        self.lost = self.slots.count(None)

    def slot_words(self):
        return ",".join("-" if image is None else str(image) for image in self.slots)

    def rows(self, end):
        return max(0, end - self.offset) // self.chunk

    def area(self, end):
        return self.rows(end) * self.chunk


class Set(Array):
    """A parameter set. Where each image has an offset of its own, these are its bases, and its offset is the greatest of them."""

    def __init__(self, level, pattern, syndrome, chunk, offset, slots, bases=(), delay=1):
        super().__init__(chunk, max(bases, default=offset), slots)
        self.level, self.pattern, self.syndrome, self.bases, self.delay = level, pattern, syndrome, tuple(bases), delay
        self.data = self.members - REDUNDANCY[level]

    def like(self, **changed):
        """The set with what is changed in it."""
        names = ("level", "pattern", "syndrome", "chunk", "offset", "slots", "bases", "delay")
        return Set(**{**{name: getattr(self, name) for name in names}, **changed})

    def shape(self):
        return (self.level, self.members, self.pattern, self.delay, self.syndrome, self.chunk)

    def rotation(self):
        """The pattern, and where parity stays for more than a row for how many."""
        return self.pattern if self.delay == 1 else f"{self.pattern}*{self.delay}"

    def turn(self, row):
        """How often the parity has moved before a row."""
        return row // self.delay

    def base(self, image):
        """The sector of an image at which its data begin."""
        return self.bases[image] if self.bases else self.offset

    def word(self):
        offset = "+".join(str(base) for base in self.bases or [self.offset])
        return f"{self.level}:{self.rotation()}:{self.syndrome}:{self.chunk}:{offset}:{self.slot_words()}"


class Mirror(Array):
    """A set of copies of each chunk."""

    def __init__(self, layout, chunk, offset, slots):
        super().__init__(chunk, offset, slots)
        self.layout, self.copies = layout, int(layout[-1])

    def word(self):
        return f"{self.layout}:{self.chunk}:{self.offset}:{self.slot_words()}"


def places(text):
    """A place of each image, in any order."""
    found = [number(part, 0, FAR - 1) for part in text.split("+")]
    return None if None in found or len(found) > MOST_RELATED else found


def slots_word(text):
    slots = [-1 if part == "-" else number(part, 0, MOST - 1) for part in text.split(",")]
    return None if None in slots or len(slots) > MOST else [None if slot == -1 else slot for slot in slots]


def rotation_word(text):
    """A pattern, and for how many rows parity stays."""
    pattern, mark, rows = text.partition("*")
    delay = number(rows, 2, 2 ** 32 - 1) if mark else 1
    return (pattern, delay) if pattern in PATTERNS and delay is not None else None


def set_word(text):
    parts = text.split(":")
    if len(parts) != 6 or parts[0] not in ("0", "5", "6") or rotation_word(parts[1]) is None or parts[2] not in SYNDROMES:
        return None
    pattern, delay = rotation_word(parts[1])
    bases = [number(part, 0, MOVED - 1 if "+" in parts[4] else FAR - 1) for part in parts[4].split("+")]
    chunk, slots = number(parts[3], 0, 2 ** 32 - 1), slots_word(parts[5])
    if chunk is None or None in bases or len(bases) > MOST or slots is None:
        return None
    return Set(int(parts[0]), pattern, parts[2], chunk, bases[0], slots, bases if len(bases) > 1 else (), delay)


def mirror_word(text):
    parts = text.split(":")
    if len(parts) != 4 or parts[0] not in LAYOUTS:
        return None
    chunk, offset, slots = number(parts[1], 0, 2 ** 32 - 1), number(parts[2], 0, FAR - 1), slots_word(parts[3])
    return None if None in (chunk, offset, slots) else Mirror(parts[0], chunk, offset, slots)


def strange_images(found, images):
    """The images of a set that do not exist, and those that stand in a slot before."""
    there = [slot for slot in found.slots if slot is not None]
    return [slot for slot in there if slot >= images], [slot for place, slot in enumerate(there) if slot in there[:place]]


def broken_bases(found, images):
    """Rule 12 and its value, where a set has bases that are not one for each image, or an image in no slot."""
    if found.bases and (len(found.bases) != images or any(image not in found.slots for image in range(images))):
        return 12, len(found.bases)
    return None


def has_delay(pattern, delay):
    """Whether the parity of a pattern may stay for so many rows."""
    return delay == 1 or pattern not in STAYING and 1 <= delay <= LONGEST_DELAY


def broken_delay(found):
    """Rule 13 and its value, where the parity of a set stays for more rows than it may."""
    return None if has_delay(found.pattern, found.delay) else (13, found.delay)


def broken_rule(found, images, end):
    """The first of the rules of all commands that a set breaks, but for those of its bases and its delay, and its value."""
    patterns = {0: PATTERNS[:1], 5: FIVE, 6: SIX}[found.level]
    syndromes = SYNDROMES[1:] if found.level == 6 else SYNDROMES[:1]
    absent, again = strange_images(found, images)
    if not FEWEST[found.level] <= found.members <= MOST:
        return 1, found.members
    if found.pattern not in patterns:
        return 2, PATTERNS.index(found.pattern)
    if found.syndrome not in syndromes:
        return 3, SYNDROMES.index(found.syndrome)
    if found.chunk not in CHUNKS:
        return 4, found.chunk
    if absent:
        return 5, absent[0]
    if again:
        return 6, again[0]
    if found.lost > REDUNDANCY[found.level]:
        return 7, found.lost
    if found.rows(end) == 0:
        return 8, found.offset
    return None


# Words

def drops(text):
    def element(part):
        parts = part.split(":")
        if len(parts) != 2:
            return None
        pair = number(parts[0], 0, MOST - 1), number(parts[1], 0, FAR - 1)
        return None if None in pair else pair
    return rising(text, element, 64)


def either(*choices):
    return lambda text: text if text in choices else None


END = {"end": one(0, FAR - 1)}
RANGE = {"from": one(0, RANKS - 1), "size": one(1, 1000000), "span": one(1, RANKS - 1)}
OPERANDS = {
    "survey": {**LISTS, **END, "kinds": named(KINDS), "drop": drops, "mode": either("common", "each"), "logical": either("512", "4096")},
    "list": {**RANGE, "pages": one(1, 1000000), "form": either("text", "json")},
    "check": {"set": set_word},
    "map": {"set": set_word, "sector": one(0, RANKS - 1), **END},
    "write": {"set": set_word, **END},
    "rebuild": {"set": set_word, "slot": one(0, MOST - 1), **END},
    "sample": {"number": one(0, RANKS - 1), "set": set_word, "rows": one(1, 65536), "marks": either("none", "xfs")},
    "classes": {"images": one(1, MOST), **END},
    "salvage": {"set": set_word, "form": either("data", "lost"), **END},
    "mirrors": {"layouts": named(LAYOUTS), **{name: LISTS[name] for name in ("members", "chunks", "offsets", "foreign", "badrows", "window")},
                "missing": one(0, MOST - 1), **END, **RANGE},
    "mirrorwrite": {"set": mirror_word, **END},
    "relations": {"from": one(0, FAR - 1), **END, "step": one(1, FAR - 1), "offsets": places, "form": either("text", "json")},
}
REQUIRED = {"survey": [], "list": [], "check": ["set"], "map": ["set", "sector"], "write": ["set"], "rebuild": ["set", "slot"],
            "sample": ["number", "set", "rows"], "classes": ["images", "end"], "salvage": ["set"], "mirrors": [], "mirrorwrite": ["set"],
            "relations": []}


def clash(given):
    """Whether operands do not go together with which a command line may not go on."""
    too_many = given.get("size", 1) * given.get("pages", 1) > MOST_LINES
    each = given.get("mode") == "each"
    return too_many or each and (given.get("foreign", 0) > 0 or given.get("offsets", [0])[-1] >= MOVED)


def read_words(words):
    """The command, its operands and the names, or the end with the refused word."""
    def refuse(place):
        raise Stop(1, f"reraid: word {place} is not understood")
    if not words or words[0] not in OPERANDS:
        refuse(1)
    command, given = words[0], {}
    for place, word in enumerate(words[1:], 2):
        if word == "--":
            too_long = command == "list" and given.get("size", 100) * given.get("pages", 1) > MOST_LINES
            if too_long or any(name not in given for name in REQUIRED[command]):
                refuse(place)
            if command in ("sample", "classes") and len(words) > place:
                refuse(place + 1)
            return command, given, words[place:]
        name, mark, text = word.partition("=")
        if not mark or name in given or name not in OPERANDS[command]:
            refuse(place)
        given[name] = OPERANDS[command][name](text)
        if given[name] is None or clash(given):
            refuse(place)
    refuse(len(words) + 1)


# Lists of sets

def read_sets(data, images, end):
    """The sets of a list, as a listing prints them, or the end with the refused line."""
    if len(data) > PLAN_BYTES:
        raise Stop(3, "reraid: set list is longer than 4194304 bytes")
    found, lines = [], data.decode("latin-1").split("\n")
    for place, line in enumerate(lines, 1):
        last = place == len(lines)
        if last and not line:
            return found
        parts = line.split(" ")
        ranks = one(0, RANKS - 1)
        if not last and len(parts) == 4 and parts[0] == "next" and parts[2] == "of" and None not in (ranks(parts[1]), ranks(parts[3])):
            continue
        made = set_word(parts[1]) if not last and len(parts) == 2 and ranks(parts[0]) is not None else None
        if made is None or made.bases or broken_rule(made, images, end) or broken_delay(made) or len(found) == MOST_SETS:
            raise Stop(13, f"reraid: set line {place} is not understood")
        found.append(made)
    raise AssertionError


# The plan

class Mark(NamedTuple):
    """A mark with its rule."""
    kind: str
    image: int
    sector: int
    rule: str


class Group(NamedTuple):
    """A group with its marks, and its own bounds, if it has such: the most misfits and the least fits."""
    kind: str
    marks: list
    bounds: tuple = None


class Plan:
    """A plan: its lists and numbers by their names, its groups, and whether each image has an offset of its own."""

    third = False  # written as version 3 also where no group has bounds and all delays are 1, which is no plan

    def __init__(self, lengths, end, given, groups, each=False):
        self.lengths, self.end, self.groups, self.each, self.delays = lengths, end, groups, each, given.get("delays", [1])
        for name in ORDER:
            setattr(self, name, given[name])

    def text(self):
        def shown(value):
            return ",".join(str(part) for part in value) if isinstance(value, list) else str(value)
        lines = [f"reraid-plan {2 if self.each else 1}"]
        delayed = self.delays != [1]
        if self.third or delayed or any(group.bounds for group in self.groups):
            lines = ["reraid-plan 3", f"mode {'each' if self.each else 'common'}"]
        lines += [f"images {len(self.lengths)}", *(f"length {length}" for length in self.lengths), f"end {self.end}"]
        order = [*ORDER[:3], "delays", *ORDER[3:]] if delayed else ORDER
        lines += [f"{name} {shown(getattr(self, name))}" for name in order]
        for group in self.groups:
            lines.append(f"group {group.kind}")
            lines += [f"bounds {group.bounds[0]} {group.bounds[1]}"] if group.bounds else []
            lines += [f"mark {mark.kind} {mark.image} {mark.sector} {mark.rule}" for mark in group.marks]
        return "".join(line + "\n" for line in lines + ["done"])


def distances(text):
    """Whether the text is a rule."""
    parts = text.split(":")
    values = [number(part, 0, FAR - 1) for part in parts[1:]]
    if {"at": 1, "either": 2, "every": 3}.get(parts[0]) != len(values) or None in values:
        return False
    return parts[0] != "every" or values[0] * values[1] + values[2] < FAR


def read_plan(data):
    """The plan that the bytes are, or the end with the refused line."""
    if len(data) > PLAN_BYTES:
        raise Stop(3, "reraid: plan is longer than 4194304 bytes")
    lines = data.decode("latin-1").split("\n")
    place = 0

    def refuse():
        raise Stop(2, f"reraid: plan line {place} is not understood")

    def line():
        nonlocal place
        place += 1
        if place >= len(lines):
            refuse()
        return lines[place - 1]

    def value(name, read):
        word, _, text = line().partition(" ")
        result = read(text) if word == name else None
        if result is None:
            refuse()
        return result

    first = line()
    if first not in ("reraid-plan 1", "reraid-plan 2", "reraid-plan 3"):
        refuse()
    third = first == "reraid-plan 3"
    each = (value("mode", either("common", "each")) if third else first) in ("each", "reraid-plan 2")
    lengths = [value("length", one(0, (MOVED if each else FAR) - 1)) for _ in range(value("images", one(1, MOST)))]
    end = value("end", one(0, min(lengths)))
    given = {}
    for name in ORDER:
        if name == "syndromes" and third and lines[place:place + 1] and lines[place].split(" ")[0] == "delays":
            given["delays"] = value("delays", lambda text: None if text == "1" else LISTS["delays"](text))
        given[name] = value(name, MOVABLE.get(name, LISTS[name]) if each else LISTS[name])
    groups, seen, free = [], {kind: 0 for kinds in MARKS_OF.values() for kind in kinds}, False

    def may_begin(kind):
        before = [group.kind for group in groups]
        return (not before or KINDS.index(before[-1]) <= KINDS.index(kind)) and before.count(kind) < (1 if kind == "gpt" else 32)

    def lacks_reason():
        return third and "delays" not in given and all(group.bounds is None for group in groups)

    while (text := line()) != "done":
        parts = text.split(" ")
        if parts[0] == "group" and len(parts) == 2 and parts[1] in KINDS:
            if not may_begin(parts[1]):
                refuse()
            groups.append(Group(parts[1], []))
            free = third
        elif parts[0] == "bounds" and len(parts) == 3 and free:
            bounds = number(parts[1], 0, FAR - 1), number(parts[2], 0, FAR - 1)
            if None in bounds:
                refuse()
            groups[-1] = groups[-1]._replace(bounds=bounds)
            free = False
        elif parts[0] == "mark" and len(parts) == 5 and groups and parts[1] in MARKS_OF[groups[-1].kind]:
            image, marks = number(parts[2], 0, len(lengths) - 1), groups[-1].marks
            sector = None if image is None else number(parts[3], 0, lengths[image] - 1)
            if sector is None or not distances(parts[4]) or seen[parts[1]] == 4096:
                refuse()
            if marks and (marks[-1].sector, marks[-1].image) >= (sector, image):
                refuse()
            if lacks_reason() and not any(may_begin(kind) for kind in KINDS):
                refuse()
            seen[parts[1]] += 1
            marks.append(Mark(parts[1], image, sector, parts[4]))
            free = False
        else:
            refuse()
    if lacks_reason():
        refuse()
    place += 1
    if place < len(lines) or lines[-1] != "":
        refuse()
    return Plan(lengths, end, given, groups, each)
