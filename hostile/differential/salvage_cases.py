"""Cases of `salvage`: arrays with rescue texts."""

from making import Case, an_end, changed_set, files_of, shuffled, some_array, torn_once
from texts import PLAN_BYTES, RANKS, SECTOR


def shown(rng, value):
    """A number as rescue texts may have it, but for a few."""
    if rng.random() < 0.002:
        odd = [f"0{value}", f"0X{value:x}", f"+{value}", f"{value:x}", "0x", f"0x{value:x}h", str(value + 1), str(RANKS + value)]
        return rng.choice(odd)
    way = rng.randrange(4)
    if way == 0:
        return str(value)
    digits = f"{value:x}" if way < 3 else f"{value:X}"
    return "0x" + rng.choice(["", "", "0", "000000"]) + digits


def cuts(rng, size):
    """Where the blocks of an image of so many bytes begin and end, mostly at sectors."""
    places = set()
    for _ in range(rng.choice([0, 1, 2, 3, 6])):
        place = rng.randrange(size // SECTOR + 1) * SECTOR
        places.add(max(0, place + rng.choice([0] * 12 + [1, -1, 100])))
    first = 0 if rng.random() < 0.85 else rng.choice([1, 511, 512, 513, 1024])
    last = rng.choice([size, size, size, size, size - 1, size + 1, size // SECTOR * SECTOR, size + 100000, max(1, size // 2), RANKS - 1])
    last = RANKS if rng.random() < 0.01 else last
    return sorted({first, last} | {place for place in places if first < place < last}) if first < last else []


def section(rng, image, size):
    """The lines of an image's section."""
    lines = [f"map {image}"]
    filler = [] if rng.random() < 0.5 else ["# Mapfile. Created by a rescue", "", "#", "#map 0"]
    lines += rng.choice([[], filler]) + [rng.choice(["0x00000000     ?               1", "0x0 ? 1", "?", "map 0", " ", "0 1 +"])]
    if rng.random() < 0.03:
        # nothing is good where a section ends so
        return lines[:rng.choice([1, len(lines)])]
    ends = cuts(rng, size)
    for start, stop in zip(ends, ends[1:]):
        space = rng.choice([" ", "  ", "\t", " \t "])
        line = space.join([shown(rng, start), shown(rng, stop - start), rng.choice("+++++-?*/")])
        lines += [rng.choice(["", "", "", " ", "\t"]) + line + rng.choice(["", "", "", " ", "\t "])] + rng.choice([[], [], filler])
    return lines


def rescue_text(rng, images):
    """A section for some of the images, so that more or fewer sectors of a row are lost."""
    share = rng.choice([0, 0.3, 0.5, 0.7, 1])
    lines = rng.choice([[], [], ["# of three disks", ""]])
    for image, data in enumerate(images):
        if rng.random() < share:
            lines += section(rng, image, len(data))
    return "\n".join(lines + rng.choice([[""], [""], []]))


ODD_LINES = ["map 0", "map 1", "map 24", "map 01", "map  0", "map 0 ", "map", "map -", "0 1 +", " ", "0x0 0x200 +", "# x", "", " # x",
             "18446744073709551615 1 +", "0X0 1 +", "0x 1 +", "0 0 +", "0 00 +", "01 1 +", "0 1 x", "0 1 + +", "0 1+", "+0 1 +", "0 1 +\r",
             "0 18446744073709551615 +", "0 18446744073709551616 +", "\ufeffmap 0"]


def odd_line(rng, text, images):
    """The text with something in it that no rescue text has, mostly."""
    lines = text.split("\n")
    lines.insert(rng.randrange(len(lines) + 1), rng.choice(ODD_LINES + [f"map {images}", f"map {images}", f"map {images - 1}"]))
    return "\n".join(lines)


def salvage_case(rng):
    found, images, _ = some_array(rng, rng.random() < 0.35)
    made = found if rng.random() < 0.75 else changed_set(rng, found, images)
    operands = [f"set={made.word()}", *an_end(rng, images)] + rng.choice([[], ["form=data"], ["form=lost"], ["form=lost"]])
    text = rescue_text(rng, images)
    way = rng.random()
    if way < 0.12:
        text = odd_line(rng, text, len(images))
    text = text.encode()
    if 0.12 < way < 0.16 and text:
        text = torn_once(rng, text)
    elif 0.16 < way < 0.165:
        # as long as a source may be, or one byte more
        text += b"\n#" + b"x" * (PLAN_BYTES + rng.choice([0, 1]) - len(text) - 2)
    files = files_of(images)
    return Case(["salvage", *shuffled(rng, operands), "--", *files], text, files)
