"""A reference of the commands of reraid, independent of the program: written from docs/FORMATS.md and docs/LAYOUTS.md, and
plain where the program is quick. It holds all images and whole answers in memory, and goes through every set of a range one by
one.

`answer(words, text, files)` gives status, standard output and standard error of a run with these words over a plan text, where
`files` has the bytes of each image by its name, and None for a name that is no regular file. A file has fewer than 2^54 sectors, so none
is too long for an offset of its own.
"""

import json
import math
import random

import mirrors
import relations
import salvage
from arrays import Row, Sums, held, layout_name, row_cells, turns, unsound_rows, volume_sector
from generated import array_images, put_file_system, volume_of
from landmarks import first_blocks, groups_of, hits
from product import Product, page
from texts import (LEVELS, LISTS, MOST, MOST_RELATED, PATTERNS, RANKS, SECTOR, SYNDROMES, USUAL_KINDS, Plan, Set, Stop, broken_bases,
                   broken_delay, broken_rule, read_plan, read_sets, read_words)

# Rows of `relations`: as many where no step is given, and the most.
USUAL_ROWS, MOST_ROWS = 4096, 1048576


def given_images(kind, given, planned):
    raise Stop(4, f"reraid: images: {kind} given {given} planned {planned}")


def followed_total(product):
    """The product's total, where its sets have ranks."""
    if product.total >= RANKS:
        raise Stop(5, "reraid: the product has more than 18446744073709551615 sets")
    return product.total


def followed_cursor(given, total):
    """The rank from which a listing goes, where it is not past the total."""
    first = given.get("from", 0)
    if first > total:
        raise Stop(6, f"reraid: cursor {first} is past {total}")
    return first


def planned_work(text, images):
    """The plan and its product, where the images are those of the plan."""
    plan = read_plan(text)
    if len(images) != len(plan.lengths):
        given_images("count", len(images), len(plan.lengths))
    for place, (image, length) in enumerate(zip(images, plan.lengths)):
        if len(image) // SECTOR != length:
            given_images(f"length {place}", len(image) // SECTOR, length)
    product = Product(plan)
    followed_total(product)
    return plan, product


def usual_end(given, images):
    """The end that is asked for, where the images are neither too few nor too many nor too short."""
    if not images:
        given_images("count", 0, 1)
    if len(images) > MOST:
        given_images("count", len(images), MOST)
    shortest = min(len(image) // SECTOR for image in images)
    end = given.get("end", shortest)
    if end > shortest:
        given_images("end", end, shortest)
    return end


def follow(broken):
    """Goes on where no rule is broken."""
    if broken:
        raise Stop(7, f"reraid: set rule {broken[0]} value {broken[1]}")


def follow_rules(found, images, end, further=None):
    """Goes on where a set breaks no rule. A further one comes before those of the bases and the delay."""
    follow(broken_rule(found, images, end) or further and further() or broken_bases(found, images) or broken_delay(found))


def list_sets(given, text, images):
    plan, product = planned_work(text, images)
    first, out, sums = followed_cursor(given, product.total), [], Sums(images)
    for _ in range(given.get("pages", 1)):
        lines, first = page(plan, product, sums, first, given.get("size", 100), given.get("span", RANKS - 1))
        if given.get("form") == "json":
            for rank, found in lines:
                shown = {"chunk": found.chunk, "level": found.level, "name": layout_name(found),
                         "offset": list(found.bases) if found.bases else found.offset,
                         "pattern": found.rotation(), "rank": rank, "slots": list(found.slots), "syndrome": found.syndrome}
                out.append(json.dumps(shown, separators=(",", ":")))
            out.append(json.dumps({"next": first, "total": product.total}, separators=(",", ":")))
        else:
            out += [f"{rank} {found.word()}" for rank, found in lines] + [f"next {first} of {product.total}"]
        if first == product.total:
            break
    return "".join(line + "\n" for line in out).encode()


def check(given, text, images):
    found = given["set"]
    plan, product = planned_work(text, images)
    follow_rules(found, len(images), plan.end)
    tested = min(found.area(plan.end), plan.window)
    rank, unsound = product.rank_of(found), unsound_rows(found, Sums(images), tested)
    out, good = [f"rank {'-' if rank is None else rank}", f"unsound {unsound} of {tested}"], unsound <= plan.badrows
    for place, group in enumerate(plan.groups):
        at = held(plan, found, group)
        good = good and at is not None
        told = "none" if at is None else f"origin {at[0]} fits {at[1]} misfits {at[2]}"
        out.append(f"group {place} {group.kind} {told}")
    return "".join(line + "\n" for line in out + ["pass" if good else "fail"]).encode()


def set_and_end(given, images, further=None):
    """The set and the end that are asked for, where they are such."""
    end, found = usual_end(given, images), given["set"]
    follow_rules(found, len(images), end, further)
    return found, end


def map_sector(given, images):
    found, end = set_and_end(given, images)
    sector, size = given["sector"], found.area(end) * found.data
    if sector >= size:
        raise Stop(8, f"reraid: sector {sector} of {size}")
    chunk, inner = divmod(sector, found.chunk)
    row, item = divmod(chunk, found.data)
    made = row_cells(found, row)
    slot = made.index(item)
    shown = [made.index(kind) if kind in made else "-" for kind in "PQ"]
    image = "-" if found.slots[slot] is None else found.slots[slot]
    place = (found.offset if image == "-" else found.base(image)) + row * found.chunk + inner
    return (f"row {row} item {item} slot {slot} image {image} sector {place} p {shown[0]} q {shown[1]}\n"
            f"name {layout_name(found) or '-'}\n").encode()


def write(given, images):
    found, end = set_and_end(given, images)
    out = bytearray(found.area(end) * found.data * SECTOR)
    for sector in range(found.area(end)):
        row = Row(found, images, sector)
        for slot, block in enumerate(row.whole()):
            place = volume_sector(found, slot, sector, end)
            if place is not None:
                out[place * SECTOR:(place + 1) * SECTOR] = block
    return bytes(out)


def rebuild(given, images):
    wanted, slot = given["set"], given["slot"]
    found, end = set_and_end(given, images, lambda: (9, slot) if slot >= wanted.members or wanted.slots[slot] is not None else None)
    return b"".join(Row(found, images, sector).whole()[slot] for sector in range(found.area(end)))


def asked_values(given, images, end):
    """What is asked for, with what is usual where it is not said."""
    asked = {"levels": LEVELS, "members": [max(2, len(images))], "patterns": PATTERNS, "delays": [1], "syndromes": SYNDROMES,
             "chunks": [8 * 2 ** power for power in range(9)], "offsets": [0, 2048, 262144, 264192], "origins": [0, 2048],
             "missing": 0, "foreign": 0, "badrows": 0, "window": max(1, end), "misfits": 0, "least": 1}
    return {**asked, **{name: value for name, value in given.items() if name in LISTS}}


def survey_plan(given, images):
    unit, end = 8 if given.get("logical") == "4096" else 1, usual_end(given, images)
    asked = asked_values(given, images, end)
    kinds = given.get("kinds", USUAL_KINDS)
    seen = hits(images, asked["offsets"][0], end, kinds, set(given.get("drop", [])), unit)
    asked["origins"] = sorted(set(asked["origins"]) | first_blocks(images, seen["gpt"], unit))[:64]
    return Plan([len(image) // SECTOR for image in images], end, asked, groups_of(seen, images, unit, kinds), given.get("mode") == "each")


def sample(given):
    found, rows, marked = given["set"], given["rows"], given.get("marks") == "xfs"
    end, images, size = found.offset + rows * found.chunk, found.members - found.lost, rows * found.chunk * found.data
    follow(broken_rule(found, images, end) or (found.members * end > 2097152 and (10, found.members * end))
           or (marked and size < 512 and (11, size)) or (found.bases and (12, len(found.bases))) or broken_delay(found))
    volume = volume_of(given["number"], size * SECTOR)
    if marked:
        put_file_system(volume, found.data)
    made = array_images(found, rows, volume)
    del volume
    plan = survey_plan({"levels": [found.level], "missing": found.lost, "members": [found.members], "delays": [found.delay]}, made)
    product = Product(plan)
    followed_total(product)
    lines, after = page(plan, product, Sums(made), 0, 1000, RANKS - 1)
    there = "yes" if any(line.word() == found.word() for _, line in lines) else "no"
    marks = sum(len(group.marks) for group in plan.groups)
    return (f"images {images}\nsectors {end}\nmarks {marks}\ntotal {product.total}\nfound {there}\n"
            f"next {after} of {product.total}\n").encode()


def classes(given, text):
    """Sets are alike where their whole volumes over random images are equal: bytes that were weighed otherwise differ in some of the
    512 columns of a sector, but once in 2 to the power 4096. Of long images a sector stands for a row of chunks, until both layouts
    repeat."""
    found, end = read_sets(text, given["images"], given["end"]), given["end"]
    rng, firsts, out = random.Random(len(text)), [], []
    if end <= 120:
        images = [rng.randbytes(120 * SECTOR) for _ in range(given["images"])]
        told = [write({"set": one, "end": end}, images) for one in found]
    else:
        images = [rng.randbytes(SECTOR) * MOST for _ in range(given["images"])]
        told = [turned_rows(one, images) for one in found]

    def alike(one, other):
        return told[one] == told[other] if end <= 120 else are_alike(found[one], told[one], found[other], told[other], end)

    for place, one in enumerate(found):
        number = next((number for number, first in enumerate(firsts) if alike(first, place)), len(firsts))
        firsts += [place] if number == len(firsts) else []
        out.append(f"{number} {one.word()}\n")
    return "".join([*out, f"classes {len(firsts)} of {len(found)}\n"]).encode()


def turned_rows(found, images):
    """A row of the volume in each turn until the layout repeats, over images whose sectors are all alike."""
    shown, count = Set(found.level, found.pattern, found.syndrome, 1, 0, found.slots), turns(found.pattern, found.members)
    volume, wide = write({"set": shown, "end": count}, images), found.data * SECTOR
    return [volume[turn * wide:(turn + 1) * wide] for turn in range(count)]


def are_alike(one, one_rows, other, other_rows, end):
    """Whether two sets have equal rows until both layouts repeat. A row is as the one before it where the parity of both stays."""
    if (one.offset, one.chunk, one.data) != (other.offset, other.chunk, other.data):
        return False
    row, stop = 0, min(one.rows(end), math.lcm(one.delay * len(one_rows), other.delay * len(other_rows)))
    while row < stop:
        if one_rows[one.turn(row) % len(one_rows)] != other_rows[other.turn(row) % len(other_rows)]:
            return False
        row = min((found.turn(row) + 1) * found.delay for found in (one, other))
    return True


def salvage_volume(given, text, images):
    end, found = usual_end(given, images), given["set"]
    sections = salvage.read_rescue(text, len(images))
    follow_rules(found, len(images), end)
    sectors = salvage.salvaged(found, images, end, sections)
    if given.get("form") == "lost":
        return salvage.lost_text(sectors).encode()
    return b"".join(bytes(SECTOR) if sector is None else sector for sector in sectors)


def list_mirrors(given, images):
    end = usual_end(given, images)
    asked = {**asked_values(given, images, end), "layouts": given.get("layouts", ["near2"]), "end": end}
    product = mirrors.Mirrors(asked, len(images))
    first = followed_cursor(given, followed_total(product))
    lines, after = mirrors.page(asked, product, images, first, given.get("size", 100), given.get("span", RANKS - 1))
    return "".join([f"{rank} {found.word()}\n" for rank, found in lines] + [f"next {after} of {product.total}\n"]).encode()


def write_mirror(given, images):
    end, found = usual_end(given, images), given["set"]
    follow(mirrors.broken_mirror_rule(found, len(images), end))
    return mirrors.volume(found, images, end)


def related_rows(given, images):
    """The rows that are looked at, and the sector of row 0 of each image, where these are as many and the rows neither too far nor too many."""
    count, offsets = len(images), given.get("offsets", [0] * len(images))
    for bad, most in ((count < 2, 2), (count > MOST_RELATED, MOST_RELATED)):
        if bad:
            given_images("count", count, most)
    if len(offsets) != count:
        given_images("offsets", len(offsets), count)
    common = min(max(0, len(image) // SECTOR - offset) for image, offset in zip(images, offsets))
    first, end = given.get("from", 0), given.get("end", common)
    if end > common:
        given_images("end", end, common)
    rows = range(first, end, given.get("step", max(1, -(-(end - first) // USUAL_ROWS))))
    if len(rows) > MOST_ROWS:
        given_images("rows", len(rows), MOST_ROWS)
    return rows, offsets


def relate(given, images):
    return relations.report(images, *related_rows(given, images), given.get("form", "text")).encode()


def answer(words, text, files):
    """Status, standard output and standard error of a run."""
    try:
        command, given, names = read_words(words)
        images = []
        for name in names[:65536]:
            if files.get(name) is None:
                raise Stop(10, "reraid: image read fault")
            images.append(files[name])
        images += [b""] * (len(names) - len(images))
        jobs = {"survey": lambda: survey_plan(given, images).text().encode(), "list": lambda: list_sets(given, text, images),
                "check": lambda: check(given, text, images), "map": lambda: map_sector(given, images),
                "write": lambda: write(given, images), "rebuild": lambda: rebuild(given, images), "sample": lambda: sample(given),
                "classes": lambda: classes(given, text), "salvage": lambda: salvage_volume(given, text, images),
                "mirrors": lambda: list_mirrors(given, images), "mirrorwrite": lambda: write_mirror(given, images),
                "relations": lambda: relate(given, images)}
        return 0, jobs[command](), b""
    except Stop as stop:
        return stop.status, b"", (stop.line + "\n").encode()
