"""The images with their strips: where they hold data, what could not be read, landmarks, and where relations tie them."""

from collections.abc import Iterable

from ..units import SECTOR, counted
from . import drawing
from .drawing import HEIGHT, Bar, Lane
from .parts import box, bullets, code, legend, section, size, soft, text
from .record import Event, Record
from .strips import CELLS

# So many parts has the scale, and so many sets of images that stand together are named.
PARTS, MAX_TOGETHER = 4, 6
KINDS = ("gpt", "ntfs", "xfs", "btrfs", "lvm", "ext")
LOWER, UPPER, MIDDLE, TICKS = "M0 7h22v7h-22z", "M0 0h22v7h-22z", "M6 0h10v14h-10z", "M7 0V14M15 0V14"
# Why sectors count as unread.
BY_MAP = "by the ddrescue mapfile"
BY_TEXT = "inferred: a repeated text is there, and parity is not consistent in it; no mapfile lists it"
# The least height of a bar of something.
MIN = 12


def scale(length: int) -> list[str]:
    """Return the texts below lanes of so many sectors."""
    return ["0", *(size(length * SECTOR * part // PARTS) for part in range(1, PARTS + 1))]


class Disks:
    """The images of a record."""

    def __init__(self, record: Record) -> None:
        self.record = record
        self.images = record.images()
        self.longest = max((it["sectors"] for it in self.images), default=1)
        self.strips = {it["image"]: it for it in record.of("strip")}
        self.hashes = {it["image"]: it for it in record.of("hash")}
        self.files = {it["image"]: it["files"] for it in record.of("files")}
        self.relations = record.last("relations")
        found = {it["kind"] for it in record.of("marks") if it["marks"]}
        self.kinds = [*(kind for kind in KINDS if kind in found), *sorted(found - set(KINDS))]

    def made(self) -> str:
        """Each image with its strips, all on one scale."""
        if not self.images:
            return ""
        return section("The images", self.legend(), *(self.disk(it) for it in self.images), self.in_words())

    def legend(self) -> str:
        """Return what the colors and the heights of the lanes are."""
        items = []
        if self.strips:
            how = min(it["looks"] for it in self.strips.values())
            seen = f"each of {CELLS} parts was sampled in {how} places" if how else "all of it was read"
            items.append((box("data", LOWER), f"data: the height shows how much is non-zero ({seen}); empty: zeros"))
        damaged = [it for it in self.images if self.unread(it)]
        if damaged:
            ways = dict.fromkeys(BY_TEXT if self.inferred(it) else BY_MAP for it in damaged)
            items.append((box("unread", MIDDLE), f"unread: {'; or '.join(ways)}"))
        if self.relations:
            items += [(box("tied", LOWER), "matched: in these rows, parity matches the image and others, as with the members of an array"),
                      (box("untied", UPPER), "unmatched: it has data there, and parity does not match them; empty: zeros, or not sampled")]
        items += [(box(f"tick {kind}", TICKS), f"{kind}: landmarks") for kind in self.kinds]
        return legend(items)

    def disk(self, image: Event) -> str:
        """Return an image: its name, what is known of it, and its lanes."""
        number = image["number"]
        lanes = [self.data(number), self.unread_lane(image), *(self.marks(kind, number) for kind in self.kinds), self.tied(number)]
        drawn = "".join(drawing.lane(lane, image["sectors"], self.longest) for lane in lanes if lane)
        drawn += drawing.axis(scale(self.longest)) if drawn else ""
        told = "; ".join(self.known(image))
        about = soft(text(told)) + self.files_of(number) + self.hash_of(number)
        return f'<div class="disk"><h3>image {number}: {text(image["name"])}</h3>{about}{drawn}</div>'

    def known(self, image: Event) -> Iterable[str]:
        """Return what is known of an image."""
        yield f"{image['sectors']:,} sectors, {size(image['sectors'] * SECTOR)}"
        if image.get("rest"):
            yield f"and {image['rest']} bytes after the last whole sector"
        if image.get("container"):
            yield f"in a container: {image['container']}"
        yield "nothing but zeros" if image.get("first") is None else f"non-zero from sector {image['first']:,} to {image['last']:,}"
        if image.get("table"):
            yield f"{'its own' if image.get('own') else 'at its start a'} {image['table']}"
        if image.get("like") is not None:
            yield f"the same as image {image['like']}"
        if image.get("map"):
            yield f"mapfile: {image['map']}" + (f", SHA-256 {image['map_sha256']}" if image.get("map_sha256") else "")

    def files_of(self, number: int) -> str:
        """Return the files of an image, with their bytes and when they were changed last."""
        told = (f"file {it['name']}: {it['bytes']:,} bytes, " + (f"changed last {it['changed']}" if it["changed"] else "a block device")
                for it in self.files.get(number, []))
        return "".join(soft(text(line)) for line in told)

    def hash_of(self, number: int) -> str:
        """Return the digest of an image, or why there is none."""
        found = self.hashes.get(number)
        if not found:
            return soft("SHA-256: not computed (--hash computes it)")
        return soft(f"SHA-256 {code(found['sha256'])} of {found['bytes']:,} bytes" if found["sha256"] else f"SHA-256: {text(found['why'])}")

    def data(self, number: int) -> Lane | None:
        """Where an image holds data."""
        strip = self.strips.get(number)
        if not strip:
            return None
        wide, filled = strip["cell"], strip["filled"]
        bars = tuple(Bar(k * wide, (k + 1) * wide, "data", max(MIN, part)) for k, part in enumerate(filled) if part)
        return Lane("data", f"data in {sum(bool(part) for part in filled)} of {len(filled)} parts", bars)

    def unread(self, image: Event) -> list[list[int]]:
        """Return the runs of sectors of an image that its map calls unread."""
        found: list[list[int]] = self.strips.get(image["number"], {}).get("unread", [])
        return found

    def inferred(self, image: Event) -> bool:
        """Return whether texts, and not a map, tell what counts as unread of an image."""
        return bool(self.strips.get(image["number"], {}).get("inferred"))

    def unread_lane(self, image: Event) -> Lane | None:
        """Return what could not be read."""
        runs = self.unread(image)
        bars = tuple(Bar(first, first + count, "unread") for first, count in runs)
        why = BY_TEXT if self.inferred(image) else BY_MAP
        return Lane("unread", f"unread: {sum(count for _, count in runs)} sectors, {why}", bars) if runs else None

    def marks(self, kind: str, number: int) -> Lane:
        """Return the landmarks of a kind on an image."""
        places = tuple(sector for it in self.record.of("marks") if it["kind"] == kind for image, sector in it["marks"] if image == number)
        return Lane(kind, f"landmarks of {kind}: {len(places)}", ticks=places, kind=kind)

    def tied(self, number: int) -> Lane | None:
        """Where the relations of rows tie an image to others: of the rows of each cell those with a tie stand below, those without above."""
        if not self.relations:
            return None
        wide, step = max(1, -(-self.longest // CELLS)), max(1, self.relations["step"])
        counts: dict[int, list[int]] = {}
        for rows in self.relations["rows"]:
            kind = 0 if any(number in them for them in rows["tied"]) else 2 if number in rows["zero"] else 1
            for row in range(rows["first"], rows["last"] + 1, step):
                counts.setdefault(row // wide, [0, 0, 0])[kind] += 1
        bars = []
        for place, (tied, untied, zeros) in sorted(counts.items()):
            first, last, all_rows = place * wide, place * wide + max(wide, step), tied + untied + zeros
            low, high = HEIGHT * tied // all_rows, HEIGHT * untied // all_rows
            bars += [Bar(first, last, "tied", low)] if low else []
            bars += [Bar(first, last, "untied", high, HEIGHT - high)] if high else []
        sums = [sum(it[kind] for it in counts.values()) for kind in (0, 1)]
        return Lane("parity", f"parity matches in {sums[0]} rows, data without a match in {sums[1]}", tuple(bars))

    def in_words(self) -> str:
        """Return what the relations of all rows have in common."""
        told = self.relations
        if not told:
            return ""
        together = told["together"]
        rows = [f"images {', '.join(map(str, it['images']))} match in {counted(it['rows'], 'row')}" for it in together[:MAX_TOGETHER]]
        rows += [f"{len(together) - MAX_TOGETHER} more combinations of images match in fewer rows"] if len(together) > MAX_TOGETHER else []
        rows += [f"parity matches nothing in any row: images {', '.join(map(str, told['alone']))}"] if told["alone"] else []
        rows += [f"{told['free']} of {told['total']} sampled rows match nothing; rows of zeros count as such"] if told["total"] else []
        return soft("Which images parity matches, over all sampled rows:") + bullets(rows)
