"""Files that say themselves whether they are whole: gzip, bzip2, xz, zip and png, wherever one begins at a sector of a volume.

No file system is read. A file that lies in several pieces counts as broken, also in the true volume; one that is whole and longer than
a row of chunks says that the blocks under it are in order. A zip that does not say where its members end is not counted.
"""

import bz2
import dataclasses
import itertools
import lzma
import struct
import time
import zlib
from collections.abc import Callable, Iterable, Iterator
from typing import BinaryIO, Optional

from ..evidence import reading, unread
from ..units import KIB, MIB, SECTOR, size_said

MAX_FILES = 64
# Of a longer file so much is read, so much at once, and so much of it is unpacked at once.
MAX_BYTES, BLOCK, UNPACKED = 256 * MIB, 256 * KIB, 4 * MIB
# So many are read of those that may be the longest, of so many.
MAX_LONG, MAX_STARTS = 16, 1 << 16
# So many are read of those that may lie on more than one chunk.
MAX_ACROSS = 512
# A file is looked for so long, in seconds, where no time is given.
NO_END = 1e9
# A chunk of a picture has so many bytes at most.
MAX_CHUNK = 64 * MIB


@dataclasses.dataclass
class Wholes:
    """How many files were read, how many are whole, and how long the longest whole one is in bytes. `more` says that others begin behind them, `long`
    has those that may be the longest; `joined` says from how many chunks of a row some whole file goes on into the next one, as far as was asked;
    `spread` that they lie all over the volume."""

    found: int = 0
    whole: int = 0
    longest: int = 0
    more: bool = False
    long: Optional["Wholes"] = None
    joined: int = 0
    spread: bool = False

    def take(self, size: int | None) -> None:
        """Counts a file of so many bytes, or a broken one; not one of which nothing is told."""
        self.found += size is not None
        self.whole += bool(size)
        self.longest = max(self.longest, size or 0)

    @property
    def broken(self) -> int:
        """Return how many are not whole."""
        return self.found - self.whole

    @property
    def longest_of_all(self) -> int:
        """How long the longest whole one of all is."""
        return max(self.longest, self.long.longest if self.long else 0)

    def text(self, chunk: int = 0, row: int = 0) -> str:
        """What is said of them; of whole ones alone that are not longer than a chunk, or a row of chunks, of so many bytes also that."""
        if not self.found:
            return "no known files"
        first = "the first " if self.more and not self.spread else ""
        said = f"{self.whole} of {first}{self.found} files{' all over it' if self.spread else ''} intact"
        said += f", {self.long.whole} of {self.long.found} that may be long" if self.long and not self.spread else ""
        longest = self.longest_of_all
        short = "a chunk" if longest <= chunk else "a stripe" if longest <= row else ""
        return said + (f", the longest {size_said(longest)}: no longer than {short}" if longest and short else "")


def starts(file: BinaryIO, first: int, last: int, until: float) -> Iterator[tuple[int, "Kind"]]:
    """The places at which such a file may begin, with its kind, in order, as far as they are read until a time."""
    for place, block in reading.blocks(file, first, last):
        if time.monotonic() > until:
            return
        found = []
        for kind in KINDS:
            heads = (sector * SECTOR for sector in reading.strided(block, 0, kind.magic[0]))
            found += [(place + head, kind) for head in heads if block.startswith(kind.magic, head)]
        yield from sorted(found, key=lambda it: it[0])


def pieces(file: BinaryIO, place: int) -> Iterator[bytes]:
    """The bytes from a place on."""
    file.seek(place)
    read = 0
    while read < MAX_BYTES and (block := file.read(BLOCK)):
        read += len(block)
        yield block


def unpacked(file: BinaryIO, place: int) -> int:
    """The length of what zlib unpacks from here on; 0 where it is broken."""
    engine, read = zlib.decompressobj(31), 0
    try:
        for block in pieces(file, place):
            read += len(block)
            while block and not engine.eof:
                engine.decompress(block, UNPACKED)
                block = engine.unconsumed_tail
            if engine.eof:
                return read - len(engine.unused_data)
    except zlib.error:
        return 0
    return read if read >= MAX_BYTES else 0


def streamed(file: BinaryIO, place: int, engine: bz2.BZ2Decompressor | lzma.LZMADecompressor) -> int:
    """The length of what an engine unpacks from here on; 0 where it is broken."""
    read = 0
    try:
        for block in pieces(file, place):
            read += len(block)
            engine.decompress(block, UNPACKED)
            while not engine.needs_input and not engine.eof:
                engine.decompress(b"", UNPACKED)
            if engine.eof:
                return read - len(engine.unused_data)
    except (OSError, lzma.LZMAError, EOFError, ValueError):
        return 0
    return read if read >= MAX_BYTES else 0


def png(file: BinaryIO, place: int) -> int:
    """The length of a picture whose chunks all have the right sums; 0 where one has not."""
    here = place + 8
    while here - place < MAX_BYTES:
        file.seek(here)
        head = file.read(8)
        if len(head) < 8:
            return 0
        size, kind = struct.unpack(">I4s", head)
        if size > MAX_CHUNK or not kind.isalpha():
            return 0
        body = file.read(size + 4)
        if len(body) < size + 4 or zlib.crc32(kind + body[:size]) != struct.unpack(">I", body[size:])[0]:
            return 0
        here += size + 12
        if kind == b"IEND":
            break
    return here - place


def inflated(file: BinaryIO, place: int) -> tuple[int, int | None]:
    """The packed length and the sum of what is deflated from here on, None for the sum where it is too long; zlib.error where it is broken."""
    engine, read, check = zlib.decompressobj(-15), 0, 0
    for block in pieces(file, place):
        read += len(block)
        while block and not engine.eof:
            check = zlib.crc32(engine.decompress(block, UNPACKED), check)
            block = engine.unconsumed_tail
        if engine.eof:
            return read - len(engine.unused_data), check
    if read < MAX_BYTES:
        raise zlib.error
    return read, None


def stored(file: BinaryIO, place: int, size: int) -> tuple[int, int | None]:
    """The length and the sum of so many bytes from here on, None for the sum where they are too many; zlib.error where there are fewer."""
    check, left = 0, size
    for block in pieces(file, place) if size else ():
        check, left = zlib.crc32(block[:left], check), left - min(left, len(block))
        if not left:
            break
    if left and size - left < MAX_BYTES:
        raise zlib.error
    return size, None if left else check


def described(file: BinaryIO, place: int) -> tuple[int, int]:
    """The sum that stands behind a member of a zip, and the length of what stands there."""
    file.seek(place)
    text = file.read(24)
    first = 4 if text[:4] == b"PK\7\x08" else 0
    length = first + (12 if text[first + 12:first + 14] == b"PK" else 20)
    return int.from_bytes(text[first:first + 4], "little"), length


def archive(file: BinaryIO, place: int) -> int | None:
    """The length of a zip up to its list, where the sums of all members are right; 0 where one is not, None where it does not say where one ends."""
    here = place
    while here - place < MAX_BYTES:
        file.seek(here)
        head = file.read(30)
        if head[:4] in (b"PK\1\2", b"PK\5\6"):
            break
        if len(head) < 30 or head[:4] != b"PK\3\4":
            return 0
        flags, method, check, size, name, extra = struct.unpack("<HH4xII4xHH", head[6:30])
        if flags & 1 or method not in (0, 8) or method == 0 and (flags & 8 and size == 0 or size == 0xFFFFFFFF):
            return None
        here += 30 + name + extra
        try:
            length, found = inflated(file, here) if method else stored(file, here, size)
        except zlib.error:
            return 0
        here += length
        if found is None:
            break
        if flags & 8:
            check, length = described(file, here)
            here += length
        if found != check:
            return 0
    return here - place


@dataclasses.dataclass(frozen=True)
class Kind:
    """A kind of file: what it begins with, and what gives its length where it is whole, 0 where it is broken, None where that is not told."""

    name: str
    magic: bytes
    length: Callable[[BinaryIO, int], int | None]


KINDS = (
    Kind("gzip", b"\x1f\x8b\x08", unpacked),
    Kind("bzip2", b"BZh", lambda file, place: streamed(file, place, bz2.BZ2Decompressor())),
    Kind("xz", b"\xfd7zXZ\0", lambda file, place: streamed(file, place, lzma.LZMADecompressor())),
    Kind("zip", b"PK\x03\x04", archive),
    Kind("png", b"\x89PNG\r\n\x1a\n", png),
)


def count(path: str, first: int = 0, last: int | None = None, seconds: float = NO_END, most: int = MAX_FILES) -> Wholes:
    """The files that begin in a volume, or in a part of it, in bytes; the first of them where there are many, or where time is up."""
    told, until = Wholes(), time.monotonic() + seconds
    with unread.opened(path) as file:
        last = last if last is not None else file.seek(0, 2)
        after = first
        for place, kind in starts(file, first, last, until):
            if place < after:
                continue
            if told.found >= most:
                told.more = True
                break
            size = kind.length(file, place)
            told.take(size)
            after = place + (size or 0)
    return told


def count_long(path: str, last: int, row: int, chunk: int, seconds: float) -> Wholes:
    """Of the files that begin in a volume those behind which most bytes lie up to the next one, longest first, until one longer than a row is
    whole, or until time is up; half of it goes to the search for where they begin. Where none of them is so long, from how many chunks of a row files
    go on."""
    told, now = Wholes(), time.monotonic()
    with unread.opened(path) as file:
        found = list(itertools.islice(starts(file, 0, last, now + seconds / 2), MAX_STARTS))
        ends = [*(place for place, _ in found[1:]), last]
        room = [(end - place, place, kind) for (place, kind), end in zip(found, ends)]
        for _, place, kind in sorted(room, key=lambda it: it[:2], reverse=True)[:MAX_LONG]:
            if told.longest > row or time.monotonic() > now + seconds:
                break
            told.take(kind.length(file, place))
        if told.longest <= row:
            told.joined = joined(file, room, row, chunk, now + 2 * seconds)
    return told


def joined(file: BinaryIO, room: Iterable[tuple[int, int, "Kind"]], row: int, chunk: int, until: float) -> int:
    """From how many chunks of a row some whole file goes on into the next chunk, as far as that is known at a time. Of each file it is known how many
    bytes lie up to the next one, and where it begins."""
    seen: set[int] = set()
    across = (it for it in room if it[1] // chunk < (it[1] + it[0] - 1) // chunk)
    for _, place, kind in itertools.islice(across, MAX_ACROSS):
        if time.monotonic() > until or len(seen) == row // chunk:
            break
        size = kind.length(file, place) or 0
        seen |= {number % (row // chunk) for number in range(place // chunk, (place + size - 1) // chunk)}
    return len(seen)
