"""The volume of a candidate, to be looked at: through `reraid-nbd` and FUSE where both are there, and else sparsely in a file."""

import contextlib
import dataclasses
import functools
import hashlib
import itertools
import os
import shutil
import subprocess
import tempfile
import time
from collections.abc import Iterator, Sequence

from ..calls import meter
from ..calls.commands import Runner, quoted
from ..calls.meter import Meter
from ..calls.sets import Word
from ..errors import OutsideError, said
from ..evidence import reading, unread
from ..units import KIB, SECTOR
from .leftovers import LOCK, PREFIX, VARIABLE, locked, unmount
from .lvm import Piece

# So much of what is free may be written.
FREE = 9 / 10
# A mount is waited for so many times so many seconds, and its server so long at its end.
LOOKS, NEXT_LOOK, LAST_WAIT = 500, 0.02, 5
COPIED = 64 * KIB


@dataclasses.dataclass(frozen=True)
class Region:
    """A part of a volume that may hold a file system: its name, its pieces in order, and the device that it is where its group is active."""

    name: str
    pieces: tuple[Piece, ...]
    device: str = ""

    @property
    def length(self) -> int:
        """Its bytes."""
        return sum(piece.length for piece in self.pieces)

    @property
    def first(self) -> int:
        """Where it begins in the volume, or in the file of its first piece."""
        return self.pieces[0].first

    def there(self, length: int) -> int:
        """How many of its bytes there are where a volume has so many."""
        return sum(piece.length if piece.path else max(0, min(piece.first + piece.length, length) - piece.first) for piece in self.pieces)

    def up_to(self, length: int) -> tuple[Piece, ...]:
        """The pieces of its first bytes."""
        found = []
        for piece in self.pieces:
            if length > 0:
                found.append(dataclasses.replace(piece, length=min(piece.length, length)))
            length -= piece.length
        return tuple(found)


@dataclasses.dataclass(frozen=True)
class Volume:
    """A volume as a file. `cut` says that only its first bytes are there, and the rest are zeros; `mounted` that it shows no holes. Of one that is
    served, `server` is the process that does so, and `images` how many images it reads."""

    path: str
    length: int
    cut: bool = False
    mounted: bool = False
    server: int | None = None
    images: int = 0

    def meter(self, first: int | None) -> Meter | None:
        """Return the bound on what one command may read of the images through it; None where it is no mount. Of large images the first pass reads
        so many bytes of each."""
        if self.server is None:
            return None
        return Meter(functools.partial(meter.served_by, self.server), meter.left_for(self.images, first))


@dataclasses.dataclass(frozen=True)
class Source:
    """What a volume is made of: a set, the images, where the members end, and the maps, None where there are none."""

    word: Word
    names: tuple[str, ...]
    end: int
    maps: str | None = None

    @property
    def length(self) -> int:
        """The bytes of the volume."""
        return self.word.sectors(self.end) * SECTOR

    def command(self, end: int) -> tuple[list[str], str | None]:
        """The command that puts the volume of members that end there, and the text that it reads."""
        operands = [f"set={self.word.text}", f"end={end}", "--", *self.names]
        if self.word.is_mirrored:
            return ["reraid", "mirrorwrite", *operands], None
        if self.maps:
            return ["reraid", "salvage", *operands], self.maps
        return ["reraid", "write", *operands], None

    def served(self, maps: str | None) -> list[str]:
        """The operands of `reraid-nbd` that serve the volume, with the name of the file of its maps."""
        return [f"set={self.word.text}", *([f"maps={maps}"] if maps else []), f"end={self.end}", "--", *self.names]

    def row_end(self, rows: int) -> int:
        """Where members end that have so many rows of chunks, or a few more, so that each chunk is there with all its copies."""
        copies = self.word.copying.copies if self.word.copying else 1
        return min(self.end, self.word.offset + -(-rows // copies) * copies * self.word.chunk)

    def beginning(self, count: int) -> tuple[list[list[str]], str | None]:
        """The commands that put so many first bytes of the volume, or more, and the text that the first one reads."""
        if self.word.needs_end:
            words, text = self.command(self.end)
            return [words, ["head", "-c", str(count)]], text
        words, text = self.command(self.row_end(1 + count // SECTOR // max(1, self.word.row)))
        return [words], text


class Room:
    """The folder in which volumes are written or mounted. All of it is gone at the end of the run, unless the run is killed."""

    def __init__(self, commands: Runner, folder: str | None = None, mounts: bool = True) -> None:
        self.commands = commands
        self.mounts = mounts and all(map(shutil.which, ("reraid-nbd", "nbdfuse", "fusermount3"))) and os.path.exists("/dev/fuse")
        self.mounted: dict[str, subprocess.Popen[bytes]] = {}
        self.numbers = itertools.count(1)
        try:
            self.base = os.path.abspath(tempfile.mkdtemp(prefix=PREFIX, dir=folder))
            self.lock = locked(os.path.join(self.base, LOCK), "w")
            os.environ[VARIABLE] = self.base
        except OSError as error:
            raise OutsideError(f"{folder or tempfile.gettempdir()} cannot be written: {said(error)} (--room DIR names another folder)") from error

    def close(self) -> None:
        """Unmounts what is mounted, and removes the folder."""
        for folder in list(self.mounted):
            self.unmount(folder)
        if self.lock:
            self.lock.close()
        shutil.rmtree(self.base, ignore_errors=True)
        os.environ.pop(VARIABLE, None)

    def path(self, ending: str) -> str:
        """A new name."""
        return os.path.join(self.base, f"{next(self.numbers)}.{ending}")

    def free(self) -> int:
        """The bytes that may still be written."""
        return int(shutil.disk_usage(self.base).free * FREE)

    @contextlib.contextmanager
    def volume(self, source: Source, most: int, seconds: float) -> Iterator[Volume | None]:
        """The volume of a set. Where it is no mount, at most so many bytes of it are written; None where it cannot be had."""
        if self.mounts:
            folder = self.path("mount")
            if self.mount(folder, source):
                try:
                    shown, server = os.path.join(folder, "volume"), self.mounted[folder].pid
                    yield Volume(shown, source.length, mounted=True, server=server, images=len(source.names))
                finally:
                    self.unmount(folder)
                return
        path = self.path("volume")
        try:
            yield self.write(path, source, most, seconds)
        finally:
            with contextlib.suppress(FileNotFoundError):
                os.remove(path)

    def write(self, path: str, source: Source, most: int, seconds: float) -> Volume | None:
        """Writes the volume into a sparse file, its first bytes alone where it is longer than may be written."""
        most, stop = min(most, self.free()), source.end
        if source.length > most and source.word.needs_end:
            return None
        if source.length > most:
            stop = source.row_end(max(1, most // SECTOR // max(1, source.word.row)))
        words, text = source.command(stop)
        answer = self.commands.shell([words, ["dd", f"of={path}", "bs=64K", "conv=sparse", "iflag=fullblock", "status=none"]], text, seconds)
        if not answer.good:
            return None
        os.truncate(path, source.length)
        return Volume(path, source.length, stop < source.end)

    def mount(self, folder: str, source: Source) -> bool:
        """Mounts the volume of a set, a damaged one by its maps; it says whether that was done."""
        os.mkdir(folder)
        shown = os.path.join(folder, "volume")
        words = ["nbdfuse", "--readonly", shown, "--command", "reraid-nbd", *source.served(self.maps_file(source.maps))]
        server = subprocess.Popen(words, stdin=subprocess.DEVNULL, stdout=subprocess.DEVNULL, stderr=subprocess.DEVNULL, start_new_session=True)
        self.mounted[folder] = server
        self.commands.note(quoted(words))
        for _ in range(LOOKS):
            if os.path.exists(shown):
                return True
            if server.poll() is not None:
                break
            time.sleep(NEXT_LOOK)
        self.unmount(folder)
        # That maps are refused says nothing of other volumes.
        self.mounts = source.maps is not None
        return False

    def maps_file(self, maps: str | None) -> str | None:
        """The name of a file of the text of maps; None where there are none."""
        if maps is None:
            return None
        path = os.path.join(self.base, hashlib.sha256(maps.encode(errors="surrogateescape")).hexdigest() + ".maps")
        if not os.path.exists(path):
            with open(path, "w", encoding="utf-8", errors="surrogateescape") as file:
                file.write(maps)
        return path

    def unmount(self, folder: str) -> None:
        """Unmounts a volume, and ends its server."""
        server = self.mounted.pop(folder)
        meter.HANDED_ON.add(server.pid)
        unmount(folder)
        try:
            server.wait(LAST_WAIT)
        except subprocess.TimeoutExpired:
            server.kill()
            server.wait()
        with contextlib.suppress(OSError):
            os.rmdir(folder)

    @contextlib.contextmanager
    def region(self, volume: Volume, region: Region, length: int) -> Iterator[str | None]:
        """The first bytes of a region as a file of its own, with zeros behind its end where it has fewer: the volume's where it is just that, and
        else a sparse copy; None where there is no room."""
        if region.pieces == (Piece(0, volume.length),) and length == volume.length:
            yield volume.path
            return
        with self.copied(volume, region, length) as path:
            yield path

    @contextlib.contextmanager
    def copied(self, volume: Volume, region: Region, length: int) -> Iterator[str | None]:
        """The first bytes of a region as a sparse copy, with zeros behind its end where it has fewer; None where there is no room."""
        path = self.path("region")
        if volume.mounted and min(length, region.length) > self.free():
            yield None
            return
        try:
            yield path if copy(volume.path, path, region.pieces, length, self.free()) else None
        finally:
            with contextlib.suppress(FileNotFoundError):
                os.remove(path)


def copy(source: str, target: str, pieces: Sequence[Piece], length: int, room: int) -> bool:
    """Copies the pieces of a file, or of others, one after another, without what is zeros or cannot be read. It says whether there was room."""
    zeros, written, at = bytes(COPIED), 0, 0
    with contextlib.ExitStack() as stack, open(target, "wb") as new:
        olds = {path: stack.enter_context(unread.opened(path or source)) for path in {piece.path for piece in pieces}}
        for piece in pieces:
            size = min(piece.length, length - at)
            for place, block in reading.blocks(olds[piece.path], piece.first, piece.first + size, COPIED):
                if block != zeros[:len(block)]:
                    new.seek(at + place - piece.first)
                    new.write(block)
                    written += len(block)
                    if written > room:
                        return False
            at += size
        new.truncate(length)
    return True
