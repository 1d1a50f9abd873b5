"""Which files of a volume touch its lost sectors, as far as the tools of its file system tell."""

import dataclasses
import re
import struct
from collections.abc import Callable, Sequence

from ..calls.commands import Runner
from ..units import KIB, SECTOR, counted
from .systems import EXT_SUPER

Run = tuple[int, int]
# The first inode of an ext that is a file of a user, and that of its root folder.
FIRST_INODE, ROOT = 11, 2
# The most blocks of a file system that are asked about.
MAX_BLOCKS = 5000
# Lines of the tools: of a block its inode, of an inode its name; the name of a file that has a sector, or a block.
ICHECK, NCHECK = re.compile(r"(\d+)\t(\d+)"), re.compile(r"(\d+)\t/?(/.*)")
NTFS_NAME = re.compile(r"Inode \d+ (/.*?)(?:/\$\w+(?:\(.*\))?)?")
XFS_NAME = re.compile(r"block \d+ \(\d+/\d+\) type (\w+)(?: inode \d+)?(?: (.+))?")


@dataclasses.dataclass(frozen=True)
class Asked:
    """A file system that is asked about its lost sectors: its file, the byte of that at which it begins, the blocks that are lost in it, and their
    bytes."""

    path: str
    first: int
    blocks: tuple[int, ...]
    size: int


@dataclasses.dataclass(frozen=True)
class LostFiles:
    """The files of one file system that touch lost sectors: how many sectors are lost in it, the names in order, and what is not known."""

    where: str
    sectors: int
    files: tuple[str, ...] = ()
    note: str = ""

    def text(self) -> str:
        """Return what is said of them, without their names."""
        said = f"{self.where}: {counted(self.sectors, 'sector')} of it {'is' if self.sectors == 1 else 'are'} lost"
        return said + (f"; {self.note}" if self.note else "")


def within(lost: Sequence[Run], first: int, length: int) -> list[Run]:
    """Return the lost runs of sectors that lie in a part of a volume in bytes, each as its first byte there and the byte behind it."""
    parts = ((max(sector * SECTOR, first), min((sector + count) * SECTOR, first + length)) for sector, count in lost)
    return [(begin - first, end - first) for begin, end in parts if begin < end]


def blocks_of(runs: Sequence[Run], size: int) -> tuple[int, ...]:
    """Return the numbers of the blocks of so many bytes that runs of bytes touch."""
    return tuple(sorted({block for begin, end in runs for block in range(begin // size, -(-end // size))}))


def ext_block(head: bytes) -> int:
    """Return the bytes of a block of an ext, by its head."""
    code, = struct.unpack_from("<I", head, EXT_SUPER + 24)
    return int(KIB << min(code, 6))


def ntfs_block(_: bytes) -> int:
    """Return what ntfscluster counts in: sectors."""
    return SECTOR


def xfs_block(head: bytes) -> int:
    """Return the bytes of a block of an XFS, by its head."""
    size, = struct.unpack_from(">I", head, 4)
    return int(size) if SECTOR <= size <= 64 * KIB else SECTOR


def ext_files(commands: Runner, it: Asked, seconds: float) -> set[str] | None:
    """Return the files of an ext that have these blocks; None if its tool does not tell."""
    path = f"{it.path}?offset={it.first}" if it.first else it.path
    answer = commands.run(["debugfs", "-R", f"icheck {' '.join(map(str, it.blocks))}", path], seconds=seconds)
    if not answer.good or "Inode number" not in answer.out:
        return None
    inodes = sorted({int(match[2]) for match in map(ICHECK.fullmatch, answer.out.splitlines()) if match})
    inodes = [inode for inode in inodes if inode >= FIRST_INODE or inode == ROOT]
    if not inodes:
        return set()
    answer = commands.run(["debugfs", "-R", f"ncheck {' '.join(map(str, inodes))}", path], seconds=seconds)
    named = [(int(match[1]), match[2]) for match in map(NCHECK.fullmatch, answer.out.splitlines()) if match]
    unnamed = set(inodes) - {inode for inode, _ in named}
    return {name for _, name in named} | {f"inode {inode}, whose name is not found" for inode in unnamed}


def ntfs_files(commands: Runner, it: Asked, seconds: float) -> set[str] | None:
    """Return the files of an NTFS that have these sectors; None if its tool does not tell."""
    found: set[str] = set()
    for first, last in runs_of(it.blocks):
        answer = commands.run(["ntfscluster", "-f", "-s", f"{first}-{last}", it.path], seconds=seconds)
        if not answer.good:
            return None
        found |= {match[1] for match in map(NTFS_NAME.fullmatch, answer.out.splitlines()) if match}
    return found


def runs_of(blocks: Sequence[int]) -> list[tuple[int, int]]:
    """Return blocks in order as runs, each as its first and its last one."""
    found: list[tuple[int, int]] = []
    for block in blocks:
        if found and found[-1][1] == block - 1:
            found[-1] = found[-1][0], block
        else:
            found.append((block, block))
    return found


def xfs_files(commands: Runner, it: Asked, seconds: float) -> set[str] | None:
    """Return the files of an XFS that have these blocks; None if its tool does not tell."""
    asked = [word for block in it.blocks for word in ("-c", f"daddr {block * it.size // SECTOR}", "-c", "blockuse -n")]
    answer = commands.run(["xfs_db", "-r", "-f", "-c", "blockget -n", *asked, it.path], seconds=seconds)
    found = [match for match in map(XFS_NAME.fullmatch, answer.out.splitlines()) if match]
    return {f"/{match[2]}" for match in found if match[1] in ("data", "dir", "btbmapd") and match[2]} if found else None


# Of each kind of file system the bytes of a block, what tells the files, and whether that takes the byte at which it begins in a larger file.
TELLERS: dict[str, tuple[Callable[[bytes], int], Callable[[Runner, Asked, float], set[str] | None], bool]] = {
    **{kind: (ext_block, ext_files, True) for kind in ("ext2", "ext3", "ext4")},
    "ntfs": (ntfs_block, ntfs_files, False), "xfs": (xfs_block, xfs_files, False)}


def told(found: set[str] | None, blocks: int, kind: str) -> tuple[tuple[str, ...], str]:
    """Return the names in order, and what is said of how many they are."""
    if found is None:
        return (), f"the tools of {kind} do not report which files touch them"
    said = f"{counted(len(found), 'file')} {'touches' if len(found) == 1 else 'touch'} them; the other lost sectors are free or hold no file"
    return tuple(sorted(found)), said + (f" (of the first {MAX_BLOCKS} of {blocks} blocks)" if blocks > MAX_BLOCKS else "")
