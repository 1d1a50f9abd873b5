"""File systems, containers and encrypted volumes, each a row: its checker, how it is mounted, and how long it says that it is."""

import dataclasses
import re
import struct
from collections.abc import Callable

from ..evidence import bcache
from ..units import KIB, SECTOR

# So many bytes of the head of a file system have its length.
LENGTH_BYTES = 128 * KIB
EXT_SUPER, BTRFS_SUPER, JFS_SUPER, REISERFS_SUPER = 1024, 64 * KIB, 32 * KIB, 64 * KIB
# Where a superblock of JFS has the extents of its log and of the room of its checker.
JFS_BEHIND = (72, 80)
EXT_64BIT = 0x80
# What fsck.fat says of a FAT that was only not unmounted: the flag for that, the count of free clusters, the copy of the first sector, and clusters
# that belong to no file.
FAT_MINOR = re.compile(r"""fsck\.fat\ .*|There\ are\ differences\ between\ boot\ sector\ and\ its\ backup.*|This\ is\ mostly\ harmless.*
    |\s*\d+:[0-9a-f]{2}/[0-9a-f]{2}.*|\s*Not\ automatically\ fixing\ this.*|Dirty\ bit\ is\ set.*|\s*Automatically\ removing\ dirty\ bit.*
    |Free\ cluster\ summary\ .*|\s*Auto-(?:correcting|setting).*|Reclaimed\ \d+\ unused\ cluster.*|Leaving\ filesystem\ unchanged.*
    |.*:\ \d+\ files,\ \d+/\d+\ clusters|\s*""", re.VERBOSE)
# A checker whose faults are longer than so many bytes is ended: fsck.fat does not come to its end in a wrong volume.
MAX_FAULTS = 64 * KIB


def ext_length(head: bytes) -> int:
    """The bytes of an ext: its blocks, with the higher half of their number where it has one."""
    blocks, = struct.unpack_from("<I", head, EXT_SUPER + 4)
    code, = struct.unpack_from("<I", head, EXT_SUPER + 24)
    incompatible, = struct.unpack_from("<I", head, EXT_SUPER + 96)
    if incompatible & EXT_64BIT:
        blocks += struct.unpack_from("<I", head, EXT_SUPER + 336)[0] << 32
    return int(blocks * (KIB << min(code, 16)))


def xfs_length(head: bytes) -> int:
    """The bytes of an XFS."""
    size, blocks = struct.unpack_from(">IQ", head, 4)
    return int(size * blocks)


def ntfs_length(head: bytes) -> int:
    """The bytes of an NTFS: its sectors, and the copy of its boot sector behind them."""
    return int((struct.unpack_from("<Q", head, 40)[0] + 1) * SECTOR)


def btrfs_length(head: bytes) -> int:
    """The bytes of a btrfs of one device: those of this device."""
    return int(struct.unpack_from("<Q", head, BTRFS_SUPER + 0xC9 + 8)[0])


def fat_length(head: bytes) -> int:
    """The bytes of a FAT."""
    size, = struct.unpack_from("<H", head, 11)
    small, = struct.unpack_from("<H", head, 19)
    large, = struct.unpack_from("<I", head, 32)
    return int(size * (small or large))


def exfat_length(head: bytes) -> int:
    """The bytes of an exFAT."""
    sectors, = struct.unpack_from("<Q", head, 72)
    return int(sectors << min(head[108], 12))


def reiserfs_length(head: bytes) -> int:
    """The bytes of a ReiserFS: its blocks."""
    blocks, = struct.unpack_from("<I", head, REISERFS_SUPER)
    size, = struct.unpack_from("<H", head, REISERFS_SUPER + 44)
    return int(blocks * size)


def jfs_length(head: bytes) -> int:
    """The bytes of a JFS: its blocks of the device, and behind them the room of its checker and its log, by the lists of blocks that name these."""
    count, = struct.unpack_from("<Q", head, JFS_SUPER + 8)
    block, = struct.unpack_from("<I", head, JFS_SUPER + 16)
    sector, = struct.unpack_from("<I", head, JFS_SUPER + 24)
    return max([int(count * sector), *(extent_end(head[JFS_SUPER + place:JFS_SUPER + place + 8], block) for place in JFS_BEHIND)])


def extent_end(extent: bytes, block: int) -> int:
    """The byte behind an extent of a JFS: 24 bits say how many blocks it has, and 40 bits which is the first."""
    length, high, low = int.from_bytes(extent[:3], "little"), extent[3], int.from_bytes(extent[4:], "little")
    return ((high << 32) + low + length) * block


def bcache_data(head: bytes) -> int:
    """The byte of what bcache caches at which its contents begin; 0 where that is not told."""
    return (bcache.data_of(head[bcache.PLACE * SECTOR:(bcache.PLACE + 1) * SECTOR]) or 0) * SECTOR


@dataclasses.dataclass(frozen=True)
class System:
    """A kind of volume as `blkid` calls it. `tool` is its checker and `words` what it is given behind its name, before the path; `at` says that it
    takes the byte at which the volume begins in the path; `exact` that it may see no more bytes than the volume has; `sums` that it reads all data
    by their sums; `ends` that its last sector is a copy of its first. `mount` has the options with which nothing is written; `opened` the command
    that opens what is encrypted; `holds` says that it has volumes inside; `scattered` that a long file is in several pieces, between which the
    blocks lie that list them; `shallow` that its checker reads little of it; `writes` that its checker writes, so that it gets a copy of its own;
    `through` is what the checker prints once it has read all of it, with errors or without: then it may only not have been unmounted, as where all
    lines that it prints are `minor`; `length` is how many bytes it says that it has, by its head, 0 where that is not told; `within` at which of its
    bytes what it holds begins, 0 where that is not told or nothing is held so."""

    kind: str
    tool: str | None = None
    words: tuple[str, ...] = ()
    mount: str | None = None
    opened: tuple[str, ...] = ()
    at: bool = False
    exact: bool = False
    sums: bool = False
    ends: bool = False
    holds: bool = False
    scattered: bool = False
    shallow: bool = False
    writes: bool = False
    through: str = ""
    minor: re.Pattern[str] | None = None
    length: Callable[[bytes], int] | None = None
    within: Callable[[bytes], int] | None = None

    def command(self, path: str, first: int = 0) -> list[str]:
        """Its checker, over a file; it changes nothing."""
        if self.tool is None:
            raise ValueError(f"{self.kind} has no checker")
        return [self.tool, *self.words, f"{path}?offset={first}" if self.at and first else path]

    def pipeline(self, path: str, first: int = 0) -> list[list[str]]:
        """Its checker, over a file, which is ended once its faults are too long."""
        return [self.command(path, first), *([["head", "-c", str(MAX_FAULTS)]] if self.minor else [])]

    def is_minor(self, text: str) -> bool:
        """What its checker prints says only that it was not unmounted, or that all of it was read."""
        return bool(self.through) and self.through in text or self.minor is not None and all(map(self.minor.fullmatch, text.splitlines()))

    def length_of(self, head: bytes) -> int:
        """How many bytes it says that it has, by its head; 0 where that is not told."""
        if self.length is None:
            return 0
        try:
            return self.length(head)
        except struct.error:
            return 0


E2FSCK = ("e2fsck", ("-fn",))
SYSTEMS = {it.kind: it for it in (
    System("ext2", *E2FSCK, mount="ro", at=True, scattered=True, length=ext_length),
    System("ext3", *E2FSCK, mount="ro,noload", at=True, scattered=True, length=ext_length),
    System("ext4", *E2FSCK, mount="ro,noload", at=True, length=ext_length),
    System("xfs", "xfs_repair", ("-n", "-f"), mount="ro,norecovery", length=xfs_length),
    System("ntfs", "ntfsfix", ("-n",), mount="ro", exact=True, ends=True, shallow=True, length=ntfs_length),
    System("btrfs", "btrfs", ("check", "--readonly", "--check-data-csum"), mount="ro", sums=True, length=btrfs_length),
    System("jfs", "fsck.jfs", ("-n",), mount="ro", through="kilobytes are available for use", length=jfs_length),
    System("reiserfs", "fsck.reiserfs", ("--check", "--yes", "--quiet"), mount="ro", writes=True, length=reiserfs_length),
    System("f2fs", mount="ro"),
    System("vfat", "fsck.fat", ("-n",), mount="ro", shallow=True, minor=FAT_MINOR, length=fat_length),
    System("exfat", "fsck.exfat", ("-n",), mount="ro", shallow=True, length=exfat_length),
    System("LVM2_member", "pvck", ("--dump", "metadata"), holds=True),
    System(bcache.KIND, holds=True, within=bcache_data),
    System("crypto_LUKS", opened=("cryptsetup", "open", "--readonly")),
    System("BitLocker", opened=("cryptsetup", "open", "--readonly", "--type", "bitlk")),
)}
TOOLS = tuple(sorted({it.tool for it in SYSTEMS.values() if it.tool}))
NOTHING = System("")


def system_of(kind: str) -> System:
    """The row of a kind; one that has nothing where it is not known."""
    return SYSTEMS.get(kind, NOTHING)
