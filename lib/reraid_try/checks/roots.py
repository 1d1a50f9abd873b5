"""What tells that a file system does not begin where it seems to, or that its volume is another one, before a checker is asked: copies of its
superblock, and its root. A checker reads a wrong volume for hours where that is large, as it looks for the copies everywhere."""

import struct
from collections.abc import Callable

from . import extfiles, xfsfiles
from .mapped import Read, picked

# So many copies are looked at.
MAX_COPIES = 16
EXT_MAGIC_PLACE, EXT_IDENTIFIER, EXT_ROOT, FOLDER = 56, slice(104, 120), 2, 0x4000
SPARSE_COPIES = (1, *sorted(base ** power for base in (3, 5, 7) for power in range(1, 12)))
# The feature by which copies stand elsewhere.
TWO_COPIES = 0x200


def xfs(read: Read, first: int, there: int) -> str:
    """Return what speaks against an XFS at a byte of which so many bytes are there; nothing where its copies and its root are in their places."""
    it = xfsfiles.shape(read, first)
    if it is None:
        return "it has no valid superblock"
    inside = [group for group in range(1, it.groups) if it.group(group) + it.block - first <= there]
    asked = [inside[number] for number in picked(len(inside), MAX_COPIES)]
    good = sum((head := read(it.group(group), 48))[:4] == b"XFSB" and head[32:48] == it.identifier for group in asked)
    if 2 * good < len(asked):
        return f"{len(asked) - good} of {len(asked)} copies of its superblock are not in their places"
    group, number = it.root >> it.block_bits + it.inode_bits, it.root & (1 << it.block_bits + it.inode_bits) - 1
    root = read(it.inode_place(group, number), 176) if group < it.groups else b""
    if root[:2] != b"IN" or it.is_fifth and root[152:160] != struct.pack(">Q", it.root):
        return "its root is not in its place"
    return ""


def ext(read: Read, first: int, there: int) -> str:
    """Return what speaks against an ext at a byte of which so many bytes are there; nothing where its copies and its root are in their places."""
    head = read(first + extfiles.SUPER, extfiles.SUPER_BYTES)
    tables = extfiles.Tables(read, first)
    if not tables.good:
        return ""
    per_group, = struct.unpack_from("<I", head, 32)
    if not struct.unpack_from("<I", head, 92)[0] & TWO_COPIES:
        places = [(tables.start + group * per_group) * tables.block for group in SPARSE_COPIES if group < tables.groups]
        asked = [place for place in places if place + extfiles.SUPER_BYTES <= there][:MAX_COPIES]
        copies = [read(first + place, extfiles.SUPER_BYTES) for place in asked]
        good = sum(it[EXT_MAGIC_PLACE:58] == b"\x53\xef" and it[EXT_IDENTIFIER] == head[EXT_IDENTIFIER] for it in copies)
        if 2 * good < len(asked):
            return f"{len(asked) - good} of {len(asked)} copies of its superblock are not in their places"
    root = tables.inode(EXT_ROOT)
    if len(root) >= 2 and struct.unpack_from("<H", root, 0)[0] & extfiles.KINDS != FOLDER:
        return "its root is not in its place"
    return ""


SYSTEMS: dict[str, Callable[[Read, int, int], str]] = {"xfs": xfs, "ext2": ext, "ext3": ext, "ext4": ext}


def fault(kind: str, read: Read, first: int, there: int) -> str:
    """Return what speaks against a file system of a kind that begins at a byte, of which so many bytes are there; nothing where nothing does."""
    return SYSTEMS[kind](read, first, there) if kind in SYSTEMS else ""
