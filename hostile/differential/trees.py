"""Tree blocks of btrfs, and where leaves of the tree of chunks tell that addresses lie. They are written from the "btrfs On-disk Format" (Header,
CHUNK_ITEM), with the limits that the definitions of the landmarks name.
"""

import struct
from typing import NamedTuple

from inodes import ALL_ONES, STRETCH, register_after
from texts import RANKS, SECTOR

NODE = 16384  # the bytes of a block that can tell
HEADER, KEYED = 101, 25
MOST_ITEMS = (65536 - HEADER) // KEYED
MOST_CHUNKS = (NODE - HEADER) // (KEYED + 80)
CHUNK_TREE, CHUNK_ITEM, DEVICE, DUP = 3, 228, 1, 4
WRITTEN, RELOC = 1, 2  # flags of a block


class TreeBlock(NamedTuple):
    """A tree block that counts."""
    identifier: bytes
    address: int
    generation: int
    is_leaf: bool  # of the tree of chunks


def tree_block(sector):
    """The tree block that counts and begins in a sector."""
    address, = struct.unpack_from("<Q", sector, 48)
    generation, owner, items, level = struct.unpack_from("<QQIB", sector, 80)
    if sector[64:72] == b"_BHRfS_M" or not any(sector[32:48]) or address == 0 or address % 4096 or sector[63] > 1:
        return None
    if int.from_bytes(sector[56:63], "little") not in (WRITTEN, WRITTEN | RELOC):
        return None
    is_leaf = owner == CHUNK_TREE and level == 0
    if level > 7 or items > MOST_ITEMS or (address % STRETCH and not is_leaf):
        return None
    return TreeBlock(sector[32:48], address, generation, is_leaf)


def is_whole(block):
    """The block's checksum is right."""
    return register_after(ALL_ONES, block[32:]) ^ ALL_ONES == struct.unpack_from("<I", block)[0]


class Chunk(NamedTuple):
    """A chunk on one device alone: its first address, how many it has, and where it lies, once or twice."""
    first: int
    size: int
    places: tuple

    def places_of(self, address):
        """Where an address lies, if it is one of the chunk's."""
        if not self.first <= address < self.first + self.size:
            return None
        return tuple(place + address - self.first for place in self.places)


def chunk(leaf, index):
    """The chunk of an item of a leaf."""
    key = HEADER + KEYED * index
    if key + KEYED > len(leaf) or leaf[100] or index >= struct.unpack_from("<I", leaf, 96)[0] or leaf[key + 8] != CHUNK_ITEM:
        return None
    logical, at = struct.unpack_from("<QI", leaf, key + 9)
    item = leaf[HEADER + at:]
    if len(item) < 80:
        return None
    size, = struct.unpack_from("<Q", item)
    profile, stripes = struct.unpack_from("<Q", item, 24)[0] // 8, struct.unpack_from("<H", item, 44)[0]
    if (profile, stripes) not in ((0, 1), (DUP, 2)) or len(item) < 48 + 32 * stripes:
        return None
    places = [struct.unpack_from("<QQ", item, 48 + 32 * k) for k in range(stripes)]
    if any(device != DEVICE or place + size >= RANKS for device, place in places) or logical + size >= RANKS:
        return None
    return Chunk(logical, size, tuple(place for _, place in places))


def chunks(leaf):
    """The chunks of a leaf, in order."""
    return [found for found in (chunk(leaf, index) for index in range(MOST_CHUNKS)) if found]


def told_by(leaf, address):
    """Where a leaf with these chunks tells that an address lies: the first of them that has it does."""
    return next((places for places in (found.places_of(address) for found in leaf) if places), None)


def told(leaves, address):
    """Where leaves, each with its generation and chunks, tell that an address lies: the latest that tell, if they agree."""
    tells = {generation: set() for generation, _ in leaves}
    for generation, leaf in leaves:
        places = told_by(leaf, address)
        if places:
            tells[generation].add(places)
    latest = max((generation for generation, places in tells.items() if places), default=None)
    places = tells.get(latest, set())
    found = next(iter(places)) if len(places) == 1 else None
    return found if found and all(place % SECTOR == 0 for place in found) else None


def rule(places):
    """The rule of a mark that lies at these bytes of the file system."""
    sectors = [str(place // SECTOR) for place in places]
    return ("at:" if len(sectors) == 1 else "either:") + ":".join(sectors)
