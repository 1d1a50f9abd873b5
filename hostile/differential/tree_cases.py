"""Cases of `survey` with tree blocks of btrfs, some of them leaves that tell where the addresses of others lie."""

import struct

from inode_cases import added_sectors, changed
from inodes import ALL_ONES, register_after
from making import EDGES, Case, files_of, shuffled
from texts import RANKS, SECTOR
from trees import CHUNK_ITEM, CHUNK_TREE, HEADER, KEYED, NODE, STRETCH, chunks, is_whole, told_by, tree_block

LEAF = NODE // SECTOR  # the sectors of a leaf


def with_checksum(block):
    """The block with its checksum, of all but its first 32 bytes."""
    return struct.pack("<I", register_after(ALL_ONES, block[32:]) ^ ALL_ONES) + block[4:]


class TreeMaker:
    """Tree blocks and leaves of a few file systems, with chunks of some stretches of 64 KiB each."""

    def __init__(self, rng):
        self.rng, self.identifiers = rng, rng.choice([1, 1, 2, 3])
        self.chunks = [(16 * STRETCH * k, rng.choice([4, 8, 16]) * STRETCH) for k in range(1, rng.choice([2, 3, 5]))]
        if rng.random() < 0.2:
            # what overlaps, ends at a limit or begins within a sector
            self.chunks.append(rng.choice([(16 * STRETCH, 64 * STRETCH), (RANKS - STRETCH, STRETCH), (RANKS - 2 * STRETCH, STRETCH),
                                           (16 * STRETCH - 100, 16 * STRETCH), (0, RANKS - 1)]))

    def identifier(self):
        rng = self.rng
        return (b"trees" + bytes([rng.randrange(self.identifiers)])).ljust(16, b"\3") if rng.random() < 0.98 else bytes(16)

    def address(self):
        """Mostly an address of a chunk that begins 64 KiB, or one beside it."""
        rng = self.rng
        if rng.random() < 0.05:
            return rng.choice([edge for edge in EDGES if edge < RANKS])
        first, size = rng.choice(self.chunks)
        address = first // STRETCH * STRETCH + rng.choice([0, 0, 1, 2, 3, size // STRETCH - 1, size // STRETCH, -1]) * STRETCH
        return (address + (0 if rng.random() < 0.9 else rng.choice([NODE, 4096, 512, 1]))) % RANKS

    def header(self, address, owner, items, level):
        """The header of a tree block."""
        rng = self.rng
        revision = rng.choice([0, 1, 1, 1, 1, 1, 1, 1, 1, 1]) if rng.random() < 0.98 else rng.choice([2, 255])
        flags = rng.choice([1, 1, 3]) if rng.random() < 0.96 else rng.choice([0, 2, 5, 257, 2 ** 55 | 1])
        head = rng.randbytes(32) + self.identifier() + struct.pack("<QQ", address, revision << 56 | flags)
        head += rng.randbytes(16) + struct.pack("<QQIB", rng.choice([5, 6, 6, 7, RANKS - 1]), owner, items, level)
        return head if rng.random() < 0.98 else head[:64] + b"_BHRfS_M" + head[72:]

    def block(self):
        """Mostly the first sector of a tree block that counts."""
        rng = self.rng
        items = rng.choice([0, 1, 100, 651]) if rng.random() < 0.95 else rng.choice([2617, 2618, 2 ** 32 - 1])
        level = rng.choice([0, 0, 1, 7]) if rng.random() < 0.95 else rng.choice([8, 255])
        head = self.header(self.address(), rng.choice([1, 2, 3, 5, 5, 7, RANKS - 1]), items, level)
        return (head + rng.randbytes(rng.choice([0, 1, SECTOR - HEADER]))).ljust(SECTOR, b"\0")

    def item(self, size):
        """Mostly the item of a chunk that lies on the first device alone, with so many addresses."""
        rng = self.rng
        profile, stripes = rng.choice([(0, 1), (0, 1), (0, 1), (4, 2), (4, 2)]) if rng.random() < 0.93 else rng.choice([(2, 2), (1, 1), (0, 2), (4, 1)])
        item = struct.pack("<QQQQIIIHH", size, 2, STRETCH, profile << 3 | rng.choice([1, 2, 4, 5]), STRETCH, STRETCH, 4096, stripes, 1)
        for _ in range(stripes):
            place = rng.choice([1, 2, 3, 40]) * STRETCH * 16
            if rng.random() < 0.06:
                place = rng.choice([1, 513, RANKS - size, RANKS - size - 1, 2 ** 63]) % RANKS
            item += struct.pack("<QQ", 1 if rng.random() < 0.97 else 2, place) + rng.randbytes(16)
        return item

    def leaf(self):
        """Mostly a leaf of the tree of chunks that tells where some of the chunks lie."""
        rng, chunks = self.rng, [chunk for chunk in self.chunks if self.rng.random() < 0.85]
        if rng.random() < 0.1:
            chunks *= rng.choice([2, 40, 60])
        rng.shuffle(chunks)
        keys, body = b"", b""
        for first, size in chunks:
            item = self.item(size)
            if len(keys) + KEYED + len(body) + len(item) > NODE - HEADER:
                break
            body = item + body
            kind = CHUNK_ITEM if rng.random() < 0.95 else rng.choice([216, 227])
            keys += struct.pack("<QBQII", 256, kind, first, NODE - HEADER - len(body) if rng.random() < 0.97 else rng.choice([NODE, RANKS >> 33]),
                                len(item))
        count = len(keys) // KEYED
        count = count if rng.random() < 0.93 else rng.choice([0, max(0, count - 1), count + 1, 651])
        head = self.header(self.address(), CHUNK_TREE if rng.random() < 0.97 else 1, count, 0 if rng.random() < 0.97 else 1)
        block = with_checksum(head + keys + bytes(NODE - HEADER - len(keys) - len(body)) + body)
        return block if rng.random() < 0.95 else changed(rng, block, 1)


def trees_survey(rng, operands):
    """Images with such blocks; a leaf may be cut off by the end of its image, or by what was written over it."""
    maker, images = TreeMaker(rng), [bytearray(rng.choice([100, 130, 200]) * SECTOR) for _ in range(rng.choice([1, 2, 3]))]
    leaves = [maker.leaf() for _ in range(rng.choice([0, 1, 1, 1, 2, 3]))]
    leaves += [added(rng.sample(leaves, 3))] if len(leaves) > 2 else []
    blocks = [maker.block() for _ in range(rng.choice([1, 5, 10, 20]))]
    blocks += [added_sectors(rng.sample(blocks, 3))] if len(blocks) > 4 and rng.random() < 0.5 else []
    free = [(image, sector) for image in images for sector in range(len(image) // SECTOR)]
    for block in leaves + [changed(rng, block, 0.04) for block in blocks]:
        image, sector = rng.choice(free)
        if len(block) > SECTOR and rng.random() < 0.9:
            sector = min(sector, len(image) // SECTOR - LEAF)
        image[sector * SECTOR:sector * SECTOR + len(block)] = block[:len(image) - sector * SECTOR]
        if rng.random() < 0.9 and len(free) > LEAF:
            free = [it for it in free if it[0] is not image or not sector <= it[1] < sector + len(block) // SECTOR]
    kinds = rng.choice(["kinds=btrfstree"] * 3 + ["kinds=xfs5,btrfstree", "kinds=gpt,ntfs,xfs,btrfs,lvm,ext,xfs5,btrfstree", "kinds=btrfs"])
    if rng.random() < 0.05:
        images[-1] += bytes(rng.choice([1, 511]))
    files = files_of([bytes(image) for image in images])
    return Case(["survey", *shuffled(rng, [kinds, *(word for word in operands(rng, images) if not word.startswith("kinds="))]), "--", *files], b"",
                files)


def added(blocks):
    """The sum of some leaves, as P has it: of three it is whole again."""
    total = 0
    for block in blocks:
        total ^= int.from_bytes(block, "little")
    return total.to_bytes(NODE, "little")


def crowded_trees(rng):
    """About as many tree blocks as count, before or behind the leaf that tells of them."""
    maker = TreeMaker(rng)
    maker.identifiers, maker.chunks = 1, [(16 * STRETCH, 16 * STRETCH)]
    leaf = next(it for it in iter(maker.leaf, None) if tree_block(it) and is_whole(it) and chunks(it))
    block = next(it for it in iter(maker.block, None) if tree_block(it) and told_by(chunks(leaf), tree_block(it).address))
    count = rng.choice([2045, 2046, 2047, 2048])
    files = files_of(rng.choice([[leaf + block * 2047, block * count + leaf], [block * 2047 + leaf + block * 3, block * count + leaf]]))
    return Case(["survey", "kinds=btrfstree", *rng.choice([[], ["drop=0:1,1:3"], ["offsets=1"], ["end=2049"]]), "--", *files], b"", files)
