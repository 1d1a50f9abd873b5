"""Cases of `survey` with sectors that say where they lie on their file system: inodes of XFS."""

import struct

from inodes import ALL_ONES, register_after
from making import EDGES, Case, files_of, shuffled
from texts import RANKS, SECTOR


def added_sectors(sectors):
    """The sum of some sectors, as P has it."""
    total = 0
    for sector in sectors:
        total ^= int.from_bytes(sector, "little")
    return total.to_bytes(SECTOR, "little")


def changed(rng, block, share):
    """The block, sometimes with a bit turned."""
    if rng.random() >= share:
        return block
    at = rng.randrange(len(block))
    return block[:at] + bytes([block[at] ^ 1 << rng.randrange(8)]) + block[at + 1:]


class XfsMaker:
    """Superblocks and inodes of a few file systems of XFS, of which some have an identifier of their own for inodes."""

    def __init__(self, rng):
        self.rng, self.identifiers = rng, rng.choice([1, 1, 2, 3])
        self.size, self.bits, self.block_bits, self.group_blocks, self.groups = 512, 3, 5, 17, 4
        if rng.random() < 0.5:
            self.size = rng.choice([512, 512, 1024, 1024, 2048, 2048, 256])
            self.bits = rng.choice([3, 3, 0, 1, 7])
            self.block_bits = rng.choice([5, 10, 15, 31, 32])
            self.group_blocks = rng.choice([17, 32, 2 ** min(self.block_bits, 31), 2 ** min(self.block_bits, 31) + 1, 1])
            self.groups = rng.choice([4, 1, 2 ** 16, 2 ** 17, 2 ** 32 - 1])

    def identifier(self):
        return (b"inodes" + bytes([self.rng.randrange(self.identifiers)])).ljust(16, b"\3")

    def superblock(self):
        """Mostly a superblock of version 5 with these numbers."""
        rng, block = self.rng, bytearray(SECTOR)
        identifier, own = self.identifier(), rng.random() < 0.3
        size = self.size if rng.random() < 0.85 else rng.choice([512, 1024, 1024, 0])
        bits = self.bits if rng.random() < 0.95 else rng.choice([0, 2, 3, 8])
        # the fields of the first bytes, and those of version 5 from 208 on
        struct.pack_into(">4sI", block, 0, b"XFSB", max(512, size) << bits if rng.random() < 0.97 else 4096)
        block[32:48] = b"\5" * 15 + bytes([rng.choice([5, 5, 6])]) if own else identifier
        group_blocks = self.group_blocks if rng.random() < 0.85 else max(1, self.group_blocks - rng.choice([1, 2]))
        struct.pack_into(">II", block, 84, group_blocks, self.groups if rng.random() < 0.9 else rng.choice([0, 1, 3]))
        unit = 512 if rng.random() < 0.85 else rng.choice([1024, 4096])
        struct.pack_into(">HHH", block, 100, rng.choice([0xB4A5] * 15 + [0xB4A4, 5, 0xB4B5]), unit, size)
        block[123], block[124] = bits, self.block_bits
        struct.pack_into(">I", block, 216, rng.choice([3, 3, 0xB]) | 4 * own)
        block[248:264] = identifier if own else rng.choice([bytes(16), identifier, self.identifier()])
        return with_checksum(bytes(block), 224) if rng.random() < 0.93 else bytes(block)

    def number(self):
        """Mostly the number of an inode that has a place and counts, or one beside it."""
        rng = self.rng
        if rng.random() < 0.05:
            return rng.choice([edge for edge in EDGES if edge < RANKS])
        group, block = rng.choice([0, 0, 1, 2, 3, self.groups - 1, self.groups]), rng.randrange(max(1, self.group_blocks))
        if rng.random() < 0.15:
            block = rng.choice([self.group_blocks - 1, self.group_blocks, 2 ** self.block_bits - 1])
        number = ((group << self.block_bits) + block) << self.bits
        stretch = 65536 // self.size
        return (number // stretch * stretch if rng.random() < 0.85 else number + rng.choice([0, 1, 16, 32, 64])) % RANKS

    def inode(self):
        """Mostly an inode; sometimes it has what others have at their places, or another size."""
        rng, size = self.rng, max(SECTOR, self.size)
        size = size if rng.random() < 0.9 else rng.choice([512, 1024, 1536, 2048])
        block = bytearray(SECTOR) + rng.randbytes(size - SECTOR)
        block[:2], block[4] = b"IN" if rng.random() < 0.98 else b"IO", rng.choice([3] * 30 + [2])
        block[176:180] = rng.randbytes(4)
        if rng.random() < 0.05:
            struct.pack_into("<Q8xQ", block, 48, rng.choice([65536, 65537]), int.from_bytes(b"_BHRfS_M", "little"))
        elif rng.random() < 0.05:
            struct.pack_into("<HII", block, 20, 0, 0, 0)
            struct.pack_into("<I20xH18xI10xH", block, 32, 32, 0xEF53, 1, rng.choice([0, 1, 3]))
        struct.pack_into(">Q", block, 152, self.number())
        block[160:176] = self.identifier() if rng.random() < 0.9 else b"\5" * 16
        return with_checksum(bytes(block), 100)


def with_checksum(block, at):
    """The block with its checksum at a place, of all of it with zeros there."""
    whole = block[:at] + bytes(4) + block[at + 4:]
    return whole[:at] + struct.pack("<I", register_after(ALL_ONES, whole) ^ ALL_ONES) + whole[at + 4:]


def xfs_sectors(rng):
    """Sectors of file systems of XFS."""
    maker = XfsMaker(rng)
    made = [maker.superblock() for _ in range(rng.choice([0, 1, 1, 1, 1, 2, 3, 4, 6]))] + [maker.inode() for _ in range(rng.choice([1, 5, 10]))]
    made += [added_sectors([block[:SECTOR] for block in rng.sample(made, 3)])] if len(made) > 4 and rng.random() < 0.5 else []
    made += [added_sectors([maker.inode()[:SECTOR] for _ in range(3)])] if rng.random() < 0.5 else []
    return [changed(rng, block, 0.04) for block in made]


def put_inodes(rng, made, images):
    """Puts sectors and inodes anywhere into images of 64 sectors. Larger ones may overwrite each other, lie at an image's end, where their last
    sectors may be cut off, or have these on the next image."""
    for block, place in zip(made, rng.sample(range(64 * len(images)), len(made))):
        image, sector = divmod(place, 64)
        if len(block) > SECTOR and rng.random() < 0.1:
            sector = rng.choice([60, 61, 62, 63])
        for at in range(0, len(block), SECTOR):
            image = (image + 1) % len(images) if at == SECTOR and rng.random() < 0.05 else image
            if sector + at // SECTOR < 64:
                images[image][sector * SECTOR + at:(sector + 1) * SECTOR + at] = block[at:at + SECTOR]


def inodes_survey(rng, operands):
    """Images with such sectors, in any order."""
    made, images = xfs_sectors(rng), [bytearray(64 * SECTOR) for _ in range(rng.choice([1, 2, 3]))]
    put_inodes(rng, made, images)
    kinds = rng.choice(["kinds=xfs5", "kinds=xfs5", "kinds=xfs,xfs5", "kinds=gpt,ntfs,xfs,btrfs,lvm,ext,xfs5", "kinds=xfs", "kinds=btrfs,ext,xfs5"])
    files = files_of([bytes(image) for image in images])
    return Case(["survey", *shuffled(rng, [kinds, *(word for word in operands(rng, images) if not word.startswith("kinds="))]), "--", *files], b"",
                files)


def crowded_inodes(rng):
    """About as many inodes as count, some of which lie nowhere or are of no file system that is told."""
    maker = XfsMaker(rng)
    maker.size = rng.choice([512, 512, 1024])
    maker.bits, maker.groups, maker.block_bits, maker.group_blocks = {512: 3, 1024: 2}[maker.size], 4, 10, 17
    block, other = (with_checksum(numbered(number, b"inodes\0".ljust(16, b"\3"), maker.size), 100) for number in (16 << maker.bits, 127 * 128))
    count = rng.choice([2045, 2046, 2047, 2048])
    if rng.random() < 0.3:
        # superblocks of version 4, which tell nothing of inodes, do not count
        plain = bytearray(maker.superblock())
        struct.pack_into(">H", plain, 100, 0xB4A4)
        files = files_of([bytes(plain) * 2050 + maker.superblock() + block, bytes(plain) * (count + 3) + other])
        return Case(["survey", rng.choice(["kinds=xfs5", "kinds=xfs,xfs5"]), "--", *files], b"", files)
    images = [maker.superblock() + block * 2047 + other + block * 3, other + block * count + maker.superblock() + block]
    files = files_of(images)
    return Case(["survey", "kinds=xfs5", *rng.choice([[], ["drop=0:1,1:3"], ["offsets=1"], ["end=2049"]]), "--", *files], b"", files)


def numbered(number, identifier, size):
    """An inode of this number, but for its checksum."""
    block = bytearray(size)
    block[:2], block[4], block[160:176] = b"IN", 3, identifier
    struct.pack_into(">Q", block, 152, number)
    return bytes(block)
