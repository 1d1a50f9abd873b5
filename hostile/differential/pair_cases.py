"""Cases of `survey` with inodes of ext4, and copies of superblocks with the descriptors behind them."""

import struct

from inode_cases import added_sectors, changed
from inodes import ALL_ONES, register_after
from making import Case, files_of, shuffled
from pairs import CSUM_SEED, FOLLOWING, INODE, META_BG, METADATA_CSUM, WIDE, covered
from texts import KINDS, SECTOR


def with_number(inode, number, seed):
    """The inode with the checksum of a number."""
    checksum = register_after(seed, struct.pack("<I", number) + covered(inode))
    return inode[:124] + struct.pack("<H", checksum & 0xFFFF) + inode[126:130] + struct.pack("<H", checksum >> 16) + inode[132:]


class PairMaker:
    """Inodes, copies and descriptors of one file system."""

    def __init__(self, rng):
        self.rng, self.identifier = rng, (b"pairs" + bytes([rng.randrange(3)])).ljust(16, b"\5")
        self.power, self.wide = rng.choice([0, 0, 1, 2, 2, 6]), rng.random() < 0.7
        self.size = 64 if self.wide else 32
        self.group_inodes = rng.choice([32, 64, 2048, 8192]) if rng.random() < 0.9 else rng.choice([8, 16, 40])
        self.inodes = self.group_inodes * rng.choice([1, 3, 8, 9, 17, 40]) - (rng.choice([1, 8]) if rng.random() < 0.1 else 0)
        self.seeded = rng.random() < 0.3
        self.seed = rng.randrange(2 ** 32) if self.seeded else register_after(ALL_ONES, self.identifier)

    def superblock(self):
        """Mostly a copy that tells."""
        rng, block = self.rng, bytearray(1024)
        incompatible = (WIDE if self.wide else 0) | (CSUM_SEED if self.seeded else 0) | (META_BG if rng.random() < 0.03 else 0) | 0x42
        struct.pack_into("<I", block, 0, self.inodes)
        struct.pack_into("<II4xI4xI", block, 20, int(self.power == 0), self.power, 8192, self.group_inodes)
        struct.pack_into("<H", block, 56, 0xEF53)
        struct.pack_into("<I8xHH4xII", block, 76, 1, INODE if rng.random() < 0.97 else 128, rng.choice([1, 3]) if rng.random() < 0.97 else 0,
                         incompatible, METADATA_CSUM if rng.random() < 0.97 else 0x10)
        block[104:120] = self.identifier
        struct.pack_into("<H", block, 254, self.size if rng.random() < 0.97 else 128)
        block[373] = 1 if rng.random() < 0.97 else 2
        struct.pack_into("<I", block, 624, self.seed if self.seeded else rng.randrange(2 ** 32))
        struct.pack_into("<I", block, 1020, register_after(ALL_ONES, bytes(block[:1020])))
        return bytes(block)

    def descriptor(self, group):
        """Mostly the descriptor of a group."""
        rng = self.rng
        table = 100 + 50 * group if rng.random() < 0.95 else rng.choice([0, 2 ** 32 - 1, 2 ** 47 - 1, 2 ** 47])
        block = bytearray(rng.randbytes(self.size))
        struct.pack_into("<I", block, 8, table % 2 ** 32)
        if self.wide:
            struct.pack_into("<I", block, 40, table >> 32)
        named = group if rng.random() < 0.99 else group + 1
        struct.pack_into("<H", block, 30, register_after(self.seed, struct.pack("<I", named) + block[:30] + bytes(2) + block[32:]) & 0xFFFF)
        return bytes(block)

    def copy(self):
        """A copy with the descriptors of all groups, and more, behind it."""
        groups = -(-self.inodes // self.group_inodes)
        table = b"".join(self.descriptor(group) for group in range(groups))
        return self.superblock().ljust(1024 << self.power, b"\0") + table.ljust(-(-len(table) // SECTOR) * SECTOR, b"\0")

    def number(self):
        """Mostly a number before one that is a multiple of 32."""
        rng = self.rng
        number = rng.randrange(self.inodes + 64) // 32 * 32 + 31
        return number if rng.random() < 0.9 else rng.choice([1, 15, 33, number + 16, (self.inodes - 1) % 2 ** 32, self.inodes, 2 ** 31 - 1, 2 ** 32 - 2])

    def pair(self):
        """Mostly two inodes with numbers that follow each other."""
        rng, number = self.rng, self.number()
        following = number + 1 if rng.random() < 0.95 else rng.choice([number, number + 2, number ^ 63])
        inodes = b""
        for it in (number, following % 2 ** 32):
            inode = bytearray(rng.randbytes(INODE))
            struct.pack_into("<H", inode, 128, rng.choice([4, 28, 32, 128]) if rng.random() < 0.97 else rng.choice([0, 3, 6, 132]))
            inodes += with_number(bytes(inode), it, self.seed)
        return inodes


def pairs_survey(rng, operands):
    """Images with such inodes, and copies of their file systems and of others, some cut off or written over."""
    makers = [PairMaker(rng) for _ in range(rng.choice([1, 1, 2]))]
    images = [bytearray(rng.choice([300, 330, 400]) * SECTOR) for _ in range(rng.choice([1, 1, 2]))]
    blocks = [rng.choice(makers).pair() for _ in range(rng.choice([1, 5, 10, 20]))]
    blocks += [added_sectors(rng.sample(blocks, 3))] if len(blocks) > 4 and rng.random() < 0.5 else []
    copies = [rng.choice(makers).copy() for _ in range(rng.choice([0, 1, 1, 1, 2, 3]))]
    for copy in copies:
        image = rng.choice(images)
        last = (len(image) - FOLLOWING) // SECTOR
        sector = rng.randrange(last + 1) if rng.random() < 0.9 else last + rng.choice([1, 2, 40])
        copy = changed(rng, copy, 0.1)
        image[sector * SECTOR:sector * SECTOR + len(copy)] = copy[:len(image) - sector * SECTOR]
    for block in blocks:
        image = rng.choice(images)
        sector = rng.randrange(len(image) // SECTOR)
        if any(image[sector * SECTOR:(sector + 1) * SECTOR]) and rng.random() < 0.8:
            continue
        image[sector * SECTOR:(sector + 1) * SECTOR] = changed(rng, block, 0.04)
    kinds = rng.choice(["kinds=extinode"] * 3 + ["kinds=ext,extinode", "kinds=extinode,xfs5,btrfstree", "kinds=" + ",".join(KINDS), "kinds=ext"])
    files = files_of([bytes(image) for image in images])
    return Case(["survey", *shuffled(rng, [kinds, *(word for word in operands(rng, images) if not word.startswith("kinds="))]), "--", *files], b"",
                files)
