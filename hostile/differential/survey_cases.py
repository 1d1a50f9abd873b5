"""Cases of `survey`: images with landmarks."""

import struct
import zlib

from inode_cases import XfsMaker, crowded_inodes, inodes_survey
from landmarks import BTRFS_PLACES
from making import EDGES, Case, files_of, shuffled, some_bytes
from mft_cases import MftMaker, crowded_records, mft_survey
from pair_cases import PairMaker, pairs_survey
from texts import FAR, KINDS, MOST, MOVED, RANKS, SECTOR
from tree_cases import TreeMaker, crowded_trees, trees_survey


def near(rng, usual):
    """Mostly a usual number, else one at a limit."""
    return rng.choice(usual) if rng.random() < 0.85 else rng.choice([n for n in EDGES if n < RANKS])


def gpt_sector(rng, sector, length):
    size = rng.choice([92, 92, 92, 512, 100, 91, 513])
    last, unit = max(0, length - 1), rng.choice([1, 1, 8])
    own = near(rng, [1, 1, sector // unit, sector // unit, last // unit]) if rng.random() < 0.97 else FAR // 8 + rng.choice([-1, 0, 1])
    other = near(rng, [1, last // unit, max(0, length // unit - 1), 100, 127])
    if rng.random() < 0.2:
        # its own table, if it stands where that does
        own, other = rng.choice([(1, max(0, length // unit - 1)), (max(0, length // unit - 1), 1)])
    entries = rng.choice([own + 1, own + 1, own + 1, 2, own]) % RANKS
    block = bytearray(struct.pack("<8sIIIIQQQQ16sQIII", b"EFI PART", rng.choice([0x10000, 0]), size, 0, 0, own, other, 34, 99,
                                  rng.randbytes(16), entries, rng.choice([0, 4, 128]), rng.choice([128, 128, 128, 256]), 0))
    block = block.ljust(SECTOR, b"\0")
    block[100:110] = rng.randbytes(10)
    struct.pack_into("<I", block, 16, zlib.crc32(block[:min(size, SECTOR)]) ^ (1 if rng.random() < 0.05 else 0))
    return bytes(block)


def entries_sector(rng):
    block = b""
    for _ in range(4):
        kind = rng.choice([bytes(16), rng.randbytes(16), b"\1" + bytes(15), bytes(15) + b"\1"])
        first = near(rng, list(range(30, 110)))
        block += kind + rng.randbytes(16) + struct.pack("<QQ", first, near(rng, [first, min(first + 1, RANKS - 1), 100, 127])) + bytes(80)
    return block


def boot_sector(rng, seed):
    cluster = rng.choice([1, 2, 8, 8, 128, 128, 0, 3, 255] if rng.random() < 0.2 else [8, 8, 4])
    block = bytearray(SECTOR)
    block[3:11] = b"NTFS    "
    block[510:512] = b"\x55\xAA"
    struct.pack_into("<HB", block, 11, 512 if rng.random() < 0.97 else 4096, cluster)
    limits = [FAR - 1, FAR, (FAR - 1) // 8, (FAR - 31) // 8, FAR // 8, RANKS - 1, 0]
    total, mft, mirror = (rng.choice(limits) if rng.random() < 0.08 else rng.choice([100, 101, 4, 2]) for _ in range(3))
    struct.pack_into("<QQQ", block, 40, total, mft, mirror)
    struct.pack_into("b", block, 64, rng.choice([-10, -10, -10, 1, 2]) if rng.random() < 0.85 else rng.choice([0, -9, -8, -16, -17, -128, 127, 16, 17]))
    struct.pack_into("<Q", block, 72, seed)
    return bytes(block)


def record_sector(rng):
    block = bytearray(SECTOR)
    block[0:4] = b"FILE"
    struct.pack_into("<H", block, 4, 48 if rng.random() < 0.9 else 42)
    struct.pack_into("<I", block, 28, rng.choice([1024, 1024, 1024, 4096, 2048, 512]))
    struct.pack_into("<I", block, 44, rng.choice([0, 1, 5, 15, 15, 16]))
    return bytes(block)


def super_sector(rng, seed):
    block = bytearray(SECTOR)
    block[0:4] = b"XFSB"
    usual = rng.random() < 0.85
    size = 4096 if usual else rng.choice([512, 65536, 256, 1024, 1000, 131072])
    group = rng.choice([17, 17, 16]) if usual else rng.choice([1, 0, 2 ** 32 - 1, 2 ** 31])
    count = rng.choice([4, 4, 5]) if usual else rng.choice([1, 0, 2 ** 32 - 1, 2 ** 24])
    struct.pack_into(">I", block, 4, size)
    block[32:48] = seed.to_bytes(16, "big")
    struct.pack_into(">II", block, 84, group, count)
    struct.pack_into(">H", block, 102, 512 if rng.random() < 0.9 else rng.choice([4096, 8192, 32768, 256, 513]))
    return bytes(block)


def head_sector(rng, magic):
    block = magic + struct.pack(">II", 1 if rng.random() < 0.93 else 2, rng.choice([0, 1, 2, 3, 3, 4, 5, 2 ** 32 - 1]))
    return block.ljust(SECTOR, b"\0")


def label_sector(rng, sector):
    version = rng.choice([b"LVM2 001"] * 12 + [b"LVM2 002", b"LVM1 001"])
    return (b"LABELONE" + struct.pack("<QII", near(rng, [sector, 1, 1, 9]), 0, 32) + version).ljust(SECTOR, b"\0")


def btrfs_sector(rng, seed):
    block = bytearray(SECTOR)
    block[32:48] = seed.to_bytes(16, "big")
    struct.pack_into("<Q", block, 48, rng.choice(BTRFS_PLACES) if rng.random() < 0.9 else rng.choice([0, 65535, 65537, 131072, 2 ** 63]))
    block[64:72] = b"_BHRfS_M" if rng.random() < 0.97 else b"_BHRf5_M"
    return bytes(block)


def ext_sector(rng, seed):
    block = bytearray(SECTOR)
    power = rng.choice([0, 0, 1, 2, 2, 2, 6, 7]) if rng.random() < 0.95 else rng.choice([2 ** 31, 255])
    first = rng.choice([0, 0, 0, 0, 1, 2] if power else [1, 1, 1, 0, 2])
    blocks = rng.choice([32, 32, 32, 8192, 32768]) if rng.random() < 0.9 else rng.choice([0, 1, 2 ** 32 - 1])
    struct.pack_into("<II", block, 20, first, power)
    struct.pack_into("<I", block, 32, blocks)
    struct.pack_into("<H", block, 56, 0xEF53 if rng.random() < 0.97 else 0x53EF)
    struct.pack_into("<I", block, 76, rng.choice([0, 1, 1, 1, 1, 1, 1, 2]))
    struct.pack_into("<H", block, 90, rng.choice([0, 1, 1, 3, 3, 5, 7, 9, 65534, 65535]))
    block[104:120] = seed.to_bytes(16, "big")
    return bytes(block)


def of_two_kinds(rng, sector, length):
    """A sector of one kind with the marks of another in it: the first of them counts, the other only where the first fails."""
    if rng.random() < 0.4:
        block = bytearray(gpt_sector(rng, sector, length))
        # in the last block that can be used, and in the disk's number
        struct.pack_into("<Q", block, 48, rng.choice(BTRFS_PLACES))
        block[56:72] = bytes(8) + b"_BHRfS_M"
        if rng.random() < 0.8:
            size, = struct.unpack_from("<I", block, 12)
            block[16:20] = bytes(4)
            struct.pack_into("<I", block, 16, zlib.crc32(block[:min(size, SECTOR)]))
        return bytes(block)
    if rng.random() < 0.5:
        block = bytearray(btrfs_sector(rng, 1))
        block[:20] = rng.choice([head_sector(rng, b"XAGF"), record_sector(rng), label_sector(rng, sector)])[:20]
        block[24:32] = rng.choice([b"LVM2 001", b"\0\0\0\0\0\4\0\0"])
    else:
        block = bytearray(ext_sector(rng, 1))
        other = rng.choice([btrfs_sector(rng, 2), label_sector(rng, sector), head_sector(rng, b"XAGI")])
        block[:20], block[64:72] = other[:20], other[64:72]
        if other[64:66] == b"_B":
            # but for the blocks of a group, which are part of the other's number
            block[36:56] = other[36:56]
    return bytes(block)


def landmark(rng, sector, length, variety):
    """A sector that is a landmark, mostly."""
    kind = rng.choice(["gpt", "gpt", "boot", "record", "super", "agf", "agi", "lvm", "btrfs", "ext", "ext", "two", "super5", "xfs5", "tree", "pair", "mft"])
    block = {"gpt": lambda: gpt_sector(rng, sector, length), "boot": lambda: boot_sector(rng, rng.randrange(variety)),
             "record": lambda: record_sector(rng), "super": lambda: super_sector(rng, rng.randrange(variety)),
             "agf": lambda: head_sector(rng, b"XAGF"), "agi": lambda: head_sector(rng, b"XAGI"),
             "lvm": lambda: label_sector(rng, sector), "btrfs": lambda: btrfs_sector(rng, rng.randrange(variety)),
             "ext": lambda: ext_sector(rng, rng.randrange(variety)), "two": lambda: of_two_kinds(rng, sector, length),
             "super5": lambda: XfsMaker(rng).superblock(), "xfs5": lambda: XfsMaker(rng).inode()[:SECTOR], "tree": lambda: TreeMaker(rng).block(),
             "pair": lambda: PairMaker(rng).pair(), "mft": lambda: MftMaker(rng).record(rng.choice([0, 8, 16, 20, 5]), 1024)[:SECTOR]}[kind]()
    if rng.random() < 0.04:
        at = rng.randrange(SECTOR)
        block = block[:at] + bytes([block[at] ^ 1 << rng.randrange(8)]) + block[at + 1:]
    return kind, block


def survey_operands(rng, images):
    shortest = min(len(image) // SECTOR for image in images) if images else 0
    choices = {
        "levels": lambda: rng.choice(["0", "5", "6", "0,5", "5,6"]), "members": lambda: rng.choice(["2", "3", "2,16", f"17,{MOST}", "4,5,6"]),
        "patterns": lambda: rng.choice(["plain", "ls,rs", "parity-first-6"]),
        "delays": lambda: rng.choice(["1", "16", "1,16", "1,16", "2,4,1024", "1,1025", "16,1",
                                      ",".join(str(n) for n in range(1, rng.choice([17, 18])))]),
        "syndromes": lambda: rng.choice(["none", "after-q,by-slot"]),
        "chunks": lambda: rng.choice(["1", "8,16", "32768", ",".join(str(2 ** power) for power in range(16))]),
        "offsets": lambda: ",".join(str(n) for n in sorted(rng.sample([0, 1, 2, 3, 10, shortest, shortest + 1, FAR - 1], 2) + [5])
                                    ) if rng.random() < 0.9 else ",".join(str(n) for n in range(64)),
        "origins": lambda: ",".join(str(n) for n in sorted(rng.sample(range(0, 120), rng.choice([1, 2, 63, 64])))),
        "missing": lambda: str(rng.randint(0, 2)), "foreign": lambda: str(rng.choice([0, 1, MOST])),
        "badrows": lambda: str(rng.choice([0, 3, FAR - 1])), "misfits": lambda: str(rng.choice([0, 1, FAR - 1])),
        "least": lambda: str(rng.choice([0, 1, FAR - 1])), "window": lambda: str(rng.choice([1, 100, FAR - 1])),
        "end": lambda: str(max(0, shortest + rng.choice([-3, -1, 0, 0, 1]))),
        "kinds": lambda: ",".join(sorted(rng.sample(KINDS, rng.randint(1, len(KINDS))), key=KINDS.index)),
        "drop": lambda: ",".join(f"{image}:{sector}" for image, sector in
                                 sorted({(rng.randrange(len(images) + 1), rng.randrange(shortest + 2)) for _ in range(rng.choice([1, 3, 64]))})),
    }
    operands = [f"{name}={choices[name]()}" for name in rng.sample(sorted(choices), rng.choice([0, 0, 1, 2, 3, 5]))]
    if rng.random() < 0.3 and not any(word.startswith("kinds=") for word in operands):
        operands.append("kinds=" + ",".join(KINDS))
    if rng.random() < 0.35:
        operands.append(rng.choice(["logical=4096"] * 14 + ["logical=512", "logical=1024"]))
    return operands + some_mode(rng, operands)


def some_mode(rng, operands):
    """Whether each image gets an offset of its own, which mostly goes with the other operands, or nothing of that."""
    if rng.random() < 0.8:
        return []
    for place, word in enumerate(operands):
        if rng.random() < 0.5 and word.startswith("foreign="):
            operands[place] = "foreign=0"
        elif word.startswith("offsets="):
            operands[place] = word.replace(str(FAR - 1), str(MOVED - rng.choice([0, 1, 1])))
    return [rng.choice(["mode=each"] * 8 + ["mode=common", "mode=both"])]


def survey_case(rng):
    way = rng.random()
    if way < 0.004:
        return crowded_survey(rng)
    if way < 0.06:
        return many_file_systems(rng)
    if way < 0.09:
        return own_tables(rng)
    if way < 0.092:
        return crowded_inodes(rng)
    if way < 0.094:
        return crowded_trees(rng)
    if way < 0.097:
        return crowded_records(rng)
    if way < 0.2:
        return mft_survey(rng, survey_operands)
    if way < 0.3:
        return inodes_survey(rng, survey_operands)
    if way < 0.42:
        return trees_survey(rng, survey_operands)
    if way < 0.5:
        return pairs_survey(rng, survey_operands)
    images = [bytearray(some_bytes(rng, rng.choice([0, 1, 2, 3, 40, 60, 64]) * SECTOR) if rng.random() < 0.3 else
                        rng.choice([64, 64, 64, 63, 65, 71, 72]) * SECTOR)
              for _ in range(rng.choice([1, 2, 3, 4, 4, 16, MOST]))]
    variety = rng.choice([1, 1, 1, 2, 40])
    for _ in range(rng.choice([0, 1, 5, 10]) if variety < 40 else 60):
        image = rng.choice(images)
        length = len(image) // SECTOR
        if not length:
            continue
        sector = rng.choice([0, 1, length - 1, rng.randrange(length)]) % length
        if rng.random() < 0.15:
            # where tables of blocks of 4,096 bytes stand
            sector = rng.choice([8, 8, length // 8 * 8 - 8]) % length
        kind, block = landmark(rng, sector, length, variety)
        image[sector * SECTOR:(sector + 1) * SECTOR] = block
        after = sector + rng.choice([1, 1, 8])
        if kind == "gpt" and after < length and rng.random() < 0.8:
            image[after * SECTOR:(after + 1) * SECTOR] = entries_sector(rng)
    if rng.random() < 0.1:
        images[0] += bytes(rng.choice([1, 511]))
    files = files_of([bytes(image) for image in images])
    return Case(["survey", *shuffled(rng, survey_operands(rng, images)), "--", *files], b"", files)


def plain_header(own, other):
    block = bytearray(struct.pack("<8sIIIIQQQQ16sQIII", b"EFI PART", 0x10000, 92, 0, 0, own, other, 6, 50, bytes(16), own + 1, 128, 128, 0))
    struct.pack_into("<I", block, 16, zlib.crc32(block))
    return bytes(block.ljust(SECTOR, b"\0"))


def own_tables(rng):
    """Images with the headers of their own tables, in blocks of one sector or of eight, or what lies beside that."""
    images = [bytearray(rng.choice([15, 16, 17, 24, 31, 63, 64, 65, 72]) * SECTOR) for _ in range(rng.choice([1, 2, 3]))]
    for image in images:
        length, unit = len(image) // SECTOR, rng.choice([1, 8, 8, 8])
        last = length // unit - 1
        for own, other in ((1, last), (last, 1)):
            own, other = own + rng.choice([0] * 12 + [1]), max(0, other + rng.choice([0] * 12 + [1, -1]))
            sector = unit * own + rng.choice([0] * 12 + [1, 7])
            if sector < length:
                image[sector * SECTOR:(sector + 1) * SECTOR] = plain_header(own, other)
            if sector + unit < length and rng.random() < 0.5:
                image[(sector + unit) * SECTOR:(sector + unit + 1) * SECTOR] = entries_sector(rng)
    files = files_of([bytes(image) for image in images])
    operands = rng.choice([["logical=4096"], ["logical=4096"], ["logical=512"], []]) + rng.choice([[], [], ["offsets=0,9"], ["origins=0"]])
    return Case(["survey", *shuffled(rng, operands), "--", *files], b"", files)


def plain_boot(seed, total=100, mft=4, mirror=2):
    """A boot sector of clusters of one sector and records of two."""
    block = bytearray(SECTOR)
    block[3:11], block[510:512] = b"NTFS    ", b"\x55\xAA"
    struct.pack_into("<HB", block, 11, 512, 1)
    struct.pack_into("<QQQbxxxxxxxQ", block, 40, total, mft, mirror, -10, seed)
    return bytes(block)


def plain_super(seed, count=4, unit=512):
    """A superblock of blocks of 4,096 bytes, 17 a group."""
    block = bytearray(SECTOR)
    block[0:4] = b"XFSB"
    struct.pack_into(">I", block, 4, 4096)
    block[32:48] = seed.to_bytes(16, "big")
    struct.pack_into(">II", block, 84, 17, count)
    struct.pack_into(">H", block, 102, unit)
    return bytes(block)


def numbered(form, place, seed, block):
    """The block with a number in it."""
    block = bytearray(block)
    struct.pack_into(form, block, place, seed)
    return bytes(block)


def plain_btrfs(seed):
    return (bytes(32) + seed.to_bytes(16, "big") + struct.pack("<QQ8s", 65536, 0, b"_BHRfS_M")).ljust(SECTOR, b"\0")


def plain_ext(seed, power=2, blocks=32):
    block = bytearray(SECTOR)
    struct.pack_into("<II4xI", block, 20, 0, power, blocks)
    struct.pack_into("<H18xI10xH", block, 56, 0xEF53, 1, 1)
    block[104:120] = seed.to_bytes(16, "big")
    return bytes(block)


def many_file_systems(rng):
    """Heads of about as many file systems as make groups, which differ in one number alone, or in none; or with numbers at a limit;
    or with about as many sectors to pass over as may be named."""
    way, images = rng.randrange(4), [bytearray(64 * SECTOR) for _ in range(2)]
    count, blocks, operands = rng.choice([31, 32, 33, 34]), [], []
    label = b"LABELONE".ljust(24, b"\0") + b"LVM2 001".ljust(SECTOR - 24, b"\0")
    if way == 0:
        plain = rng.choice([plain_boot, plain_super, plain_btrfs, plain_ext, lambda seed: numbered("<Q", 8, seed % 2, label)])
        blocks, operands = [plain(seed) for seed in range(count)], ["kinds=" + ",".join(KINDS)]
        blocks += [plain(seed) for seed in rng.choice([[], [0, 5], [count - 1]])]
    elif way == 1:
        blocks = [plain(rng.choice([7, 7, 8])) for plain in (plain_boot, plain_super, plain_btrfs, plain_ext) for _ in range(4)]
        blocks += [record_sector(rng), head_sector(rng, b"XAGF"), head_sector(rng, b"XAGI"), plain_ext(7, 1), plain_ext(7, 2, 64)]
        operands = [rng.choice(["kinds=" + ",".join(KINDS), "kinds=ext", "kinds=btrfs,ext"])]
    elif way == 2:
        edge = FAR - 30 + rng.choice([-2, -1, 0, 1])
        blocks = [plain_boot(1, FAR + rng.choice([-2, -1, 0])), plain_boot(2, 100, edge), plain_boot(3, 100, 4, edge)]
    else:
        blocks = [plain_boot(seed % 3) for seed in range(rng.choice([63, 64, 65, 66]))]
        operands = ["drop=" + ",".join(f"{place // 64}:{place % 64}" for place in range(rng.choice([62, 63, 64, 65])))]
    if way < 2:
        rng.shuffle(blocks)
    for place, block in enumerate(blocks):
        images[place // 64][place % 64 * SECTOR:(place % 64 + 1) * SECTOR] = block
    files = files_of([bytes(image) for image in images])
    return Case(["survey", *operands, "--", *files], b"", files)


def crowded_survey(rng):
    """Somewhat more landmarks of one kind than count."""
    kind = rng.choice(["boot", "record", "super", "agf", "agi", "gpt", "lvm", "btrfs", "ext"])
    block = {"gpt": lambda: gpt_sector(rng, 5, 9000), "boot": lambda: boot_sector(rng, 0), "record": lambda: record_sector(rng),
             "super": lambda: super_sector(rng, 0), "agf": lambda: head_sector(rng, b"XAGF"), "agi": lambda: head_sector(rng, b"XAGI"),
             "lvm": lambda: label_sector(rng, 5), "btrfs": lambda: plain_btrfs(3), "ext": lambda: plain_ext(3)}[kind]()
    others = [boot_sector(rng, 0), super_sector(rng, 0), record_sector(rng)]
    images = [block * 2047 + others[0] + block * 3, block * 2046 + others[1] + block * rng.choice([1, 2, 3, 4, 5]) + others[2] + block]
    files = files_of(images)
    operands = rng.choice([[], ["drop=0:0,1:3"], ["offsets=1"], ["end=2049"]]) + ["kinds=" + ",".join(KINDS)] * (kind == "ext")
    return Case(["survey", *operands, "--", *files], b"", files)
