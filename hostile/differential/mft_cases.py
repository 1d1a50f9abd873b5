"""Cases of `survey` with file records of NTFS, some of them records 0 that tell where the tables of volumes lie."""

import struct

from inode_cases import changed
from making import Case, files_of, shuffled
from tables import MOST_RUNS, SIZES, Volume
from texts import FAR, KINDS, SECTOR

CODES = {1: 1, 2: 2, 8: 8, 128: 128, 256: 248, 512: 247, 1024: 246, 2048: 245, 4096: 244}
RECORD_CODES = {1024: 246, 4096: 244}
HIGH = [FAR // 8 - 1, FAR // 8, FAR - 1, FAR, 2 ** 64 - 1]


def number_bytes(number, is_distance):
    """The fewest bytes of a number of clusters, or of a distance, which may be negative."""
    count = 1
    while not (-(2 ** (8 * count - 1)) <= number < 2 ** (8 * count - 1) if is_distance else number < 256 ** count):
        count += 1
    return number.to_bytes(count, "little", signed=is_distance)


def run_list(runs):
    """The runs as they stand in an attribute."""
    out, before = b"", 0
    for first, count in runs:
        counts, distance = number_bytes(count, False), number_bytes(first - before, True)
        out += bytes([len(distance) << 4 | len(counts)]) + counts + distance
        before = first
    return out + b"\0"


def with_sequence(record, mark):
    """The record as it is written: the last bytes of each of its sectors stand in the update sequence."""
    data = bytearray(record)
    data[48:50] = mark
    for place in range(len(data) // SECTOR):
        end = (place + 1) * SECTOR
        data[50 + 2 * place:52 + 2 * place] = data[end - 2:end]
        data[end - 2:end] = mark
    return bytes(data)


class MftMaker:
    """Boot sectors and file records of a few volumes."""

    def __init__(self, rng):
        self.rng = rng
        self.volumes = [self.volume() for _ in range(rng.choice([1, 1, 1, 2, 3]))]
        if len(self.volumes) > 1 and rng.random() < 0.3:
            self.volumes[1] = self.volumes[0]._replace(mirror=9)
        self.runs = {volume: self.some_runs(volume) for volume in self.volumes}

    def volume(self):
        rng = self.rng
        cluster = rng.choice([1, 2, 8, 8, 8, 128, 256, 1024, 4096])
        return Volume(cluster, rng.choice([4, 4, 1000]), 2, rng.choice([1024, 1024, 1024, 4096]))

    def some_runs(self, volume):
        """Runs that begin with the table: mostly one to three, as many as may be, or one more."""
        rng = self.rng
        many = rng.choice([1, 1, 2, 3, 5]) if rng.random() < 0.9 else rng.choice([MOST_RUNS - 1, MOST_RUNS, MOST_RUNS + 1])
        runs, first = [], volume.table
        for _ in range(many):
            count = rng.choice([1, 2, 3, 16, 300])
            runs.append((first, count))
            first = max(0, first + rng.choice([count, count + 5, 70000, -1, -3, 40]))
        return runs

    def boot(self, volume):
        """Mostly the boot sector of a volume."""
        rng, block = self.rng, bytearray(self.rng.randbytes(SECTOR) if self.rng.random() < 0.3 else SECTOR)
        table, mirror = (rng.choice(HIGH) if rng.random() < 0.03 else number for number in (volume.table, volume.mirror))
        code = RECORD_CODES[volume.size]
        if volume.size % (volume.cluster * SECTOR) == 0 and rng.random() < 0.3:
            code = volume.size // (volume.cluster * SECTOR)
        block[3:11], block[510:512] = b"NTFS    ", b"\x55\xAA"
        struct.pack_into("<HB", block, 11, 512 if rng.random() < 0.97 else 4096, CODES[volume.cluster])
        struct.pack_into("<QQQ", block, 40, rng.choice([0, 1, 100000, 100000, 100000, FAR]), table, mirror)
        block[64] = code if rng.random() < 0.95 else rng.choice([0, 1, 245, 247, 127, 128])
        return bytes(block)

    def attribute(self, runs):
        """Mostly $DATA with these runs, outside the record and of one piece."""
        rng, body = self.rng, run_list(runs)
        if rng.random() < 0.08:
            place = rng.randrange(len(body))
            body = body[:place] + bytes([rng.choice([0, 1, 0x10, 0x01, 0x91, 0x19, 255])]) + body[place + 1:]
        size = (64 + len(body) + rng.choice([0, 0, 0, 9])) // 8 * 8 + 8
        kind, name, flags, lowest = (rng.choice(others) if rng.random() < 0.02 else usual
                                     for usual, others in ((0x80, [0x90]), (0, [4]), (0, [1, 0x8000]), (0, [1])))
        head = struct.pack("<IIBBHHHQQHH", kind, size, 1 if rng.random() < 0.98 else 0, name, 64, flags, 3, lowest, 99, 64, 0)
        return (head.ljust(64, b"\0") + body).ljust(size, b"\0")

    def record(self, number, size, runs=()):
        """A record, mostly whole; with runs one of a table."""
        rng = self.rng
        front = rng.choice([0, 1, 1, 2, 3]) if rng.random() < 0.97 else rng.choice([62, 63, 64])
        least = 72 if front < 5 or size < 4096 else 24
        attributes = [struct.pack("<IIB", 0x10, least, 0).ljust(least, b"\0")] * front
        attributes += [self.attribute(runs)] if runs else []
        body = b"".join(attributes) + b"\xFF\xFF\xFF\xFF" + bytes(4)
        first = 56 if size == 1024 else 72
        if first + len(body) > size:
            body = body[:size - first]
        words = size // SECTOR + 1
        head = b"FILE" + struct.pack("<HHQHHHHIIQHHI", 48, words if rng.random() < 0.98 else 3, rng.randrange(2 ** 40), 1, 1, first, 1, len(body) + first,
                                     size if rng.random() < 0.98 else rng.choice([512, 2048, 1024]), 0, 4, 0, number)
        record = (head.ljust(first, b"\0") + body).ljust(size, rng.choice([b"\0", b"\7"]))
        return with_sequence(record, rng.choice([b"\1\0", b"\1\0", b"\7\x13"]))

    def numbers(self, volume):
        """Numbers of records, at the borders of runs too."""
        rng, wide, ends, before = self.rng, volume.size // SECTOR, [], 0
        for _, count in self.runs[volume][:4]:
            before += count * volume.cluster
            ends += [before // wide + step for step in (-4, -1, 0, 4)]
        usual = [1, 2, 3, 4, 8, 12, 15, 16, 20, 24, 64, 100, 4092, 4096, 4096 + 48, 4160, 8192, 2 ** 32 - 64, 2 ** 32 - 1]
        return rng.choice(usual + [number for number in ends if 0 <= number < 2 ** 32])


def mft_survey(rng, operands):
    """Images with such records and boot sectors; some are cut off by the end of an image or by what was written over them."""
    maker, images = MftMaker(rng), [bytearray(rng.choice([100, 130, 200]) * SECTOR) for _ in range(rng.choice([1, 2, 3]))]
    blocks = []
    for volume in maker.volumes:
        blocks += [maker.boot(volume) for _ in range(rng.choice([0, 1, 1, 1, 2]))]
        runs = maker.runs[volume]
        if rng.random() < 0.1:
            runs = [(runs[0][0] + 1, runs[0][1]), *runs[1:]]
        blocks += [maker.record(0, volume.size if rng.random() < 0.97 else rng.choice(SIZES), runs) for _ in range(rng.choice([0, 1, 1, 2]))]
        for _ in range(rng.choice([1, 5, 10])):
            blocks.append(maker.record(maker.numbers(volume), volume.size))
    free = [(image, sector) for image in images for sector in range(len(image) // SECTOR)]
    for block in (changed(rng, block, 0.05) for block in blocks):
        image, sector = rng.choice(free)
        if rng.random() < 0.95:
            sector = min(sector, len(image) // SECTOR - len(block) // SECTOR)
        image[sector * SECTOR:sector * SECTOR + len(block)] = block[:len(image) - sector * SECTOR]
        if rng.random() < 0.95 and len(free) > 16:
            free = [it for it in free if it[0] is not image or not sector - 1 <= it[1] < sector + len(block) // SECTOR]
    kinds = rng.choice(["kinds=mft"] * 3 + ["kinds=ntfs,mft", "kinds=xfs5,btrfstree,mft", "kinds=" + ",".join(KINDS), "kinds=ntfs"])
    if rng.random() < 0.05:
        images[-1] += bytes(rng.choice([1, 511]))
    files = files_of([bytes(image) for image in images])
    return Case(["survey", *shuffled(rng, [kinds, *(word for word in operands(rng, images) if not word.startswith("kinds="))]), "--", *files], b"",
                files)


def crowded_records(rng):
    """About as many records as make marks, of one table or of two, and about as many hits as count."""
    volumes = [Volume(8, 4, 2, 1024)] + rng.choice([[], [Volume(8, 5, 2, 1024)], [Volume(8, 4, 3, 1024)]])
    blocks = [plain_boot(volume) for volume in volumes]
    heads = [plain_record(0, [(volume.table, 20000)]) for volume in volumes]
    count = rng.choice([2046, 2047, 2048, 2049])
    body = [b"".join(plain_record(4 * (number % 1000 + 4)) for number in range(many)) for many in (count, 2048)]
    front = b"".join(blocks + heads)
    files = files_of(rng.choice([[front + body[0], body[1].ljust(len(front + body[0]), b"\0")], [body[0] + front, body[1] + bytes(len(front))]]))
    return Case(["survey", "kinds=" + rng.choice(["mft", "ntfs,mft"]), *rng.choice([[], ["drop=0:1,1:2"], ["offsets=1"]]), "--", *files], b"", files)


def plain_boot(volume):
    block = bytearray(SECTOR)
    block[3:11], block[510:512] = b"NTFS    ", b"\x55\xAA"
    struct.pack_into("<HB", block, 11, 512, CODES[volume.cluster])
    struct.pack_into("<QQQB", block, 40, 1000000, volume.table, volume.mirror, RECORD_CODES[volume.size])
    return bytes(block)


def plain_record(number, runs=()):
    """A whole record of 1,024 bytes, with $DATA where there are runs."""
    body = b""
    if runs:
        listed = run_list(runs)
        size = (64 + len(listed)) // 8 * 8 + 8
        body = (struct.pack("<IIBBHHHQQHH", 0x80, size, 1, 0, 64, 0, 3, 0, 99, 64, 0).ljust(64, b"\0") + listed).ljust(size, b"\0")
    head = b"FILE" + struct.pack("<HHQHHHHIIQHHI", 48, 3, 1, 1, 1, 56, 1, 100, 1024, 0, 4, 0, number)
    return with_sequence((head.ljust(56, b"\0") + body + b"\xFF\xFF\xFF\xFF").ljust(1024, b"\0"), b"\1\0")
