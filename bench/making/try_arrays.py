"""Makes arrays for bench/measuring/try.py: volumes with file systems in them, what real disks do to them, and the disks. Files have holes where
they hold zeros. Needs the Debian packages e2fsprogs, xfsprogs, btrfs-progs and ntfs-3g; no root.
"""

import dataclasses
import gzip
import os
import random
import re
import struct
import subprocess
import zlib

import disks

SECTOR = 512
FIRST = 2048  # of a partition
LINUX = bytes.fromhex("af3dc60f838472478e793d69d8477de4")
EXTENT = 8192
LARGE, MIDDLE = 800, 256  # MiB
# How many files of 10 MiB fill most of these.
LARGE_FILES, MIDDLE_FILES = 50, 15
DELAYED = "parity stays for 16 rows"


@dataclasses.dataclass(frozen=True)
class Array:
    """An array: its level, members and lost slots, what its volume holds, and its traits."""

    level: str
    members: int
    lost: tuple
    kind: str
    traits: tuple = ()
    chunk: int = 128

    def name(self):
        """What it is called in the table."""
        said = [f"level {'10' if self.level == 'near2' else self.level}", f"{self.members} disks", self.kind]
        said += [f"{len(self.lost)} lost"] if self.lost else []
        return ", ".join(said + list(self.traits))


def run(*words):
    """Runs a tool, and stops with what it says where it fails."""
    done = subprocess.run(words, stdin=subprocess.DEVNULL, stdout=subprocess.PIPE, stderr=subprocess.STDOUT, text=True, check=False)
    if done.returncode:
        raise SystemExit(f"{' '.join(words)}: {done.stdout}")


def put(path, sector, data):
    """Writes bytes into a file."""
    with open(path, "r+b") as file:
        file.seek(sector * SECTOR)
        file.write(data)


def sparse(path, megabytes):
    """A file of zeros."""
    with open(path, "wb") as file:
        file.truncate(megabytes << 20)


def tree(folder):
    """A folder with a compressed file and some small ones, always the same."""
    os.makedirs(folder, exist_ok=True)
    noise = random.Random(1)
    with open(f"{folder}/photos.gz", "wb") as file:
        file.write(gzip.compress(noise.randbytes(5 << 20), 1, mtime=0))
    for k in range(20):
        with open(f"{folder}/letter{k}", "wb") as file:
            file.write(noise.randbytes(3000 + 700 * k))


def large_tree(folder, count):
    """A folder with so many compressed files of 10 MiB, which fill most of a large volume, always the same."""
    os.makedirs(folder, exist_ok=True)
    noise = random.Random(2)
    for k in range(count):
        with open(f"{folder}/film{k:02}.gz", "wb") as file:
            file.write(gzip.compress(noise.randbytes(10 << 20), 0, mtime=0))


def make_ext(path, folder, block, megabytes):
    """An ext4 with the files of a folder."""
    sparse(path, megabytes)
    run("mke2fs", "-q", "-F", "-t", "ext4", "-b", str(block), "-d", folder, path)


def make_xfs(path, folder, megabytes=97):
    """An XFS with the files of a folder, smaller than the tools think wise, whose groups do not all begin on one disk."""
    sparse(path, megabytes)
    names = sorted(os.listdir(folder))
    with open(path + ".files", "w", encoding="utf-8") as file:
        file.write("/\n0 0\nd--755 0 0\n" + "".join(f"{name} ---644 0 0 {folder}/{name}\n" for name in names) + "$\n")
    run("mkfs.xfs", "-q", "-f", "--unsupported", "-d", "agcount=4", "-p", path + ".files", path)


def make_ntfs(path, folder, megabytes=40):
    """An NTFS with the files of a folder. The file is one sector longer than the file system says, and the copy of its boot sector
    stands there."""
    sparse(path, megabytes)
    run("mkntfs", "-q", "-F", "-f", "-s", "512", "-p", "0", "-H", "0", "-S", "0", path)
    for name in sorted(os.listdir(folder)):
        run("ntfscp", "-q", "-f", path, f"{folder}/{name}", name)


def make_btrfs(path, folder, megabytes=160):
    """A btrfs with the files of a folder."""
    sparse(path, megabytes)
    run("mkfs.btrfs", "-q", "-f", "--rootdir", folder, path)


def moved(inner, path, first, megabytes):
    """The bytes of a file further on in a longer one."""
    sparse(path, megabytes)
    with open(inner, "rb") as old:
        for place, block in held(old, 1 << 16):
            put_bytes(path, first * SECTOR + place, block)


def put_bytes(path, place, data):
    """Writes bytes at a byte of a file."""
    with open(path, "r+b") as file:
        file.seek(place)
        file.write(data)


def held(file, step):
    """The blocks of a file that are not zeros, with their places."""
    end, zeros = os.fstat(file.fileno()).st_size, bytes(step)
    place = 0
    while place < end:
        try:
            place = os.lseek(file.fileno(), place, os.SEEK_DATA) // step * step
        except OSError:
            return
        file.seek(place)
        block = file.read(step)
        if block != zeros[:len(block)]:
            yield place, block
        place += step


def gpt(path, block, first):
    """A partition table with one partition, in blocks of so many bytes."""
    size = os.path.getsize(path)
    blocks, per = size // block, block // SECTOR
    last = (size // SECTOR - 64 * per) // per
    entry = LINUX + bytes(range(16)) + struct.pack("<QQQ", first // per, last, 0)
    table = entry.ljust(128 * 128, b"\0")
    after = 2 + -(-len(table) // block)
    def header(place, other, entries):
        tail = struct.pack("<QQQQ16sQIII", place, other, after, blocks - after - 1, bytes(range(16, 32)), entries, 128, 128, zlib.crc32(table))
        head = b"EFI PART" + struct.pack("<III", 0x10000, 92, 0)
        check = zlib.crc32(head + struct.pack("<I", 0) + tail)
        return (head[:16] + struct.pack("<I", check) + struct.pack("<I", 0) + tail)[:92]
    put(path, 0, mbr([(0xEE, 1, min(blocks - 1, 0xFFFFFFFF))]))
    put(path, per, header(1, blocks - 1, 2))
    put(path, 2 * per, table)
    put(path, (blocks - 1) * per, header(blocks - 1, 1, blocks - after + 1))
    put(path, (blocks - after + 1) * per, table)


def mbr(partitions):
    """The sector of an MBR."""
    entries = b"".join(struct.pack("<B3xB3xII", 0, kind, first, count) for kind, first, count in partitions)
    return bytes(446) + entries.ljust(64, b"\0") + b"\x55\xaa"


def crc(data):
    """The sum that LVM2 uses."""
    return zlib.crc32(data, 0xF597A6CF ^ 0xFFFFFFFF) ^ 0xFFFFFFFF


TEXT = """vg {{
id = "{a}"
seqno = 2
format = "lvm2"
status = ["RESIZEABLE", "READ", "WRITE"]
flags = []
extent_size = {extent}
max_lv = 0
max_pv = 0
metadata_copies = 0

physical_volumes {{

pv0 {{
id = "{b}"
device = "/dev/md0"

status = ["ALLOCATABLE"]
flags = []
dev_size = {sectors}
pe_start = 2048
pe_count = {count}
}}
}}

logical_volumes {{

data {{
id = "{c}"
status = ["READ", "WRITE", "VISIBLE"]
flags = []
segment_count = 1

segment1 {{
start_extent = 0
extent_count = {used}

type = "striped"
stripe_count = 1

stripes = [
"pv0", 1
]
}}
}}
}}

}}
# Generated by LVM2
contents = "Text Format Volume Group"
version = 1

description = ""

creation_host = "host"
creation_time = 1700000000

"""


def lvm(path, used):
    """The label of a physical volume, and its text with a logical volume from its second extent on."""
    size = os.path.getsize(path)
    ids = [f"{letter * 6}-{letter * 4}-{letter * 4}-{letter * 4}-{letter * 4}-{letter * 4}-{letter * 6}" for letter in "abc"]
    text = TEXT.format(a=ids[0], b=ids[1], c=ids[2], extent=EXTENT, sectors=size // SECTOR, count=(size // SECTOR - 2048) // EXTENT, used=used)
    text = text.encode() + b"\0"
    pv = ids[1].replace("-", "").encode() + struct.pack("<QQQQQ", size, 2048 * SECTOR, 0, 0, 0) + struct.pack("<QQQQ", 4096, 1044480, 0, 0)
    body = (struct.pack("<I", 32) + b"LVM2 001" + pv + struct.pack("<IIQQ", 2, 1, 0, 0)).ljust(SECTOR - 20, b"\0")
    put(path, 1, b"LABELONE" + struct.pack("<QI", 1, crc(body)) + body)
    area = (b" LVM2 x[5A%r0N*>" + struct.pack("<IQQ", 1, 4096, 1044480) + struct.pack("<QQII", 512, len(text), crc(text), 0)).ljust(508, b"\0")
    put(path, 8, struct.pack("<I", crc(area)) + area)
    put(path, 9, text)


def make_volume(kind, path, folder):
    """A volume of a kind."""
    inner = path + ".inner"
    if kind == "ext4":
        make_ext(path, folder, 1024, 40)
    elif kind == "ext4 4K":
        make_ext(path, folder, 4096, 160)
    elif kind == "ext4 256M":
        large_tree(path + ".tree", MIDDLE_FILES)
        make_ext(path, path + ".tree", 1024, MIDDLE)
    elif kind == "xfs":
        make_xfs(path, folder)
    elif kind == "ntfs":
        make_ntfs(path, folder)
    elif kind == "btrfs":
        make_btrfs(path, folder)
    elif kind == "lvm2":
        make_ext(inner, folder, 1024, 40)
        moved(inner, path, 2048 + EXTENT, 56)
        lvm(path, 10)
    elif kind in ("gpt", "gpt 4K"):
        make_xfs(inner, folder)
        first = FIRST if kind == "gpt" else 8 * FIRST
        moved(inner, path, first, 112)
        gpt(path, 512 if kind == "gpt" else 4096, first)
    elif kind == "mbr":
        make_ntfs(inner, folder)
        moved(inner, path, FIRST, 48)
        put(path, 0, mbr([(7, FIRST, 40 << 11)]))
    else:
        make_xfs(inner, folder)
        moved(inner, path, 2048 + EXTENT, 112)


def sectors_that(path, test):
    """The sectors of a file that pass a test, with their places."""
    with open(path, "rb") as file:
        for place, block in held(file, 1 << 16):
            for start in range(0, len(block), SECTOR):
                if test(block[start:start + SECTOR]):
                    yield (place + start) // SECTOR, block[start:start + SECTOR]


def is_zero(path, sector, count):
    """These sectors are zeros."""
    with open(path, "rb") as file:
        file.seek(sector * SECTOR)
        return not any(file.read(count * SECTOR))


def stray_on_parity(path, array):
    """Some bytes beside a later superblock of XFS, in a sector of the same row that is free, so that P shows another identifier."""
    data = data_disks(array)
    row = array.chunk * data
    for sector, _ in sectors_that(path, lambda it: it[:4] == b"XFSB"):
        start = sector // row * row
        others = [start + item * array.chunk + sector % array.chunk for item in range(data)]
        if sector > 8 * row and all(is_zero(path, it, 1) for it in others if it != sector):
            other = next(it for it in others if it != sector)
            put_bytes(path, other * SECTOR + 32, b"some other bytes")
            return
    raise SystemExit("no superblock with zeros beside it")


def free_place(path, count):
    """A run of sectors that are zeros, late in the volume, at an odd place."""
    for sector in range(os.path.getsize(path) // SECTOR * 5 // 8 + 1000, os.path.getsize(path) // SECTOR - count, 4096):
        if is_zero(path, sector, count):
            return sector
    raise SystemExit("no free place")


def reused(path):
    """A superblock of an earlier XFS."""
    sector = bytearray(512)
    sector[:4] = b"XFSB"
    struct.pack_into(">IQ", sector, 4, 4096, 60000)
    sector[32:48] = b"0123456789abcdef"
    struct.pack_into(">II", sector, 84, 15000, 4)
    struct.pack_into(">H", sector, 102, 512)
    put(path, free_place(path, 1), bytes(sector))


def inside(path, folder):
    """The partition table of a virtual disk."""
    small = f"{folder}/virtual"
    sparse(small, 8)
    gpt(small, 512, FIRST)
    with open(small, "rb") as file:
        data = file.read(34 * SECTOR)
    put(path, free_place(path, 34), data)


def pattern_of(array):
    """The pattern of an array by its name; none of RAID 10."""
    if DELAYED in array.traits:
        return "la*16"
    return None if array.level == "near2" else disks.PATTERNS[array.level][0]


def data_disks(array):
    """The data chunks of a row."""
    return array.members // 2 if array.level == "near2" else array.members - disks.PARITY[array.level]


def write_disks(array, volume, names, offsets):
    """The disks of an array, all of one length, with noise before the data; rows of zeros are holes."""
    noise, size, members = random.Random(7), array.chunk * SECTOR, array.members
    data, mirrored = data_disks(array), array.level == "near2"
    rows = -(-os.path.getsize(volume) // (size * data))
    pattern = pattern_of(array)
    files = [open(name, "wb") for name in names]
    for file, offset in zip(files, offsets):
        file.write(noise.randbytes(offset * SECTOR))
        file.truncate((max(offsets) + rows * array.chunk) * SECTOR)
    with open(volume, "rb") as source:
        for place, block in held(source, size * data):
            items = [block[k * size:(k + 1) * size].ljust(size, b"\0") for k in range(data)]
            row = place // (size * data)
            blocks = [items[slot // 2] for slot in range(members)] if mirrored else disks.row_of(items, row, members, pattern, "after-q")
            for file, offset, it in zip(files, offsets, blocks):
                if any(it):
                    file.seek((offset + row * array.chunk) * SECTOR)
                    file.write(it)
    for file in files:
        file.close()


def earlier(path):
    """A superblock of btrfs that stands before the data of the array."""
    put(path, 128, bytes(32) + b"0123456789abcdef" + struct.pack("<Q", 65536) + bytes(8) + b"_BHRfS_M" + bytes(440))


def append(path, data):
    """Writes bytes behind a file."""
    with open(path, "ab") as file:
        file.write(data)


def unreadable(path, first, count):
    """Sectors that could not be read, with the map that says so."""
    size = os.path.getsize(path)
    put(path, first, bytes(count * SECTOR))
    blocks = [(0, first * SECTOR, "+"), (first * SECTOR, count * SECTOR, "-"), ((first + count) * SECTOR, size - (first + count) * SECTOR, "+")]
    with open(path + ".map", "w", encoding="utf-8") as file:
        file.write("# map\n0x0 + 1\n" + "".join(f"{place:#x} {many:#x} {kind}\n" for place, many, kind in blocks))


def plain_volume(kind, cache):
    """The volume of a kind, made once."""
    plain = f"{cache}/{kind.replace(' ', '-')}"
    if not os.path.exists(plain):
        make_volume(kind, plain, f"{cache}/tree")
    return plain


def large_volume(kind, cache):
    """A volume of a kind that is mostly filled, made once: of six disks of a RAID 6 so much is filled that some of it lies behind every usual offset."""
    plain, folder = f"{cache}/large-{kind}", f"{cache}/large-tree"
    if not os.path.exists(plain):
        large_tree(folder, LARGE_FILES)
        if kind == "ext4":
            make_ext(plain, folder, 4096, LARGE)
        else:
            {"xfs": make_xfs, "btrfs": make_btrfs, "ntfs": make_ntfs}[kind](plain, folder, LARGE)
    return plain


def mended_volume(array, cache, folder):
    """The volume of an array, with the traits that lie in a volume."""
    plain = plain_volume(array.kind, cache)
    volume = f"{folder}/volume"
    run("cp", "--sparse=always", plain, volume)
    if "stray on parity" in array.traits:
        stray_on_parity(volume, array)
    if "earlier file system" in array.traits:
        reused(volume)
    if "disk image inside" in array.traits:
        inside(volume, folder)
    return volume


def make(array, cache, folder, first=FIRST, volume=None):
    """The images of an array in a folder, and its true set: the names in the order in which they are given, and the set. The data begin at
    this sector; a volume that is given is taken in place of one of the array's kind, and removed."""
    noise = random.Random(array.name())
    volume = volume or mended_volume(array, cache, folder)
    letters = list("abcdefghijkl"[:array.members + ("foreign image" in array.traits)])
    noise.shuffle(letters)
    names = [f"{folder}/{letter}.img" for letter in letters]
    offsets = [first] * array.members
    if "offsets differ" in array.traits:
        offsets[1] += 2048
    if "offset 0" in array.traits:
        offsets = [0] * array.members
    if "odd offset" in array.traits:
        offsets = [1664] * array.members
    write_disks(array, volume, names[:array.members], offsets)
    os.remove(volume)
    spoil(array, names, noise, max(offsets))
    kept = [name for slot, name in enumerate(names) if slot not in array.lost]
    for slot in array.lost:
        os.remove(names[slot])
    order = sorted(kept)
    slots = ["-" if slot in array.lost else str(order.index(names[slot])) for slot in range(array.members)]
    word = {"0": "0:{}:none", "5": "5:{}:none", "6": "6:{}:after-q", "near2": "near2"}[array.level].format(pattern_of(array))
    if len(set(offsets)) > 1:
        moved_by = {names[slot]: offsets[slot] for slot in range(array.members)}
        at = "+".join(str(moved_by[name]) for name in order)
    else:
        at = str(offsets[0])
    return order, f"{word}:{array.chunk}:{at}:{','.join(slots)}"


def spoil(array, names, noise, offset):
    """What real disks do to the members: strays before and behind the data, unlike lengths, unreadable areas, a foreign disk."""
    members = [name for slot, name in enumerate(names[:array.members]) if slot not in array.lost]
    if "used earlier" in array.traits:
        earlier(members[1])
    if "superblock at the end" in array.traits:
        for name in members:
            append(name, noise.randbytes(128 << 10))
    if "lengths differ" in array.traits:
        append(members[-1], bytes(3 << 20))
    if "unreadable areas" in array.traits:
        unreadable(members[0], offset + 3000, 64)
        unreadable(members[-1], offset + 5000, 64)
    if "foreign image" in array.traits:
        with open(names[-1], "wb") as file:
            file.write(noise.randbytes(2 << 20))
            file.truncate(os.path.getsize(members[0]))


def alike(text, word):
    """A set word as it is compared: the two images of a pair of RAID 10 hold the same, in either order."""
    if not word.startswith("near2"):
        return text
    head, slots = re.match(r"(.*:)([\d,-]+)$", text).groups()
    slots = slots.split(",")
    return head + ",".join(sorted(slots[k:k + 2])[j] for k in range(0, len(slots), 2) for j in (0, 1) if k + j < len(slots))
