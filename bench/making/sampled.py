#!/usr/bin/env python3
"""Makes the images of an array of level 5 over bytes of a generator, for timing reraid: left-symmetric, in the order of
its slots, from sector 0 on. With marks, the heads of the 64 allocation groups of an XFS lie in the volume.

Usage: sampled.py NUMBER MEMBERS CHUNK ROWS random|xfs
CHUNK is in sectors of 512 bytes. The images are written under the names 0, 1 and so on. The bytes are those of SplitMix64,
begun with NUMBER, in words of eight bytes, little-endian.
"""

import struct
import sys

from disks import SECTOR, row_of

MASK = (1 << 64) - 1
GROUPS = 64
BLOCK = 4096


def words(state):
    """The words of SplitMix64."""
    while True:
        state = (state + 0x9E3779B97F4A7C15) & MASK
        word = state
        word = ((word ^ word >> 30) * 0xBF58476D1CE4E5B9) & MASK
        word = ((word ^ word >> 27) * 0x94D049BB133111EB) & MASK
        yield word ^ word >> 31


def sector_of(*parts):
    """A sector of zeros but for these bytes at these places."""
    sector = bytearray(SECTOR)
    for at, part in parts:
        sector[at:at + len(part)] = part
    return bytes(sector)


def put_groups(volume, data):
    """Puts the first three sectors of each allocation group into the volume."""
    size = max(a for a in range(1, len(volume) // SECTOR // 512 + 1) if a % data == 1)
    first = sector_of((0, b"XFSB"), (4, struct.pack(">I", BLOCK)), (32, b"\xa5" * 16), (84, struct.pack(">I", size)),
                      (88, struct.pack(">I", GROUPS)), (102, struct.pack(">H", SECTOR)))
    for group in range(GROUPS):
        heads = [sector_of((0, magic), (4, struct.pack(">II", 1, group))) for magic in (b"XAGF", b"XAGI")]
        at = size * group * BLOCK
        volume[at:at + 3 * SECTOR] = first + heads[0] + heads[1]


def main():
    number, members, chunk, rows = map(int, sys.argv[1:5])
    data = members - 1
    size = chunk * SECTOR
    source = words(number)
    volume = bytearray(b"".join(next(source).to_bytes(8, "little") for _ in range(rows * data * size // 8)))
    if sys.argv[5] == "xfs":
        put_groups(volume, data)
    images = [open(str(image), "wb") for image in range(members)]
    for row in range(rows):
        items = [bytes(volume[(row * data + item) * size:(row * data + item + 1) * size]) for item in range(data)]
        for image, block in zip(images, row_of(items, row, members, "ls", "none")):
            image.write(block)
    for image in images:
        image.close()


main()
