#!/usr/bin/env python3
"""Makes a volume with landmarks, for trying reraid without the tools of a file system: a GUID partition table with one
partition, and in it the heads of an XFS of six allocation groups. All else is zeros.

Usage: volume.py VOLUME
The volume has 16,384 sectors of 512 bytes. The partition begins at sector 2048; an allocation group has 256 blocks of
4,096 bytes, that is 2,048 sectors.
"""

import struct
import sys
import zlib

SECTOR = 512
SECTORS = 16384
FIRST = 2048
GROUP_BLOCKS = 256
GROUP_SECTORS = GROUP_BLOCKS * 8
GROUPS = 6
LAST = FIRST + GROUPS * GROUP_SECTORS - 1
LINUX = bytes.fromhex("af3dc60f838472478e793d69d8477de4")


def entries():
    """The 128 entries of the table, of which one is in use."""
    entry = LINUX + bytes(range(16)) + struct.pack("<QQQ", FIRST, LAST, 0)
    return entry.ljust(128, b"\0").ljust(128 * 128, b"\0")


def header(place, other, table):
    """The header of the table at a sector, whose other copy is at another, and whose entries begin at a third."""
    tail = struct.pack("<QQQQ16sQIII", place, other, 34, SECTORS - 34, bytes(range(16, 32)), table, 128, 128,
                       zlib.crc32(entries()))
    head = b"EFI PART" + struct.pack("<III", 0x10000, 92, 0)
    check = zlib.crc32(head + struct.pack("<I", 0) + tail)
    return (head[:16] + struct.pack("<I", check) + struct.pack("<I", 0) + tail)[:92]


def super_block():
    """The superblock of the file system (big-endian): block size, group size, number of groups, sector size."""
    sector = bytearray(SECTOR)
    sector[0:4] = b"XFSB"
    struct.pack_into(">IQ", sector, 4, 4096, GROUPS * GROUP_BLOCKS)
    struct.pack_into(">II", sector, 84, GROUP_BLOCKS, GROUPS)
    struct.pack_into(">H", sector, 102, SECTOR)
    return bytes(sector)


def main(path):
    volume = bytearray(SECTORS * SECTOR)

    def put(sector, data):
        volume[sector * SECTOR:sector * SECTOR + len(data)] = data

    put(1, header(1, SECTORS - 1, 2))
    put(2, entries())
    put(SECTORS - 1, header(SECTORS - 1, 1, SECTORS - 33))
    put(SECTORS - 33, entries())
    for group in range(GROUPS):
        start = FIRST + group * GROUP_SECTORS
        put(start, super_block())
        put(start + 1, struct.pack(">4sIII", b"XAGF", 1, group, GROUP_BLOCKS))
        put(start + 2, struct.pack(">4sIII", b"XAGI", 1, group, GROUP_BLOCKS))
    with open(path, "wb") as file:
        file.write(volume)


if __name__ == "__main__":
    if len(sys.argv) != 2:
        sys.exit(__doc__)
    main(sys.argv[1])
