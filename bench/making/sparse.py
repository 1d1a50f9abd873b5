#!/usr/bin/env python3
"""Makes the disks of a large array from a volume with data in a few places, for trying reraid. Nothing is read or written where
the volume has a hole, so both may have many TiB. They are left-symmetric, with Q in the order after Q, and zeros around the data.

Usage: sparse.py LEVEL CHUNK OFFSET SECTORS VOLUME DISK..
LEVEL is 5 or 6. CHUNK, OFFSET, at which the data of each disk begin, and SECTORS, the length of a disk, are in sectors of 512 bytes.
"""

import os
import sys

from disks import PARITY, SECTOR, row_of


def rows_with_data(volume, wide):
    """The rows of `wide` bytes of an open volume that are not in a hole, in their order."""
    place, done = 0, -1
    while True:
        try:
            start = os.lseek(volume, place, os.SEEK_DATA)
        except OSError:
            return
        place = os.lseek(volume, start, os.SEEK_HOLE)
        for row in range(max(done + 1, start // wide), (place - 1) // wide + 1):
            yield row
            done = row


def main():
    if len(sys.argv) < 8 or sys.argv[1] not in ("5", "6"):
        sys.exit(__doc__)
    parity, size, offset, length = PARITY[sys.argv[1]], *(int(word) * SECTOR for word in sys.argv[2:5])
    volume, names = os.open(sys.argv[5], os.O_RDONLY), sys.argv[6:]
    disks = [os.open(name, os.O_RDWR | os.O_CREAT | os.O_TRUNC, 0o666) for name in names]
    for disk in disks:
        os.ftruncate(disk, length)
    count = len(names) - parity
    for row in rows_with_data(volume, size * count):
        data = os.pread(volume, size * count, row * size * count).ljust(size * count, b"\0")
        items = [data[at : at + size] for at in range(0, size * count, size)]
        for disk, block in zip(disks, row_of(items, row, len(names), "ls", "after-q")):
            if any(block):
                os.pwrite(disk, block, offset + row * size)


if __name__ == "__main__":
    main()
