#!/usr/bin/env python3
"""Random reads of an NBD server that speaks over its standard input and output, as a client that has many requests under way.

Usage: nbd_reads.py COUNT LENGTH COMMAND..
Reads COUNT times LENGTH bytes at random multiples of LENGTH, at most 64 requests at a time, and prints how many reads a second
were answered. Each reply must be the one that is due, without an error.
"""

import random
import struct
import subprocess
import sys
import time

UNDER_WAY = 64
FIXED, NO_ZEROES, EXPORT_NAME = 1, 2, 1
REQUEST, REPLY, READ, DISCONNECT = 0x25609513, 0x67446698, 0, 2


def exactly(stream, count):
    """The next bytes of a stream, all of them."""
    data = stream.read(count)
    if len(data) != count:
        sys.exit(f"the server ended after {len(data)} of {count} bytes")
    return data


def greet(server):
    """Goes through the handshake, and gives the bytes of the export."""
    magic, option_magic, flags = struct.unpack(">8sQH", exactly(server.stdout, 18))
    if magic != b"NBDMAGIC" or option_magic != 0x49484156454F5054 or flags & 3 != 3:
        sys.exit("this is no fixed newstyle server")
    server.stdin.write(struct.pack(">I", FIXED | NO_ZEROES))
    server.stdin.write(struct.pack(">QII", 0x49484156454F5054, EXPORT_NAME, 0))
    server.stdin.flush()
    size, _ = struct.unpack(">QH", exactly(server.stdout, 10))
    return size


def main():
    if len(sys.argv) < 4:
        sys.exit(__doc__)
    count, length = int(sys.argv[1]), int(sys.argv[2])
    server = subprocess.Popen(sys.argv[3:], stdin=subprocess.PIPE, stdout=subprocess.PIPE, bufsize=1 << 20)
    size = greet(server)
    places = random.Random(0)
    begin = time.monotonic()
    for first in range(0, count, UNDER_WAY):
        handles = range(first, min(first + UNDER_WAY, count))
        for handle in handles:
            place = places.randrange(size // length) * length
            server.stdin.write(struct.pack(">IHHQQI", REQUEST, 0, READ, handle, place, length))
        server.stdin.flush()
        for handle in handles:
            magic, error, answered = struct.unpack(">IIQ", exactly(server.stdout, 16))
            if (magic, error, answered) != (REPLY, 0, handle):
                sys.exit(f"request {handle} was answered {magic:#x}, error {error}, handle {answered}")
            exactly(server.stdout, length)
    took = time.monotonic() - begin
    server.stdin.write(struct.pack(">IHHQQI", REQUEST, 0, DISCONNECT, count, 0, 0))
    server.stdin.close()
    if server.wait() != 0:
        sys.exit(f"the server ended with status {server.returncode}")
    print(f"{count / took:.0f}")


if __name__ == "__main__":
    main()
