"""Arrays made from a volume, and the volume of a number."""

import struct
from array import array

from arrays import added, row_cells, row_exponents, times
from texts import RANKS, SECTOR


# Words are made side by side in one large number: each has sixteen bytes of it, so that a product does not reach the next, and after each
# step the lower eight are kept.
MANY = 4096
ONES = int.from_bytes((1).to_bytes(16, "little") * MANY, "little")
LOW = ONES * (RANKS - 1)
STEP = 0x9E3779B97F4A7C15
STEPS = int.from_bytes(b"".join((STEP * (place + 1) % RANKS).to_bytes(16, "little") for place in range(MANY)), "little")


def many_words(state):
    """The next words of SplitMix64 from a state, as bytes."""
    words = (STEPS + ONES * state) & LOW
    words = (words ^ (words >> 30) & LOW) * 0xBF58476D1CE4E5B9 & LOW
    words = (words ^ (words >> 27) & LOW) * 0x94D049BB133111EB & LOW
    words ^= (words >> 31) & LOW
    return array("Q", words.to_bytes(16 * MANY, "little"))[::2].tobytes()


def volume_of(number, size):
    """So many bytes of the words of SplitMix64 whose state begins as the number."""
    volume = bytearray(size)
    for at in range(0, size, 8 * MANY):
        volume[at:at + 8 * MANY] = many_words((number + STEP * (at // 8)) % RANKS)[:size - at]
    return volume


def array_images(found, rows, volume):
    """The images of an array that holds a volume."""
    images = {image: [bytes(found.offset * SECTOR)] for image in found.slots if image is not None}
    for row in range(rows):
        chunks = chunks_of_volume(found, volume, row)
        for slot, image in enumerate(found.slots):
            if image is not None:
                images[image].append(chunks[slot])
    return [b"".join(images.pop(image)) for image in sorted(images)]


def chunks_of_volume(found, volume, row):
    """The chunks of a row of an array that holds a volume, by their slots."""
    made, wide = row_cells(found, row), found.chunk * SECTOR
    starts = {slot: (row * found.data + item) * wide for slot, item in enumerate(made) if isinstance(item, int)}
    chunks = {slot: volume[start:start + wide] for slot, start in starts.items()}
    items = list(chunks)
    if "P" in made:
        chunks[made.index("P")] = added([chunks[slot] for slot in items])
    if "Q" in made:
        logs = row_exponents(found, row)
        chunks[made.index("Q")] = added([times(chunks[slot], logs[slot]) for slot in items])
    return chunks


def put_file_system(volume, data):
    """Puts the heads of the 64 groups of an XFS into a volume."""
    size = len(volume) // SECTOR // 512
    while size % data != 1 % data:
        size -= 1
    for group in range(64):
        at = 8 * size * group * SECTOR
        head = bytearray(SECTOR)
        head[0:4] = b"XFSB"
        struct.pack_into(">I", head, 4, 4096)
        head[32:48] = b"\xA5" * 16
        struct.pack_into(">II", head, 84, size, 64)
        struct.pack_into(">H", head, 102, 512)
        volume[at:at + SECTOR] = head
        for after, magic in ((1, b"XAGF"), (2, b"XAGI")):
            head = (magic + struct.pack(">II", 1, group)).ljust(SECTOR, b"\0")
            volume[at + after * SECTOR:at + (after + 1) * SECTOR] = head
