"""What a server of NBD that only reads has to say, written from the specification of the protocol and the words of reraid-nbd(1), and
without its source: the bytes that it puts for the bytes that it takes, and its status. And clients that ask at random.
"""

import random
import struct

FLAGS = struct.Struct(">I")
OPTION = struct.Struct(">8sII")
REQUEST = struct.Struct(">IHHQQI")
REPLY = struct.Struct(">IIQ")

GREETING = b"NBDMAGIC" + b"IHAVEOPT" + struct.pack(">H", 0b11)
OPTION_REPLY = bytes.fromhex("0003e889045565a9")
EXPORT_NAME, ABORT, LIST, INFO, GO = 1, 2, 3, 6, 7
ACK, SERVER, INFO_REPLY = 1, 2, 3
UNSUPPORTED, INVALID, UNKNOWN, TOO_BIG = (0x80000000 + number for number in (1, 3, 6, 9))
READ, WRITE, DISCONNECT, FLUSH, TRIM, CACHE, ZEROES, STATUS, RESIZE = range(9)
CHANGES = WRITE, TRIM, ZEROES
REQUEST_MAGIC, REPLY_MAGIC = 0x25609513, 0x67446698
NOT_PERMITTED, INPUT_OUTPUT, NOT_VALID = 1, 5, 22
# HAS_FLAGS, READ_ONLY, CAN_MULTI_CONN.
EXPORT_FLAGS = 1 << 0 | 1 << 1 | 1 << 8
# What a client may ask for that was told no sizes of blocks, as one that entered by EXPORT_NAME.
GREATEST = 32 << 20
DONE, MALFORMED = 0, 14


class Malformed(Exception):
    """The client said what it may not."""


class Over(Exception):
    """The client said that it goes."""


class Input:
    """The bytes that the server takes."""

    def __init__(self, data):
        self.data, self.at = data, 0

    def begins(self):
        """Another message begins."""
        return self.at < len(self.data)

    def take(self, count):
        """The next bytes of a message, which may not end in it."""
        if self.at + count > len(self.data):
            raise Malformed
        self.at += count
        return self.data[self.at - count : self.at]


def option_reply(option, kind, data=b""):
    return OPTION_REPLY + struct.pack(">III", option, kind, len(data)) + data


def answer_option(option, data, size):
    """The reply to an option that is not EXPORT_NAME, and whether requests come next."""
    if option in (INFO, GO):
        if len(data) > 65536:
            return option_reply(option, TOO_BIG), False
        if len(data) < 6:
            return option_reply(option, INVALID), False
        name = struct.unpack(">I", data[:4])[0]
        if len(data) < name + 6 or len(data) != name + 6 + 2 * struct.unpack(">H", data[name + 4 : name + 6])[0]:
            return option_reply(option, INVALID), False
        if name:
            return option_reply(option, UNKNOWN), False
        told = option_reply(option, INFO_REPLY, struct.pack(">HQH", 0, size, EXPORT_FLAGS))
        told += option_reply(option, INFO_REPLY, struct.pack(">HIII", 3, 1, 4096, GREATEST))
        return told + option_reply(option, ACK), option == GO
    if option in (LIST, ABORT) and data:
        return option_reply(option, INVALID), False
    if option == LIST:
        return option_reply(option, SERVER, struct.pack(">I", 0)) + option_reply(option, ACK), False
    return option_reply(option, ACK if option == ABORT else UNSUPPORTED), False


def haggle(taken, put, size):
    """The options, up to the one with which requests begin."""
    flags = FLAGS.unpack(taken.take(4))[0]
    if flags > 0b11:
        raise Malformed
    while taken.begins():
        magic, option, length = OPTION.unpack(taken.take(16))
        if magic != b"IHAVEOPT":
            raise Malformed
        if option == EXPORT_NAME:
            if length:
                raise Malformed
            put.append(struct.pack(">QH", size, EXPORT_FLAGS) + (b"" if flags & 0b10 else bytes(124)))
            return
        data = taken.take(length)
        told, requests = answer_option(option, data, size)
        put.append(told)
        if option == ABORT and not data:
            raise Over
        if requests:
            return


def error_of(flags, command, offset, length, size):
    """The error of a request, 0 for none."""
    if command in CHANGES:
        return NOT_PERMITTED
    return 0 if command == READ and not flags and length <= GREATEST and offset + length <= size else NOT_VALID


def is_lost(offset, length, lost):
    """One of the sectors in which these bytes lie is lost."""
    return length > 0 and not lost.isdisjoint(range(offset // 512, (offset + length - 1) // 512 + 1))


def serve(taken, put, content, lost):
    """The requests."""
    while taken.begins():
        magic, flags, command, handle, offset, length = REQUEST.unpack(taken.take(28))
        if magic != REQUEST_MAGIC:
            raise Malformed
        if command == WRITE:
            taken.take(length)
        if command == DISCONNECT:
            raise Over
        error = error_of(flags, command, offset, length, len(content))
        if command == READ and not error and is_lost(offset, length, lost):
            error = INPUT_OUTPUT
        put.append(REPLY.pack(REPLY_MAGIC, error, handle))
        if command == READ and not error:
            put.append(content[offset : offset + length])


def said(content, data, lost=frozenset()):
    """What is put for these bytes, which end there, and the status, where these sectors of the volume are lost."""
    taken, put = Input(data), [GREETING]
    try:
        if taken.begins():
            haggle(taken, put, len(content))
            serve(taken, put, content, lost)
        return b"".join(put), DONE
    except Over:
        return b"".join(put), DONE
    except Malformed:
        return b"".join(put), MALFORMED


def option(number, data=b"", magic=b"IHAVEOPT"):
    return OPTION.pack(magic, number, len(data)) + data


def request(command, handle, offset=0, length=0, flags=0, data=b"", magic=REQUEST_MAGIC):
    return REQUEST.pack(magic, flags, command, handle, offset, length) + data


def hello(flags=0b11):
    """The shortest way to requests."""
    return FLAGS.pack(flags) + option(EXPORT_NAME)


def entered(*told):
    """The way to requests by GO, with these numbers of what the client wants to be told."""
    return FLAGS.pack(0b11) + option(GO, struct.pack(f">IH{len(told)}H", 0, len(told), *told))


def reads(chance, size, count, most):
    """As many reads at random: most are short, some reach the end, some begin and end with a sector, a few are as long as may be."""
    data = []
    for handle in range(count):
        length = min(size, chance.choice([chance.randint(1, 2000), chance.randint(1, 2000), 512 * chance.randint(1, 300), chance.randint(1, most)]))
        place = chance.choice([chance.randint(0, size - length), chance.randint(0, size - length) // 512 * 512, size - length])
        data.append(request(READ, handle, place, length))
    return b"".join(data)


def some_data(chance):
    """The data of GO and INFO, right and wrong."""
    name = chance.choice([b"", b"", b"", b"x", b"/" * 300])
    asked = [chance.randrange(5) for _ in range(chance.choice([0, 0, 1, 3]))]
    data = struct.pack(">I", len(name)) + name + struct.pack(f">H{len(asked)}H", len(asked), *asked)
    return chance.choice([data, data, data, data, data[:-1], data + b"\0", data[:3], b"", bytes(65536), bytes(65537), b"\xff" * 12])


def some_option(chance):
    """One option: known and unknown ones, with data that they should have or should not."""
    number = chance.choice([LIST, INFO, INFO, INFO, GO, GO, ABORT, 4, 5, 8, 9, 10, 0, 99, 1 << 31, 0xFFFFFFFF, EXPORT_NAME])
    if number in (INFO, GO):
        return option(number, some_data(chance))
    if number == EXPORT_NAME:
        return option(number, chance.choice([b"", b"", b"name"]))
    return option(number, chance.choice([b"", b"", b"", bytes(chance.randrange(100)), bytes(100000)]), chance.choice([b"IHAVEOPT"] * 30 + [b"IHAVEOPt"]))


def some_request(chance, size):
    """One request: reads at the limits and past them, what is not permitted, what there is not, wrong flags, and magic numbers."""
    handle = chance.randrange(1 << 64)
    offset = chance.choice([0, size, size - 1, max(0, size - GREATEST), chance.randrange(size), (1 << 64) - 1, 1 << 63, size + 1])
    length = chance.choice([0, 1, 511, 4096, GREATEST, GREATEST + 1, size, max(0, size - offset), 0xFFFFFFFF, max(0, size - offset) + 1]) & 0xFFFFFFFF
    command = chance.choice([READ] * 8 + [WRITE, WRITE, FLUSH, TRIM, CACHE, ZEROES, STATUS, RESIZE, 99, 0xFFFF, DISCONNECT])
    flags = chance.choice([0] * 12 + [1, 2, 4, 0x8000])
    data = b""
    if command == WRITE:
        length = chance.choice([0, 1, 512, 65536, 5 << 20])
        data = bytes(length)
    return request(command, handle, offset, length, flags, data, chance.choice([REQUEST_MAGIC] * 60 + [REPLY_MAGIC, 0]))


def some_dialogue(chance, size):
    """A client that asks at random, ends anywhere, and now and then talks nonsense."""
    data = FLAGS.pack(chance.choice([0, 1, 2, 3, 3, 3, 3, 3, 3, 4, 7, 1 << 31]))
    data += b"".join(some_option(chance) for _ in range(chance.randrange(5)))
    data += chance.choice([option(EXPORT_NAME), option(GO, bytes(6)), option(GO, bytes(6)), b""])
    data += b"".join(some_request(chance, size) for _ in range(chance.randrange(12)))
    end = chance.randrange(10)
    if end == 0:
        return data[: chance.randrange(len(data))]
    return data + random.Random(chance.random()).randbytes(chance.randrange(60)) if end == 1 else data
