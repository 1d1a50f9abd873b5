#!/usr/bin/env python3
"""Compares the reference with answers that were worked out by hand, and prints how many of them agree.

Usage: rows.py
An answer is the status, the line, and standard output as text, or as the bytes that fill its sectors. The status is 0 where all agree.
"""

import itertools
import pathlib
import re
import struct
import sys
import zlib

import reference
import trees
from texts import PATTERNS, SECTOR, SYNDROMES

NAMES = [*"abcdefghijklmnopqrstuvwx", *(f"n{place}" for place in range(24, 66))]
ROWS = []


def sectors(filled):
    """Sectors that are each filled with one byte."""
    return b"".join(bytes([byte]) * SECTOR for byte in bytes.fromhex(filled))


def with_sectors(length, there):
    """An image of zeros but for some sectors."""
    image = bytearray(length * SECTOR)
    for place, block in there.items():
        image[place * SECTOR:place * SECTOR + len(block)] = block
    return bytes(image)


def row(words, images=(), text="", out=None, status=0, line="", ends=None):
    """A run over images, named by letters, and its answer; `ends` has the first and last lines alone."""
    ROWS.append((words, images, text, out, status, line and f"reraid: {line}\n", ends))


def plan(lengths, version=1, groups="", **changed):
    """A plan of a RAID 5 with all members there, with what is changed."""
    values = {"end": min(lengths), "levels": 5, "members": 3, "patterns": "ls", "syndromes": "none", "chunks": 1, "offsets": 0,
              "origins": 0, "missing": 0, "foreign": 0, "badrows": 0, "window": max(1, min(lengths)), "misfits": 0, "least": 1, **changed}
    delays = values.pop("delays", None)
    lines = [f"reraid-plan {version}", f"images {len(lengths)}", *(f"length {length}" for length in lengths)]
    for name, value in values.items():
        lines += [f"delays {delays}"] if name == "syndromes" and delays is not None else []
        lines.append(f"{name} {value}")
    return "".join(f"{line}\n" for line in lines) + groups + "done\n"


# Landmark sectors

def little(fields):
    """A sector with these fields, by their places, lowest byte first."""
    block = bytearray(SECTOR)
    for place, (form, value) in fields.items():
        struct.pack_into("<" + form, block, place, value)
    return bytes(block)


def gpt_header(own, other, entries=2):
    block = bytearray(little({0: ("8s", b"EFI PART"), 12: ("I", 92), 24: ("Q", own), 32: ("Q", other), 72: ("Q", entries), 84: ("I", 128)}))
    struct.pack_into("<I", block, 16, zlib.crc32(block[:92]))
    return bytes(block)


def gpt_entry(first, last):
    return little({0: ("16s", b"\1" * 16), 32: ("Q", first), 40: ("Q", last)})


def label(sector, version=b"LVM2 001"):
    return little({0: ("8s", b"LABELONE"), 8: ("Q", sector), 24: ("8s", version)})


def btrfs(address, fsid=b"\7" * 16, more=b""):
    return more + little({32: ("16s", fsid), 48: ("Q", address), 64: ("8s", b"_BHRfS_M")})[len(more):]


def ext(group, power=2, first=0, blocks=4, revision=1, uuid=b"\5" * 16):
    return little({20: ("I", first), 24: ("I", power), 32: ("I", blocks), 56: ("H", 0xEF53), 76: ("I", revision), 90: ("H", group),
                   104: ("16s", uuid)})


# An offset for each image

def own_offsets():
    images = [sectors("090102"), sectors("030409"), sectors("020609")]
    each = plan([3, 3, 3], 2, offsets="0,1", window=2)
    orders = [",".join(map(str, order)) for order in itertools.permutations(range(3))]
    passing = [f"{24 + place} 5:ls:none:1:1+0+0:{order}" for place, order in enumerate(orders)] + ["next 48 of 48"]
    row("list", images, each, "".join(line + "\n" for line in passing))
    row("list from=24 size=1 form=json", images, each, '{"chunk":1,"level":5,"name":"left-symmetric","offset":[1,0,0],"pattern":"ls",'
        '"rank":24,"slots":[0,1,2],"syndrome":"none"}\n{"next":25,"total":48}\n')
    right = "set=5:ls:none:1:1+0+0:0,1,2"
    row(f"write {right}", images, out=sectors("01030602"))
    row("write set=5:ls:none:1:0+0:0,1,2", images, status=7, line="set rule 12 value 2")
    row(f"check {right}", images, each, "rank 24\nunsound 0 of 2\npass\n")
    row("check set=5:ls:none:1:0+0+1:0,1,2", images, each, "rank 6\nunsound 2 of 2\nfail\n")
    row("check set=5:ls:none:1:0:0,1,2", images, each, "rank -\nunsound 2 of 2\nfail\n")
    row(f"check {right}", images, plan([3, 3, 3]), "rank -\nunsound 0 of 2\npass\n")
    row("check set=5:ls:none:1:3+0+0:0,1,2", images, each, status=7, line="set rule 8 value 3")
    row(f"map {right} sector=2", images, out="row 1 item 0 slot 2 image 2 sector 1 p 1 q -\nname left-symmetric\n")
    row(f"map {right} sector=0", images, out="row 0 item 0 slot 0 image 0 sector 1 p 2 q -\nname left-symmetric\n")
    row("map set=5:ls:none:1:0+1:0,1,- sector=2", images[:2], out="row 1 item 0 slot 2 image - sector 2 p 1 q -\nname left-symmetric\n")
    row("rebuild set=5:ls:none:1:1+0:0,1,- slot=2", images[:2], out=sectors("0206"))
    row("rebuild set=5:ls:none:1:0+0:0,1,- slot=0", images[:2], status=7, line="set rule 9 value 0")
    row("rebuild set=5:ls:none:1:0+0+0:0,1,- slot=2", images[:2], status=7, line="set rule 12 value 3")
    row("write set=5:ls:none:1:0+0+0+0:0,1,2", [*images, images[0]], status=7, line="set rule 12 value 4")
    row("sample number=7 set=5:ls:none:8:0+0+0:0,1,2 rows=2", status=7, line="set rule 12 value 3")
    row("sample number=7 set=5:ls:none:8:0+0+0:0,1,2 rows=2 marks=xfs", status=7, line="set rule 11 value 32")
    many = plan([1] * 16, 2, levels=0, members=16, patterns="plain", offsets=",".join(map(str, range(64))))
    past = "the product has more than 18446744073709551615 sets"
    row("list", [sectors("00")] * 16, many, status=5, line=past)
    row("list", [sectors("00")] * 16, plan([1] * 16, 2, levels=0, members=16, patterns="plain", offsets="0"),
        ends=("0 0:plain:none:1:" + "+".join("0" * 16) + ":" + ",".join(map(str, range(16))), "next 100 of 20922789888000"))
    row("list", [sectors("00")] * 2, plan([1, 1], 2, foreign=1), status=2, line="plan line 14 is not understood")
    row("list", [sectors("00")] * 2, plan([1, 1], 2, offsets=2 ** 54), status=2, line="plan line 11 is not understood")
    row("list", [sectors("00")] * 2, plan([1, 2 ** 54], 2), status=2, line="plan line 4 is not understood")
    for words, place in (("mode=each foreign=1", 3), ("foreign=1 mode=each", 3), ("mode=each offsets=18014398509481984", 3),
                         ("offsets=18014398509481984 mode=each", 3), ("mode=each mode=each", 3), ("mode=every", 2)):
        row(f"survey {words}", [sectors("00")], status=1, line=f"word {place} is not understood")
    row("survey mode=each levels=5 patterns=ls syndromes=none chunks=1 offsets=0,1 members=3 origins=0", images,
        out=plan([3, 3, 3], 2, offsets="0,1"))


# Partition tables of blocks of 4,096 bytes, and 24 images

def large_blocks():
    images = [with_sectors(64, {8: gpt_header(1, 15), 16: gpt_entry(5, 12)}), with_sectors(64, {})]
    for words, origins, mark in (("logical=4096 ", "0,40", "at:8"), ("", "0", "at:1")):
        asked = {"levels": 0, "members": 2, "patterns": "plain", "syndromes": "none", "chunks": 1, "offsets": 0}
        operands = words + " ".join(f"{name}={value}" for name, value in asked.items()) + " origins=0"
        row(f"survey {operands}", images, out=plan([64, 64], groups=f"group gpt\nmark gpt 0 8 {mark}\n", **{**asked, "origins": origins}))
    row("list", [sectors("00")] * 24, plan([1] * 24, members=24), status=5, line="the product has more than 18446744073709551615 sets")
    row("list size=1", [sectors("00")] * 24, plan([1] * 24, foreign=21), out="0 5:ls:none:1:0:0,1,2\nnext 1 of 12144\n")


# Rescue texts

def rescue():
    images, word = [sectors("0102"), sectors("0304"), sectors("0206")], "set=5:ls:none:1:0:0,1,2"
    first = "map 0\n# x\n0x0 ? 1\n0x0 0x200 -\n0x200 0x200 +\n"
    row(f"salvage {word}", images, first, sectors("01030602"))
    row(f"salvage {word} form=lost", images, first, "good 4 of 4\n")
    second = first + "map 1\n0 +\n0 512 -\n"
    row(f"salvage {word}", images, second + "512 512 +\n", sectors("00000602"))
    row(f"salvage {word} form=lost", images, second + "512 512 +\n", "lost 0 2\ngood 2 of 4\n")
    row(f"salvage {word}", images, second + "513 512 +\n", status=9, line="rescue line 9 is not understood")
    row(f"salvage {word}", images, "", sectors("01030602"))
    # a section without blocks has no good sector; a status line may read like the beginning of another
    row(f"salvage {word} form=lost", images, "map 2", "good 4 of 4\n")
    row(f"salvage {word} form=lost", images, "map 1\nmap 2\n", "good 4 of 4\n")
    row(f"salvage {word} form=lost", images, "map 1\nx\nmap 2\n", "lost 1 2\ngood 2 of 4\n")
    for text, place in (("map 3\n", 1), ("map 01\n", 1), ("map  0\n", 1), ("map 0 \n", 1), ("map 0\nmap 01\nmap 0\n", 3), ("0 1 +\n", 1),
                        (" \n", 1), ("map 1\nx\nmap 0\n", 3), ("map 0\nx\n0 0 +\n", 3), ("map 0\nx\n0X0 1 +\n", 3),
                        ("map 0\nx\n0x 1 +\n", 3), ("map 0\nx\n\n# y\n0 1 +\r\n", 5), ("map 0\nx\n18446744073709551615 1 +\n", 3),
                        ("map 0\nx\n0 1 %\n", 3)):
        row(f"salvage {word}", images, text, status=9, line=f"rescue line {place} is not understood")
    row(f"salvage {word} form=lost", images, "map 0\n\n# y\n \n\t0x00\t0x1fF + \n511 1 +\n512 511 +", "good 4 of 4\n")
    # the first sector of image 0 is good by two blocks together, so nothing of row 0 is lost but image 1; in row 1 two are lost
    row(f"salvage {word} form=lost", images, "map 0\n?\n0 511 +\n511 1 +\n512 511 +\nmap 1\n?\n", "lost 3 1\ngood 3 of 4\n")
    row(f"salvage {word}", images, "x" * 4194305, status=3, line="rescue text is longer than 4194304 bytes")
    row("salvage set=5:ls:none:1:0+0:0,1,2", images, "map 5\n", status=9, line="rescue line 1 is not understood")
    row("salvage set=5:ls:none:1:0+0:0,1,2", images, status=7, line="set rule 12 value 2")


# Delayed parity

def delayed_rows():
    """Rows 0 1 P, 0 1 P, 0 P 1 and 0 P 1, of sectors 01 to 80 of the volume."""
    images, word = [sectors("01041040"), sectors("020830C0"), sectors("030C2080")], "set=5:la*2:none:1:0:0,1,2"
    row(f"write {word}", images, out=sectors("0102040810204080"))
    row("write set=5:la:none:1:0:0,1,2", images, out=sectors("0102040C302040C0"))
    row(f"map {word} sector=3", images, out="row 1 item 1 slot 1 image 1 sector 1 p 2 q -\nname -\n")
    row(f"map {word} sector=5", images, out="row 2 item 1 slot 2 image 2 sector 2 p 1 q -\nname -\n")
    row("rebuild set=5:la*2:none:1:0:0,-,1 slot=1", [images[0], images[2]], out=sectors("020830C0"))
    row("salvage set=5:la*2:none:1:0:0,-,1 form=lost", [images[0], images[2]], "map 1\n+\n0 1024 +\n1024 512 -\n1536 512 +\n",
        "lost 5 1\ngood 7 of 8\n")
    own = [sectors("0104104000"), sectors("00020830C0"), sectors("030C208000")]
    row("write set=5:la*2:none:1:0+1+0:0,1,2", own, out=sectors("0102040810204080"))
    # the delay stands behind the pattern in the order of sets, and parity that stays has no delay
    text = plan([4] * 3, "3\nmode common", patterns="la,parity-last", delays="1,2")
    row("list from=6 size=1", images, text, "6 5:la*2:none:1:0:0,1,2\nnext 7 of 18\n")
    row("list from=12 size=1", images, text, "12 5:parity-last:none:1:0:0,1,2\nnext 13 of 18\n")
    row("list from=6 size=1 form=json", images, text, '{"chunk":1,"level":5,"name":null,"offset":0,"pattern":"la*2","rank":6,"slots":[0,1,2],'
        '"syndrome":"none"}\n{"next":7,"total":18}\n')
    row(f"check {word}", images, text, "rank 6\nunsound 0 of 4\npass\n")
    row("check set=5:la*3:none:1:0:0,1,2", images, text, "rank -\nunsound 0 of 4\npass\n")
    both = [sectors(byte + byte) for byte in ("1C", "01", "80", "81")]
    six = {"levels": 6, "members": 4, "patterns": "la", "syndromes": "after-q"}
    row("list", both, plan([2] * 4, "3\nmode common", delays="1,2,3", **six),
        "24 6:la*2:after-q:1:0:0,1,2,3\n48 6:la*3:after-q:1:0:0,1,2,3\nnext 72 of 72\n")
    row("check set=6:la:after-q:1:0:0,1,2,3", both, plan([2] * 4, **six), "rank 0\nunsound 1 of 2\nfail\n")
    row("check set=6:la*2:after-q:1:0:0,1,2,3", both, plan([2] * 4, **six), "rank -\nunsound 0 of 2\npass\n")
    # four patterns have a delay: with nine chunks, four offsets and six orders of the images these are 864 sets
    row("sample number=7 set=5:la*2:none:8:0:0,1,2 rows=2", out="images 3\nsectors 16\nmarks 0\ntotal 864\nfound yes\nnext 864 of 864\n")
    refused_delays(images)
    delayed_classes()


def refused_delays(images):
    for pattern, bases, rule, value in (("parity-last*2", "0", 13, 2), ("la*1025", "0", 13, 1025), ("la*1025", "0+0", 12, 2), ("la*1024", "4", 8, 4),
                                        ("plain*2", "0", 2, 0)):
        row(f"write set=5:{pattern}:none:1:{bases}:0,1,2", images, status=7, line=f"set rule {rule} value {value}")
    row("rebuild set=5:la*1025:none:1:0:0,1,2 slot=1", images, status=7, line="set rule 9 value 1")
    row("sample number=7 set=5:la*1025:none:8:0+0+0:0,1,2 rows=2", status=7, line="set rule 12 value 3")
    row("sample number=7 set=5:la*1025:none:8:0:0,1,2 rows=2 marks=xfs", status=7, line="set rule 11 value 32")
    row("sample number=7 set=5:la*1025:none:8:0:0,1,2 rows=2", status=7, line="set rule 13 value 1025")
    for pattern in ("la*1", "la*0", "la*02", "la*", "la**2", "*2", "la*4294967296", "la*-2"):
        row(f"write set=5:{pattern}:none:1:0:0,1,2", images, status=1, line="word 2 is not understood")
    asked = {"levels": 5, "members": 3, "patterns": "la", "syndromes": "none", "chunks": 1, "offsets": 0}
    words = "survey " + " ".join(f"{name}={value}" for name, value in asked.items()) + " origins=0"
    for mode in ("common", "each"):
        row(f"{words} mode={mode} delays=2,16", images, out=plan([4] * 3, f"3\nmode {mode}", delays="2,16", **asked))
    row(f"{words} delays=1", images, out=plan([4] * 3, **asked))
    for delays in ("", "0", "1025", "16,2", "2,2", "01", ",".join(map(str, range(1, 18)))):
        row(f"survey delays={delays}", images, status=1, line="word 2 is not understood")
    row("mirrors delays=1", images, status=1, line="word 2 is not understood")
    for version, delays, place in ((1, "2", 10), (2, "2", 10), ("3\nmode common", "1", 11), ("3\nmode each", "1,1025", 11), ("3\nmode common", "2,1", 11)):
        row("list", images, plan([4] * 3, version, delays=delays), status=2, line=f"plan line {place} is not understood")
    twice = plan([4] * 3, "3\nmode common", delays="2").replace("delays 2\n", "delays 2\ndelays 2\n")
    row("list", images, twice, status=2, line="plan line 12 is not understood")
    early = plan([4] * 3, "3\nmode common").replace("patterns ls\n", "delays 2\npatterns ls\n")
    row("list", images, early, status=2, line="plan line 10 is not understood")


def delayed_classes():
    """Delays are alike as far as the parity of neither has moved."""
    for one, other, rows, classes in (("la", "la*2", 1, 1), ("la", "la*2", 2, 2), ("la*2", "la*3", 2, 1), ("la*2", "la*3", 3, 2), ("la*16", "la*1024", 16, 1),
                                      ("la*16", "la*1024", 17, 2), ("la*1023", "ls*1024", 1023, 1), ("la*1023", "ls*1024", 1024, 2),
                                      ("la*1024", "la*1024", 10 ** 6, 1), ("la*1023", "la*1024", 10 ** 6, 2)):
        lines = [f"{pattern}:none:1:0:0,1,2\n" for pattern in (one, other)]
        row(f"classes images=3 end={rows}", text="".join(f"{place} 5:{line}" for place, line in enumerate(lines)),
            out=f"0 5:{lines[0]}{classes - 1} 5:{lines[1]}classes {classes} of 2\n")
    row("classes images=3 end=4", text="0 5:parity-last*2:none:1:0:0,1,2\n", status=13, line="set line 1 is not understood")


# Copies next to each other

def near():
    four, usual = [sectors("0102"), sectors("0102"), sectors("0304"), sectors("0304")], "chunks=1 offsets=0"
    orders = [",".join(map(str, order)) for order in itertools.permutations(range(4))]
    lines = [f"{rank} near2:1:0:{orders[rank]}\n" for rank in (0, 1, 6, 7, 16, 17, 22, 23)]
    row(f"mirrors {usual}", four, out="".join(lines) + "next 24 of 24\n")
    row(f"mirrors {usual} size=2 from=1", four, out="".join(lines[1:3]) + "next 7 of 24\n")
    row("mirrorwrite set=near2:1:0:0,1,2,3", four, out=sectors("01030204"))
    three = [sectors("0506"), sectors("0507"), sectors("0607")]
    row(f"mirrors {usual}", three, out="0 near2:1:0:0,1,2\nnext 6 of 6\n")
    # the second copy of the middle chunk lies past the window, so its sector is not tested
    row(f"mirrors {usual} window=1", [sectors("0506"), sectors("0507"), sectors("0807")],
        out="0 near2:1:0:0,1,2\n2 near2:1:0:1,0,2\nnext 6 of 6\n")
    row("mirrorwrite set=near2:1:0:0,-,1", [three[0], three[2]], out=sectors("050607"))
    row("mirrorwrite set=near2:1:0:0,-,-", [three[0]], status=7, line="set rule 25 value 2")
    for word, rule, value in (("1:0:0", 21, 1), ("3:0:0,1,2", 22, 3), ("1:0:0,1,7", 23, 7), ("1:0:0,1,1", 24, 1), ("1:2:0,1,2", 26, 2)):
        row(f"mirrorwrite set=near2:{word}", three, status=7, line=f"set rule {rule} value {value}")
    row(f"mirrors {usual} from=7", three, status=6, line="cursor 7 is past 6")
    row("mirrors missing=24", three, status=1, line="word 2 is not understood")
    row("mirrors pages=1", three, status=1, line="word 2 is not understood")
    row("mirrorwrite", three, status=1, line="word 2 is not understood")
    row("mirrors end=3", three, status=4, line="images: end given 3 planned 2")
    row(f"mirrors {usual}", [sectors("00")] * 21, status=5, line="the product has more than 18446744073709551615 sets")


# Copies otherwise: the volume's chunks are 1, 2, 3 and so on, and what no chunk lies on is 99

def copies():
    def volume(word, images, out):
        row(f"mirrorwrite set={word}", [sectors(image) for image in images.split()], out=sectors(out))

    def refused(word, images, value, rule=25):
        row(f"mirrorwrite set={word}", [sectors(image) for image in images.split()], status=7, line=f"set rule {rule} value {value}")
    volume("far2:1:0:0,1", "0102 0201", "0102")
    volume("far2:1:0:0,-", "0102", "0102")
    volume("far2:1:0:-,0", "0201", "0102")
    volume("far2:1:0:0,1,2", "01040306 02050104 03060205", "010203040506")
    volume("far2:1:0:0,-,1", "01040306 03060205", "010203040506")
    volume("far2:1:0:0,1,2,3", "010499 020199 030299 040399", "01020304")
    volume("far2:1:0:-,0,-,1", "020199 040399", "01020304")
    refused("far2:1:0:0,-,-,1", "010499 040399", 1)
    refused("far2:1:0:0,1,2", "99 99 99", 0, 26)
    refused("far3:1:0:0,1", "010201 020102", 2, 21)
    volume("far3:1:0:0,1,2,3", "01040399 02010499 03020199 04030299", "01020304")
    refused("far3:1:0:-,-,0,-", "03020199", 3)
    volume("offset2:1:0:0,1,2", "01030406 02010504 03020605", "010203040506")
    volume("offset2:1:0:0,-,1", "0103040699 0302060599", "010203040506")
    volume("offset3:1:0:0,-,-", "010302", "010203")
    refused("offset2:1:0:0,-,-", "01030406", 1)
    volume("near3:1:0:0,1,2,3", "010203 010204 010304 020304", "01020304")
    volume("near3:1:0:0,-,-,1", "010203 020304", "01020304")
    refused("near3:1:0:-,-,-,0", "020304", 0)
    volume("near2:1:0:-,0,-,1,2", "0104 0205 0305", "0102030405")
    refused("near2:1:0:0,-,-,1,2", "0103 0205 0305", 2)
    volume("near2:1:0:0,-,-,1,2", "01 02 99", "0102")
    refused("near2:1:1:0,-,1", "99 99", 1, 26)
    refused("near2:1:1:0,-,-", "99 99", 2)
    two, three = [sectors("0102"), sectors("0201")], [sectors(image) for image in ("01040306", "02050104", "03060205")]
    row("mirrors layouts=far2 chunks=1 offsets=0", two, out="0 far2:1:0:0,1\n1 far2:1:0:1,0\nnext 2 of 2\n")
    turned = "6 far2:1:0:0,1,2\n9 far2:1:0:1,2,0\n10 far2:1:0:2,0,1\n"
    row("mirrors layouts=near2,far2,far4 chunks=1 offsets=0", three, out=f"{turned}next 12 of 12\n")
    # a window is one of each part, and of three copies that differ there are three pairs
    wrong = [three[0][:-SECTOR] + sectors("99"), *three[1:]]
    row("mirrors layouts=near2,far2 chunks=1 offsets=0 window=1", wrong, out=f"{turned}next 12 of 12\n")
    row("mirrors layouts=near2,far2 chunks=1 offsets=0 window=2", wrong, out="next 12 of 12\n")
    row("mirrors layouts=near2,far2 chunks=1 offsets=0 badrows=1", wrong, out=f"{turned}next 12 of 12\n")
    for bad, line in ((2, ""), (3, "0 near3:1:0:0,1,2\n")):
        row(f"mirrors layouts=near3 chunks=1 offsets=0 span=1 badrows={bad}", [sectors("01"), sectors("02"), sectors("03")], out=f"{line}next 1 of 6\n")
    # of two chunks of three copies the second is not tested: two cells of its row are those of a third chunk
    row("mirrors layouts=near3 chunks=1 offsets=0 span=1", [sectors(image) for image in ("0199", "0102", "0188", "0277")],
        out="0 near3:1:0:0,1,2,3\nnext 1 of 24\n")
    # of two chunks on four slots two may be missing, one of each pair; with three missing a chunk has no copy
    row("mirrors chunks=1 offsets=0 members=4 missing=3 foreign=1", [sectors("01"), sectors("02")],
        out="".join(f"{rank} near2:1:0:{slots}\n" for rank, slots in (
            (1, "0,-,1,-"), (2, "0,-,-,1"), (5, "1,-,0,-"), (6, "1,-,-,0"), (8, "-,0,1,-"), (9, "-,0,-,1"), (11, "-,1,0,-"), (12, "-,1,-,0")))
        + "next 20 of 20\n")
    for word in ("layouts=far2,near2", "layouts=far5", "layouts=near1", "layouts=", "layouts=near2,near2", "layouts=5"):
        row(f"mirrors {word}", two, status=1, line="word 2 is not understood")
    for word in ("near1", "near5", "far1", "offset5", "far02", "offset"):
        row(f"mirrorwrite set={word}:1:0:0,1", two, status=1, line="word 2 is not understood")


# Landmarks of btrfs, LVM2 and ext

def file_systems():
    asked = {"levels": 0, "members": 2, "patterns": "plain", "syndromes": "none", "chunks": 1, "offsets": 0}
    words = "survey " + " ".join(f"{name}={value}" for name, value in asked.items()) + " origins=0"

    def seen(there, groups, more="", length=400):
        row(f"{words} {more}".strip(), [with_sectors(length, there)], out=plan([length], groups=groups, **asked))
    two, lvm = {3: label(1), 130: btrfs(65536)}, "group lvm\nmark lvm 0 3 at:1\n"
    seen(two, "group btrfs\nmark btrfs 0 130 at:128\n" + lvm)
    seen({3: label(1, b"LVM2 002"), 130: btrfs(65537)}, "")
    seen(two, lvm, "kinds=lvm")
    seen({3: label(2 ** 55 - 1), 4: label(2 ** 55)}, "group lvm\nmark lvm 0 3 at:36028797018963967\n")
    seen({3: label(1), 4: label(1)}, lvm + "group lvm\nmark lvm 0 4 at:1\n")
    seen({1: btrfs(67108864, b"\1" * 16), 2: btrfs(65536, b"\2" * 16), 3: btrfs(274877906944, b"\1" * 16)},
         "group btrfs\nmark btrfs 0 1 at:131072\nmark btrfs 0 3 at:536870912\ngroup btrfs\nmark btrfs 0 2 at:128\n")
    # an AGF, or a label, is no btrfs, whatever is asked for
    seen({1: btrfs(65536, more=b"XAGF\0\0\0\1")}, "", "kinds=btrfs")
    seen({1: btrfs(65536, more=b"XAGF\0\0\0\2")}, "group btrfs\nmark btrfs 0 1 at:128\n", "kinds=btrfs")
    seen({1: btrfs(65536, more=label(1)[:32])}, "", "kinds=btrfs")
    seen({1: ext(0), 33: ext(1), 50: ext(3)}, "group ext\nmark ext 0 33 at:32\nmark ext 0 50 at:96\n", "kinds=ext")
    seen({33: ext(1)}, "")
    seen({1: ext(1, power=7), 2: ext(65535), 3: ext(1, blocks=0), 4: ext(1, first=1), 5: ext(1, power=0, first=2), 6: ext(1, revision=2)},
         "", "kinds=ext")
    seen({1: ext(1, power=0, first=1), 2: ext(65534, power=6, blocks=2 ** 32 - 1)},
         f"group ext\nmark ext 0 1 at:10\ngroup ext\nmark ext 0 2 at:{65534 * (2 ** 32 - 1) * 128}\n", "kinds=ext")
    both = little({32: ("16s", b"\7" * 16), 48: ("Q", 65536), 56: ("H", 0), 64: ("8s", b"_BHRfS_M")})
    seen({5: both, 6: ext(2, uuid=b"\6" * 16), 7: label(9)},
         "group btrfs\nmark btrfs 0 5 at:128\ngroup lvm\nmark lvm 0 7 at:9\ngroup ext\nmark ext 0 6 at:64\n",
         "kinds=gpt,ntfs,xfs,btrfs,lvm,ext")
    # the first bytes of the identifier are the blocks of a group of what would be an ext
    one = little({32: ("16s", b"\7" * 16), 48: ("Q", 65536), 56: ("H", 0xEF53), 64: ("8s", b"_BHRfS_M"), 90: ("H", 1)})
    seen({5: one}, "group btrfs\nmark btrfs 0 5 at:128\n", "kinds=btrfs,ext")
    seen({5: one}, "", "kinds=ext")
    other = one[:64] + bytes(8) + one[72:]
    seen({5: other}, f"group ext\nmark ext 0 5 at:{2 * 0x07070707}\n", "kinds=btrfs,ext")
    seen({7: label(9)}, "group lvm\nmark lvm 0 7 at:9\n", "kinds=lvm,ext")
    row("survey kinds=ext,lvm", [sectors("00")], status=1, line="word 2 is not understood")
    on_two = plan([4, 4], groups="group btrfs\nmark btrfs 0 1 at:2\n", **{**asked, "origins": "0,1"})
    for rank, slots in ((0, "0,1"), (1, "1,0")):
        row(f"check set=0:plain:none:1:0:{slots}", [with_sectors(4, {})] * 2, on_two,
            f"rank {rank}\nunsound 0 of 4\ngroup 0 btrfs origin {rank} fits 1 misfits 0\npass\n")
    for place, groups in ((19, "group lvm\ngroup btrfs\n"), (18, "group zfs\n"), (19, "group lvm\nmark btrfs 0 1 at:0\n"),
                          (50, "group ext\n" * 33)):
        row("list", [with_sectors(4, {})], plan([4], groups=groups), status=2, line=f"plan line {place} is not understood")


# Inodes of XFS

def crc32c(data):
    """The checksum, bit by bit: the remainder of the bytes as a polynomial, lowest bit first, by that of CRC-32C."""
    rest = 2 ** 32 - 1
    for byte in data:
        for bit in range(8):
            odd = (rest ^ byte >> bit) & 1
            rest = rest >> 1 ^ (0x82F63B78 if odd else 0)
    return rest ^ 2 ** 32 - 1


def xfs_inode(number, uuid=b"\6" * 16, wrong=0, version=3):
    block = bytearray(SECTOR)
    block[:2], block[4], block[160:176] = b"IN", version, uuid
    struct.pack_into(">Q", block, 152, number)
    struct.pack_into("<I", block, 100, crc32c(block) ^ wrong)
    return bytes(block)


def xfs_super(uuid=b"\6" * 16, version=0xB4A5, size=512, features=3, meta=bytes(16), groups=4, unit=512, wrong=0):
    """A superblock of groups of 17 blocks of 4,096 bytes, for which numbers have room for 32."""
    block = bytearray(SECTOR)
    block[:4], block[32:48], block[123:125], block[248:264] = b"XFSB", uuid, bytes([3, 5]), meta
    for place, form, value in ((4, "I", 4096), (84, "I", 17), (88, "I", groups), (100, "H", version), (102, "H", unit), (104, "H", size),
                               (216, "I", features)):
        struct.pack_into(">" + form, block, place, value)
    struct.pack_into("<I", block, 224, crc32c(block) ^ wrong)
    return bytes(block)


def printed(name, constant, crate="inode_rows"):
    """Bytes as a table of a crate has them."""
    text = (pathlib.Path(__file__).resolve().parents[2] / "crates" / crate / "src" / f"{name}.rt").read_text(encoding="utf-8")
    table = re.search(rf"pub const {constant}: \[u8; [0-9]+\] = \[(.*?)\];", text, re.DOTALL)[1]
    return bytes.fromhex("".join(re.findall("0x(..)", table)))


def sparse(name, constant):
    """Bytes as a table of fields of that crate has them, each with its place, and zeros between."""
    text = (pathlib.Path(__file__).resolve().parents[2] / "crates/inode_rows/src" / f"{name}.rt").read_text(encoding="utf-8")
    table = re.search(rf"const {constant}: &\[Field\] = &\[(.*?)\n\];", text, re.DOTALL)[1]
    block = bytearray()
    for place, field in re.findall(r"\(\s*([0-9]+),\s*&\[(.*?)\]", table, re.DOTALL):
        block = block.ljust(int(place), b"\0") + bytes(int(byte, 0) for byte in re.findall(r"\w+", field))
    return bytes(block)


def inodes():
    """Of groups of 17 blocks of eight inodes, for which numbers have room for 32 blocks, inode 1024 is the first of group 4 and lies nowhere;
    inode 384 is the first of block 16 of group 1, which lies at block 33, of eight sectors each."""
    assert crc32c(b"123456789") == 0xE3069283
    asked = {"levels": 0, "members": 2, "patterns": "plain", "syndromes": "none", "chunks": 1, "offsets": 0}
    words = "survey " + " ".join(f"{name}={value}" for name, value in asked.items()) + " origins=0"

    def seen(there, groups, more="kinds=xfs5"):
        row(f"{words} {more}", [with_sectors(64, there)], out=plan([64], groups=groups, **asked))
    head = xfs_super()
    seen({3: head, 5: xfs_inode(384)}, f"group xfs5\nmark xfs5 0 5 at:{33 * 8}\n")
    seen({3: xfs_inode(384), 5: head}, f"group xfs5\nmark xfs5 0 3 at:{33 * 8}\n")
    seen({3: xfs_inode(0), 5: head, 7: xfs_inode(128), 9: xfs_inode(128)},
         f"group xfs5\nmark xfs5 0 3 at:0\nmark xfs5 0 7 at:{16 * 8}\nmark xfs5 0 9 at:{16 * 8}\n")
    for other in (xfs_inode(1024), xfs_inode(385), xfs_inode(384 - 64), xfs_inode(384, wrong=1), xfs_inode(384, b"\7" * 16), xfs_inode(384, version=2),
                  b"IO" + xfs_inode(384)[2:], xfs_inode(2 ** 64 - 128)):
        seen({3: head, 5: other}, "")
    # inode 136 begins block 17, which group 0 has not; where it has, it does not begin 64 KiB
    seen({3: head, 5: xfs_inode(136)}, "")
    for other in (xfs_super(version=0xB4A4), xfs_super(size=1024), xfs_super(size=256), xfs_super(groups=0)):
        seen({3: other, 5: xfs_inode(384)}, "")
    seen({3: head, 5: xfs_inode(384)}, "", "kinds=lvm")
    seen({3: head, 5: xfs_inode(384)}, f"group xfs\nmark super 0 3 every:{17 * 8}:4:0\n", "kinds=xfs")
    seen({3: head, 5: xfs_inode(384)}, f"group xfs\nmark super 0 3 every:{17 * 8}:4:0\ngroup xfs5\nmark xfs5 0 5 at:{33 * 8}\n", "kinds=xfs,xfs5")
    seen({3: head, 5: xfs_inode(384)}, "", "kinds=xfs5 drop=0:3")
    seen({3: head, 5: xfs_inode(384)}, "", "kinds=xfs5 drop=0:5")
    # the identifier of inodes may be another than that of the file system
    other = xfs_super(b"\7" * 16, features=7, meta=b"\6" * 16)
    seen({3: other, 5: xfs_inode(384)}, f"group xfs5\nmark xfs5 0 5 at:{33 * 8}\n")
    seen({3: other, 5: xfs_inode(384, b"\7" * 16)}, "")
    seen({3: xfs_super(meta=b"\7" * 16), 5: xfs_inode(384)}, f"group xfs5\nmark xfs5 0 5 at:{33 * 8}\n")
    # what most superblocks of an identifier state says where inodes lie, of equals the first
    small, found = xfs_super(groups=1), f"group xfs5\nmark xfs5 0 5 at:{33 * 8}\nmark xfs5 0 6 at:{16 * 8}\n"
    two = {5: xfs_inode(384), 6: xfs_inode(128)}
    seen({3: small, 4: head, **two}, f"group xfs5\nmark xfs5 0 6 at:{16 * 8}\n")
    seen({3: head, 4: small, **two}, found)
    seen({3: small, 4: head, 7: head, **two}, found)
    seen({3: small, 4: head, 7: head, 8: small, **two}, f"group xfs5\nmark xfs5 0 6 at:{16 * 8}\n")
    seen({3: small, 4: head, 7: xfs_super(groups=2), **two}, f"group xfs5\nmark xfs5 0 6 at:{16 * 8}\n")
    # a superblock whose checksum is wrong tells nothing, but with larger sectors
    seen({3: xfs_super(wrong=1), 5: xfs_inode(384)}, "")
    seen({3: xfs_super(wrong=1, unit=1024), 5: xfs_inode(384)}, f"group xfs5\nmark xfs5 0 5 at:{33 * 8}\n")
    seen({3: xfs_super(groups=1, wrong=1), 4: head, **two}, found)
    seen({3: xfs_super(groups=1, wrong=1, unit=4096), 4: head, **two}, f"group xfs5\nmark xfs5 0 6 at:{16 * 8}\n")
    # groups stand in the order of their first marks, and none is without one
    seen({3: xfs_super(b"\7" * 16), 4: head, 5: xfs_inode(384)}, f"group xfs5\nmark xfs5 0 5 at:{33 * 8}\n")
    seen({3: xfs_super(b"\7" * 16), 4: head, 5: xfs_inode(384), 6: xfs_inode(0, b"\7" * 16)},
         f"group xfs5\nmark xfs5 0 5 at:{33 * 8}\ngroup xfs5\nmark xfs5 0 6 at:0\n")
    seen({3: xfs_super(b"\7" * 16), 4: head, 5: xfs_inode(0), 6: xfs_inode(0, b"\7" * 16), 7: xfs_inode(384)},
         f"group xfs5\nmark xfs5 0 5 at:0\nmark xfs5 0 7 at:{33 * 8}\ngroup xfs5\nmark xfs5 0 6 at:0\n")
    # three of them added, as P has them, are an inode again, of the numbers added bit by bit
    total = 0
    for number in (128, 256, 512):
        total ^= int.from_bytes(xfs_inode(number), "little")
    seen({3: xfs_super(groups=16), 5: total.to_bytes(SECTOR, "little")}, f"group xfs5\nmark xfs5 0 5 at:{(3 * 17 + 16) * 8}\n")
    # sectors of file systems of other hands, and the places that xfs_db prints
    for names, inode, place in ((("SUPER", "INODE"), 655488, 540800), (("WIDE_SUPER", "WIDE_INODE"), 263424, 206080)):
        head, there = (printed("xfs_sectors", name) for name in names)
        assert struct.unpack_from(">Q", there, 152) == (inode,)
        seen({9: head, 5: there}, f"group xfs5\nmark xfs5 0 5 at:{place}\n")
    row(f"{words} kinds=xfs5,ext", [with_sectors(4, {})], status=1, line="word 9 is not understood")


def larger_inodes():
    """Inodes of 1,024 and of 2,048 bytes of file systems of other hands, and the places that xfs_db prints."""
    asked = {"levels": 0, "members": 2, "patterns": "plain", "syndromes": "none", "chunks": 1, "offsets": 0}
    words = "survey " + " ".join(f"{name}={value}" for name, value in asked.items()) + " origins=0 kinds=xfs5"
    # without the zeros at their ends
    large, start, largest = (printed("xfs_sectors", name, "test_objects") for name in ("LARGE_SUPER", "LARGE_INODE", "LARGEST_SUPER"))
    there, most = start.ljust(2 * SECTOR, b"\0"), printed("xfs_sectors", "LARGEST_INODE")
    assert [struct.unpack_from(">Q", inode, 152) for inode in (there, most)] == [(328064,), (163904,)]

    def seen(groups, *images):
        row(words, [with_sectors(64, image) for image in images], out=plan([64] * len(images), groups=groups, **asked))
    for head, inode, place in ((large, there, 541440), (largest, most, 540928)):
        seen(f"group xfs5\nmark xfs5 0 5 at:{place}\n", {9: head, 5: inode})
        # the superblock may be on another image, and behind them
        seen(f"group xfs5\nmark xfs5 1 60 at:{place}\n", {63: head}, {60: inode})
        # with another checksum, or what lies past the first sector on another image or cut off, it is no mark
        for other in (inode[:-1] + bytes([inode[-1] ^ 1]), inode[:100] + bytes([inode[100] ^ 1]) + inode[101:]):
            seen("", {9: head, 5: other})
        for images in (({9: head, 5: inode[:SECTOR], 6: units(1)}, {6: inode[SECTOR:]}), ({6: inode[SECTOR:]}, {9: head, 5: inode[:SECTOR], 6: units(1)})):
            seen("", *images)
        seen("", {9: head, 61: inode[:3 * SECTOR]})
    seen("", {9: largest, 5: there})
    seen("", {9: large, 5: most})
    # of inodes of 1,024 bytes each 64th is a mark
    second = bytearray(there)
    struct.pack_into(">Q", second, 152, 328064 + 32)
    struct.pack_into("<I", second, 100, 0)
    struct.pack_into("<I", second, 100, crc32c(second))
    seen("", {9: large, 5: bytes(second)})
    seen("group xfs5\nmark xfs5 0 7 at:541440\n", {9: large, 5: bytes(second), 7: there})


def leaf_of(front, back):
    """A leaf with what a table of the crate `inode_rows` has of it, and zeros between."""
    first, last = printed("btrfs_leaves", front), printed("btrfs_leaves", back)
    return first + bytes(trees.NODE - len(first) - len(last)) + last


def tree_blocks():
    """Leaves of file systems of other hands, and the places that btrfs-map-logical prints."""
    asked = {"levels": 0, "members": 2, "patterns": "plain", "syndromes": "none", "chunks": 1, "offsets": 0}
    words = "survey " + " ".join(f"{name}={value}" for name, value in asked.items()) + " origins=0"

    def seen(there, groups, more="kinds=btrfstree"):
        image = bytearray(100 * SECTOR)
        for sector, block in there.items():
            image[sector * SECTOR:sector * SECTOR + len(block)] = block[:len(image) - sector * SECTOR]
        row(f"{words} {more}", [bytes(image)], out=plan([100], groups=groups, **asked))
    leaf, single = leaf_of("LEAF_FRONT", "LEAF_BACK"), leaf_of("SINGLE_FRONT", "SINGLE_BACK")
    header, other = (printed("btrfs_leaves", name) for name in ("HEADER", "SINGLE_HEADER"))
    own, found = f"either:{22036480 // SECTOR}:{30425088 // SECTOR}\n", f"either:{38862848 // SECTOR}:{72417280 // SECTOR}\n"
    both = f"group btrfstree\nmark btrfstree 0 3 {found}mark btrfstree 0 40 {own}"
    seen({3: header, 40: leaf}, both)
    seen({40: leaf, 99: header}, f"group btrfstree\nmark btrfstree 0 40 {own}mark btrfstree 0 99 {found}")
    seen({5: single, 3: other}, "group btrfstree\nmark btrfstree 0 3 at:10624\nmark btrfstree 0 5 at:2080\n")
    # no leaf that tells: none, one that is passed over, cut off or not whole
    seen({3: header}, "")
    seen({3: header, 40: leaf}, "", "kinds=btrfstree drop=0:40")
    seen({3: header, 69: leaf}, "")
    seen({3: header, 68: leaf}, both.replace("0 40 ", "0 68 "))
    for at in (0, 32, 200, 8000, 16383):
        seen({3: header, 40: leaf[:at] + bytes([leaf[at] ^ 1]) + leaf[at + 1:]}, "")
    seen({3: header, 40: leaf}, "", "kinds=xfs5")
    # what the header of another block says: another file system, an address beside, of another chunk or of none
    for change in (header[:32] + b"\7" * 16 + header[48:], header[:49] + bytes([header[49] ^ 0x40]) + header[50:], header[:54] + b"\1" + header[55:],
                   header[:63] + b"\2" + header[64:], header[:100] + b"\x08" + header[101:], header[:64] + b"_BHRfS_M" + header[72:],
                   *(header[:56] + flags.to_bytes(7, "little") + header[63:] for flags in (0, 2, 4, 5, 257, 2 ** 55 + 1))):
        seen({3: change, 40: leaf}, f"group btrfstree\nmark btrfstree 0 40 {own}")
    seen({3: header[:56] + b"\3" + header[57:], 40: leaf}, both)
    seen({3: header[:48] + (13631488 + 65536).to_bytes(8, "little") + header[56:], 40: leaf},
         f"group btrfstree\nmark btrfstree 0 3 at:{(13631488 + 65536) // SECTOR}\nmark btrfstree 0 40 {own}")
    # the latest leaf tells, if it is the only one of its generation or agrees with the others
    seen({3: header, 5: leaf, 40: leaf}, f"group btrfstree\nmark btrfstree 0 3 {found}mark btrfstree 0 5 {own}mark btrfstree 0 40 {own}")
    moved = (38797312 + 65536).to_bytes(8, "little")
    there = leaf.rindex(b"\1" + bytes(7) + (38797312).to_bytes(8, "little")) + 8
    for generation, rule in ((5, found), (6, ""), (7, f"either:{38862848 // SECTOR + 128}:{72417280 // SECTOR}\n")):
        later = leaf[:80] + bytes([generation]) + leaf[81:there] + moved + leaf[there + 8:]
        later = crc32c(later[32:]).to_bytes(4, "little") + later[4:]
        seen({3: header, 5: later, 40: leaf},
             "group btrfstree\n" + (f"mark btrfstree 0 3 {rule}" if rule else "") + f"mark btrfstree 0 5 {own}mark btrfstree 0 40 {own}")


def record_of(number, runs=b"", mark=b"\1\0", last=None):
    """A file record of 1,024 bytes as it is written, with $DATA in these runs."""
    data = (struct.pack("<IIBBHHHQQHH", 0x80, 88, 1, 0, 64, 0, 0, 0, 19, 64, 0).ljust(64, b"\0") + runs).ljust(88, b"\0") if runs else b""
    head = b"FILE" + struct.pack("<HHQHHHHIIQHHI", 48, 3, 0, 1, 1, 56, 1, 0, 1024, 0, 0, 0, number) + mark + bytes(4)
    record = (head.ljust(56, b"\0") + data + b"\xFF" * 4).ljust(1024, b"\0")
    return record[:510] + mark + record[512:1022] + (last or mark)


def volume_of(cluster=8, table=4, mirror=2):
    """A boot sector with these sectors of a cluster, by their code, and records of 1,024 bytes."""
    head = b"\xEB\x52\x90NTFS    " + struct.pack("<HB", SECTOR, cluster) + bytes(26) + struct.pack("<QQQB", 1000, table, mirror, 246)
    return head.ljust(SECTOR - 2, b"\0") + b"\x55\xAA"


def file_records():
    """Records of a table of two runs: 4 clusters from cluster 4 on, and 16 from cluster 68 on. A cluster has 8 sectors, a record 2."""
    asked = {"levels": 0, "members": 2, "patterns": "plain", "syndromes": "none", "chunks": 1, "offsets": 0}
    words = "survey " + " ".join(f"{name}={value}" for name, value in asked.items()) + " origins=0"
    runs = b"\x11\x04\x04\x11\x10\x40\0"
    there = {0: volume_of(), 10: record_of(0, runs), 12: record_of(16), 14: record_of(20), 16: record_of(80), 18: record_of(3), 20: record_of(5),
             22: record_of(24, last=b"\2\0"), 24: record_of(17), 98: record_of(28, mark=b"\7\7"), 100: record_of(32)[:SECTOR]}

    def seen(changes, marks, more="kinds=mft"):
        image = bytearray(101 * SECTOR)
        for sector, block in {**there, **changes}.items():
            image[sector * SECTOR:sector * SECTOR + len(block)] = block
        listed = "".join(f"mark mft 0 {mark}\n" for mark in marks)
        row(f"{words} {more}", [bytes(image)], out=plan([101], groups=f"group mft\n{listed}" if marks else "", **asked))
    usual = ["12 at:544", "14 at:552", "18 either:38:22", "20 at:42", "98 at:568"]
    seen({}, usual)
    seen({}, [], "kinds=xfs5")
    # no boot sector, another one's table, a record 0 that is passed over, not whole or without runs that begin there
    for changes, more in (({0: bytes(SECTOR)}, ""), ({0: volume_of(table=5)}, ""), ({}, " drop=0:10"), ({10: record_of(0, runs, last=b"\2\0")}, ""),
                          ({10: record_of(0)}, ""), ({10: record_of(0, b"\x11\x04\x05\0")}, ""), ({10: record_of(0, b"\x11\x04\x04\x01\x04\0")}, ""),
                          ({10: record_of(0, b"\x11\x04\x04\x11\0\x40\0")}, ""), ({10: record_of(0, b"\x11\x04\x04\x11\x04\xFB\0")}, "")):
        seen(changes, [], "kinds=mft" + more)
    # one run alone, runs that go back, two boot sectors of one table
    seen({10: record_of(0, b"\x11\x04\x04\0")}, ["18 either:38:22", "20 at:42"])
    seen({10: record_of(0, b"\x11\x04\x04\x11\x10\xFE\0")}, ["12 at:16", "14 at:24", "18 either:38:22", "20 at:42", "98 at:40"])
    seen({1: volume_of()}, usual)
    # clusters of 256 sectors, whose mirror repeats 128 records
    seen({0: volume_of(248)}, ["12 either:1056:544", "14 either:1064:552", "16 either:1184:672", "18 either:1030:518", "20 either:1034:522", "98 either:1080:568"])


def inode_pairs():
    """Inodes of file systems of other hands beside each other, and the places that debugfs prints."""
    asked = {"levels": 0, "members": 2, "patterns": "plain", "syndromes": "none", "chunks": 1, "offsets": 0}
    words = "survey " + " ".join(f"{name}={value}" for name, value in asked.items()) + " origins=0"

    def seen(there, groups, more="kinds=extinode", length=300):
        image = bytearray(length * SECTOR)
        for sector, block in there.items():
            image[sector * SECTOR:sector * SECTOR + len(block)] = block
        row(f"{words} {more}", [bytes(image)], out=plan([length], groups=groups, **asked))
    copy, pair = sparse("ext_copies", "SMALL_COPY"), sparse("ext_copies", "SMALL_PAIR")
    seeded, other = sparse("ext_copies", "SEEDED_COPY"), sparse("ext_copies", "SEEDED_PAIR")
    found = "group extinode\nmark extinode 0 9 at:25\n"
    seen({9: pair, 20: copy}, found)
    seen({9: pair, 20: copy, 40: other, 41: pair}, found + "mark extinode 0 41 at:25\n")
    seen({9: other, 20: seeded}, "group extinode\nmark extinode 0 9 at:47\n")
    seen({7: other, 9: pair, 10: copy, 20: seeded}, "group extinode\nmark extinode 0 7 at:47\n" + found)
    # no copy that tells: none, one of another file system, passed over, cut off or not whole
    seen({9: pair}, "")
    seen({9: other, 20: copy}, "")
    seen({9: pair, 20: copy}, "", "kinds=extinode drop=0:20")
    seen({9: pair, 20: copy}, "", length=275)
    seen({9: pair, 20: copy}, found, length=276)
    for at, told in ((0, ""), (104, ""), (700, ""), (1023, ""), (1024, ""), (1054, ""), (1279, ""), (1280, found)):
        changed = copy.ljust(1536, b"\0")
        seen({9: pair, 20: changed[:at] + bytes([changed[at] ^ 1]) + changed[at + 1:]}, told)
    # inodes that are changed, or the other way round
    for change in (pair[:4] + b"\1" + pair[5:], pair[256:].ljust(256, b"\0") + pair[:256], pair[:128] + b"\3" + pair[129:]):
        seen({9: change, 20: copy}, "")
    # the copy alone, and with them
    seen({9: pair, 20: copy}, "group ext\nmark ext 0 20 at:16386\n", "kinds=ext")
    seen({9: pair, 20: copy}, "group ext\nmark ext 0 20 at:16386\n" + found, "kinds=ext,extinode")
    row(f"{words} kinds=extinode,ext", [with_sectors(4, {})], status=1, line="word 9 is not understood")


# Bounds of a group

def own_bounds():
    """Two images of four sectors, of which the volume has sector S at sector S div 2 of image S mod 2 where the order is 0,1. The marks are
    of sectors 2, 3 and 5 of the volume in that order, of which the one at 5 misfits; in the other they lie at 3, 2 and 4, and two misfit."""
    images, values = [with_sectors(4, {})] * 2, {"levels": 0, "members": 2, "patterns": "plain", "offsets": 0}
    marks = "mark btrfs 0 1 at:2\nmark btrfs 1 1 either:3:2\nmark btrfs 1 2 at:7\n"
    told = {"0,1": "rank 0\nunsound 0 of 4\ngroup 0 btrfs {}\n{}\n", "1,0": "rank 1\nunsound 0 of 4\ngroup 0 btrfs {}\n{}\n"}

    def tried(bounds, first, second, version="3\nmode common", **changed):
        text = plan([4, 4], version, f"group btrfs\n{bounds}{marks}", **{**values, **changed})
        for slots, fits, holds in (("0,1", 2, first), ("1,0", 1, second)):
            kept = (f"origin 0 fits {fits} misfits {3 - fits}", "pass") if holds else ("none", "fail")
            row(f"check set=0:plain:none:1:0:{slots}", images, text, told[slots].format(*kept))
        lines = [f"{rank} 0:plain:none:1:0:{slots}\n" for rank, slots, holds in ((0, "0,1", first), (1, "1,0", second)) if holds]
        row("list", images, text, "".join(lines) + "next 2 of 2\n")
    tried("", False, False, 1)
    tried("", True, True, 1, misfits=2)
    tried("bounds 1 1\n", True, False)
    tried("bounds 2 1\n", True, True)
    tried("bounds 2 2\n", True, False)
    tried("bounds 2 3\n", False, False)
    tried("bounds 0 1\n", False, False, misfits=2)
    tried("bounds 2 0\n", True, True, least=3)
    tried(f"bounds {2 ** 55 - 1} {2 ** 55 - 1}\n", False, False, misfits=2)
    # one group's bounds are not another's, nor the plan's
    two = "group btrfs\nbounds 1 2\n" + marks + "group lvm\nmark lvm 0 1 at:3\n"
    shown = told["1,0"].format("none\ngroup 1 lvm origin 0 fits 1 misfits 0", "fail")
    row("check set=0:plain:none:1:0:1,0", images, plan([4, 4], "3\nmode common", two, **values), shown)
    shown = told["0,1"].format("origin 0 fits 2 misfits 1\ngroup 1 lvm none", "fail")
    row("check set=0:plain:none:1:0:0,1", images, plan([4, 4], "3\nmode common", two, **values), shown)
    # with an offset of each image too
    each = plan([4, 4], "3\nmode each", "group btrfs\nbounds 1 2\n" + marks, **values)
    row("list", images, each, "0 0:plain:none:1:0+0:0,1\nnext 2 of 2\n")
    for place, version, groups in ((20, "3\nmode common", "bounds 0 1\n"), (22, "3\nmode common", "group btrfs\nbounds 0 1\nbounds 0 1\n"),
                                   (22, "3\nmode common", f"group btrfs\n{marks[:20]}bounds 0 1\n"), (20, 1, "group btrfs\nbounds 0 1\n"),
                                   (20, 2, "group btrfs\nbounds 0 1\n"), (21, "3\nmode common", "group btrfs\nbounds 0\n"),
                                   (21, "3\nmode common", "group btrfs\nbounds 0 1 \n"), (21, "3\nmode common", "group btrfs\nbounds 0 01\n"),
                                   (21, "3\nmode common", f"group btrfs\nbounds {2 ** 55} 1\n"), (2, 3, ""), (2, "3\nmode both", ""), (20, "3\nmode common", ""),
                                   (24, "3\nmode common", f"group btrfs\n{marks}"), (21, "3\nmode each", "group gpt\n"),
                                   (21, "3\nmode each", f"group btrfs\nbounds 1 {2 ** 55}\n"), (1, "4\nmode each", "")):
        row("list", images, plan([4, 4], version, groups, **values), status=2, line=f"plan line {place} is not understood")
    # a text of version 3 in which no group has bounds is refused at its end, or at the mark after which no group may begin
    last = "group mft\n" * 31
    row("list", images, plan([4, 4], "3\nmode common", last + "group mft\nmark mft 0 1 at:0\n", **values), status=2,
        line="plan line 52 is not understood")
    row("list", images, plan([4, 4], "3\nmode common", last + "mark mft 0 1 at:0\n", **values), status=2, line="plan line 52 is not understood")
    row("list", images, plan([4, 4], "3\nmode common", last + "group mft\n", **values), status=2, line="plan line 52 is not understood")
    row("list", images, plan([4, 4], "3\nmode common", f"group gpt\nbounds 0 0\n{last}group mft\nmark mft 0 1 at:0\n", **values),
        out="next 2 of 2\n")
    for mode, place in (("common", None), ("each", 12)):
        text = plan([4, 4], f"3\nmode {mode}", "group btrfs\nbounds 0 0\n", **{**values, "offsets": 2 ** 54})
        row("list", images, text, "next 2 of 2\n" if place is None else None, status=0 if place is None else 2,
            line=f"plan line {place} is not understood" if place else "")


# What was there before

def earlier():
    images, three = [sectors("0102"), sectors("0304"), sectors("0206")], plan([2, 2, 2])
    orders = [",".join(map(str, order)) for order in itertools.permutations(range(3))]
    row("list size=10", images, three, "".join(f"{rank} 5:ls:none:1:0:{order}\n" for rank, order in enumerate(orders)) + "next 6 of 6\n")
    row("list", [*images[:2], sectors("0207")], three, "next 6 of 6\n")
    row("list from=7", images, three, status=6, line="cursor 7 is past 6")
    row("list size=4 pages=2", images, three, ends=("0 5:ls:none:1:0:0,1,2", "next 6 of 6"))
    row("list", [*images, sectors("0000")], plan([2] * 4, foreign=1), ends=("0 5:ls:none:1:0:0,1,2", "next 24 of 24"))
    row("list", images[:2], plan([2, 2], missing=1), ends=("0 5:ls:none:1:0:0,1,-", "next 6 of 6"))
    row("list from=12 size=1", images, plan([2, 2, 2], levels="0,5", members="2,3", patterns="plain,ls", foreign=1),
        out="12 5:ls:none:1:0:0,1,2\nnext 13 of 18\n")
    parity = [sectors("1C"), sectors("01"), sectors("80"), sectors("81")]
    six = plan([1] * 4, levels=6, members=4, syndromes="after-q,by-data,by-slot")
    row("list", parity, six, "0 6:ls:after-q:1:0:0,1,2,3\n24 6:ls:by-data:1:0:0,1,2,3\nnext 72 of 72\n")
    row("check set=6:ls:by-slot:1:0:0,1,2,3", parity, six, "rank 48\nunsound 1 of 1\nfail\n")
    row("write set=6:ls:after-q:1:0:0,-,-,1", [parity[0], parity[3]], out=sectors("0180"))
    row("rebuild set=6:ls:after-q:1:0:-,0,1,2 slot=0", parity[1:], out=sectors("1C"))
    lists = {"patterns": PATTERNS[1:], "syndromes": SYNDROMES[1:], "chunks": [1 << k for k in range(16)], "offsets": range(64)}
    lists = {name: ",".join(map(str, values)) for name, values in lists.items()}
    many = plan([1] * 16, levels=6, members=16, missing=2, foreign=2, **lists)
    row("list", [sectors("00")] * 16, many, status=5, line="the product has more than 18446744073709551615 sets")
    row("sample number=7 set=5:ls:none:8:0:0,1,2 rows=2 marks=none",
        out="images 3\nsectors 16\nmarks 0\ntotal 1296\nfound yes\nnext 1296 of 1296\n")
    for words, place in (("", 1), ("list size=0", 2), ("list size=2 size=3", 3), ("write", 2), ("list size=1000000 pages=5", 3)):
        row(words, [sectors("00")], status=1, line=f"word {place} is not understood")


# How the images of a row depend on one another

def units(*weights):
    """A sector that begins with these bytes: a sum of the sectors with one 1, each with its weight."""
    return bytes(weights).ljust(SECTOR, b"\0")


def relations():
    alike, other = units(1), units(0, 1)
    row("relations", [alike + alike] * 2, out="rows 0 1 zero - tied 1=1*0\ntogether 0,1 in 2 rows\nalone -\nfree 0 of 2\n")
    row("relations", [alike, other, units(1, 1)], out="rows 0 0 zero - tied 2=1*0+1*1\ntogether 0,1,2 in 1 rows\nalone -\nfree 0 of 1\n")
    # 1 = 2*0, and the weight's product past eight bits: 2 * 80 = 100 is 1D, less the polynomial
    row("relations", [units(0x80), units(0x1D)], out="rows 0 0 zero - tied 1=2*0\ntogether 0,1 in 1 rows\nalone -\nfree 0 of 1\n")
    row("relations", [bytes(SECTOR), alike], out="rows 0 0 zero 0 tied -\nalone 0,1\nfree 1 of 1\n")
    # Level 6 of eight members with the sixth data lost: Q = 1*d0 + 2*d1 + 4*d2 + 8*d3 + 16*d4 + 32*d5, and d5 is the sum of P and the others
    data = [units(*(int(place == item) for place in range(6))) for item in range(5)]
    row("relations", [*data, units(1, 1, 1, 1, 1, 1), units(1, 2, 4, 8, 16, 32)],
        out="rows 0 0 zero - tied 6=33*0+34*1+36*2+40*3+48*4+32*5\ntogether 0,1,2,3,4,5,6 in 1 rows\nalone -\nfree 0 of 1\n")
    # Two arrays, one of which ends after a row, and a foreign image
    images = [alike + alike, units(0, 0, 5) * 2, alike + other, units(0, 0, 0, 1) * 2, units(0, 0, 0, 2) * 2]
    row("relations", images, out="rows 0 0 zero - tied 2=1*0 4=2*3\nrows 1 1 zero - tied 4=2*3\ntogether 3,4 in 2 rows\n"
        "together 0,2 in 1 rows\nalone 1\nfree 0 of 2\n")
    row("relations form=json", images, out='{"rows":[0,0],"zero":[],"tied":[[2,[[1,0]]],[4,[[2,3]]]]}\n'
        '{"rows":[1,1],"zero":[],"tied":[[4,[[2,3]]]]}\n{"together":[3,4],"rows":2}\n{"together":[0,2],"rows":1}\n{"alone":[1]}\n{"free":0,"of":2}\n')
    row("relations from=1", images, out="rows 1 1 zero - tied 4=2*3\ntogether 3,4 in 1 rows\nalone 0,1,2\nfree 0 of 1\n")
    row("relations step=2 end=2", images, out="rows 0 0 zero - tied 2=1*0 4=2*3\ntogether 0,2 in 1 rows\ntogether 3,4 in 1 rows\n"
        "alone 1\nfree 0 of 1\n")
    row("relations offsets=0+1", [alike + other, other + alike + other],
        out="rows 0 1 zero - tied 1=1*0\ntogether 0,1 in 2 rows\nalone -\nfree 0 of 2\n")
    row("relations from=2", [alike + alike] * 2, out="alone 0,1\nfree 0 of 0\n")
    row("relations", [alike * 4097] * 2, out="rows 0 4096 zero - tied 1=1*0\ntogether 0,1 in 2049 rows\nalone -\nfree 0 of 2049\n")
    row("relations", [units(*(int(place == item) for place in range(63))) for item in range(63)] + [units(*[1] * 63)],
        out=f"rows 0 0 zero - tied 63={'+'.join(f'1*{place}' for place in range(63))}\ntogether {','.join(map(str, range(64)))} in 1 rows\n"
        "alone -\nfree 0 of 1\n")
    refused_relations()


def refused_relations():
    for count, words, line in ((1, "", "count given 1 planned 2"), (65, "", "count given 65 planned 64"),
                               (2, "offsets=1+2+3", "offsets given 3 planned 2"), (1, "offsets=1+2", "count given 1 planned 2"), (2, "offsets=0", "offsets given 1 planned 2"),
                               (2, "end=3", "end given 3 planned 2"), (2, "end=2 offsets=0+1", "end given 2 planned 1"),
                               (2, "end=1 offsets=0+9", "end given 1 planned 0")):
        row(f"relations {words}", [units(1) * 2] * count, status=4, line=f"images: {line}")
    for words, place in (("step=0", 2), ("from=1 offsets=", 3), ("form=data", 2), ("end=36028797018963968", 2), ("set=5", 2), ("offsets=1,2", 2),
                         ("from=1 from=1", 3), (f"offsets={'+'.join(['0'] * 65)}", 2)):
        row(f"relations {words}", [units(1)] * 2, status=1, line=f"word {place} is not understood")


def differs(words, images, text, out, status, line, ends):
    """What the reference answers, where that is another answer."""
    given = words.split()
    if given:
        given += ["--", *NAMES[:len(images)]]
    answered, put, told = reference.answer(given, text.encode(), dict(zip(NAMES, images)))
    wanted = b"" if out is None else out.encode() if isinstance(out, str) else out
    if ends is not None:
        lines = put.decode().splitlines()
        agrees = answered == 0 and lines and (lines[0], lines[-1]) == ends
    else:
        agrees = (answered, put, told.decode()) == (status, wanted, line)
    return None if agrees else (answered, put[:400], told)


def main():
    for rows in (earlier, inodes, larger_inodes, tree_blocks, inode_pairs, file_records, own_bounds, own_offsets, delayed_rows, large_blocks, rescue, near,
                 copies, file_systems, relations):
        rows()
    differing = 0
    for words, *rest in ROWS:
        answered = differs(words, *rest)
        if answered:
            differing += 1
            print(f"{words}\n  wanted {rest[3]} {rest[4]!r} {rest[2] if rest[2] is not None else rest[5]!r}\n  given  {answered}")
    print(f"{len(ROWS) - differing} of {len(ROWS)} rows agree")
    return differing > 0


if __name__ == "__main__":
    sys.exit(main())
