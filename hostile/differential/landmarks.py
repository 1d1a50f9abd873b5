"""Landmark sectors of images, and the groups and origins of a survey, as docs/FORMATS.md has them. What it does not say, where the
fields of the sectors stand and the limits of their numbers, is that of the UEFI specification, of the documentation of Linux-NTFS, of
"XFS Algorithms & Data Structures", and of the kernel's pages on btrfs and ext4, with the limits that the definitions of the landmarks name.
"""

import struct
import uuid
import zlib

from collections import Counter
from typing import NamedTuple

import pairs
import tables
import trees
from inodes import LARGEST, STRETCH, XfsPlaces, xfs_inode, xfs_places
from texts import FAR, MARKS_OF, SECTOR, Group, Mark


def gpt(sector):
    size, = struct.unpack_from("<I", sector, 12)
    own, other = struct.unpack_from("<QQ", sector, 24)
    if sector[:8] != b"EFI PART" or not 92 <= size <= 512 or own >= FAR:
        return None
    if zlib.crc32(sector[:16] + bytes(4) + sector[20:size]) != struct.unpack_from("<I", sector, 16)[0]:
        return None
    entries, _, entry = struct.unpack_from("<QII", sector, 72)
    return {"own": own, "other": other, "entries": entries, "entry": entry}


def boot(sector):
    if sector[3:11] != b"NTFS    " or sector[510:] != b"\x55\xAA" or struct.unpack_from("<H", sector, 11)[0] != 512:
        return None
    cluster, code = sector[13], struct.unpack_from("b", sector, 64)[0]
    total, mft, mirror = struct.unpack_from("<QQQ", sector, 40)
    if cluster not in [2 ** power for power in range(8)]:
        return None
    size = 2 ** -code if code < 0 else code * cluster * 512
    if not 512 <= size <= 65536 or size % 512:
        return None
    wide = size // 512
    if not 0 < total < FAR or mft * cluster + 15 * wide >= FAR or mirror * cluster + 15 * wide >= FAR:
        return None
    return cluster, total, mft, mirror, size, sector[72:80]


def record(sector):
    if sector[:4] != b"FILE" or struct.unpack_from("<H", sector, 4)[0] != 48:
        return None
    size, place = struct.unpack_from("<I", sector, 28)[0], struct.unpack_from("<I", sector, 44)[0]
    return (size, place) if place < 16 else None


class Super(NamedTuple):
    """A superblock of XFS: the fields in which those of one file system agree, and, if it tells that, where inodes lie."""
    fields: tuple
    places: XfsPlaces


def super_block(sector):
    if sector[:4] != b"XFSB":
        return None
    block, group, groups = struct.unpack_from(">I", sector, 4)[0], *struct.unpack_from(">II", sector, 84)
    unit = struct.unpack_from(">H", sector, 102)[0]
    if block not in [2 ** power for power in range(9, 17)] or unit not in [2 ** power for power in range(9, 16)] or unit > block:
        return None
    if group == 0 or groups == 0 or group * block // 512 * groups + 2 * (unit // 512) >= FAR:
        return None
    return Super((uuid.UUID(bytes=sector[32:48]), block, group, groups, unit), xfs_places(sector))


def head_of_group(magic):
    def read(sector):
        if sector[:4] != magic or struct.unpack_from(">I", sector, 4)[0] != 1:
            return None
        return struct.unpack_from(">I", sector, 8)
    return read


def label(sector):
    own, = struct.unpack_from("<Q", sector, 8)
    return own if sector[:8] == b"LABELONE" and sector[24:32] == b"LVM2 001" and own < FAR else None


BTRFS_PLACES = [65536, 67108864, 274877906944]


def btrfs(sector):
    own, = struct.unpack_from("<Q", sector, 48)
    return (sector[32:48], own) if sector[64:72] == b"_BHRfS_M" and own in BTRFS_PLACES else None


def ext(sector):
    """Of a later copy the file system that it tells of, and the sector of it at which it stands."""
    first, power, blocks = struct.unpack_from("<II4xI", sector, 20)
    magic, revision, group = *struct.unpack_from("<H18xI", sector, 56), *struct.unpack_from("<H", sector, 90)
    if magic != 0xEF53 or power > 6 or blocks == 0 or revision > 1 or not 1 <= group <= 65534:
        return None
    if first > (power == 0):
        return None
    return (sector[104:120], 1024 << power, blocks), (first + group * blocks) * (2 << power)


READERS = {"gpt": gpt, "boot": boot, "record": record, "super": super_block, "agf": head_of_group(b"XAGF"),
           "agi": head_of_group(b"XAGI"), "lvm": label, "btrfs": btrfs, "ext": ext, "xfs5": xfs_inode,
           "btrfstree": trees.tree_block, "extinode": pairs.pair, "mft": tables.landmark}
MAGICS = {b"EFI ": "gpt", b"FILE": "record", b"XFSB": "super", b"XAGF": "agf", b"XAGI": "agi", b"LABE": "lvm"}


def read(block):
    """The kind of a sector, if it is of one, and its fields. What is of one of the first kinds is of no later one."""
    told = MAGICS.get(block[:4]) or ("boot" if block[3:7] == b"NTFS" else None)
    for kind in (told, "btrfs" if block[64:66] == b"_B" else None, "ext" if block[56:58] == b"\x53\xEF" else None,
                 "xfs5" if block[:2] == b"IN" else None, "btrfstree", "extinode"):
        found = READERS[kind](block) if kind else None
        if found is not None and (kind != "xfs5" or found.is_small):
            return kind, found
    # what may begin a larger inode, and then what tells of file records, is of no kind before
    for kind in ("xfs5", "mft"):
        found = READERS[kind](block)
        if found:
            return kind, found
    return None, None


def own_table(header, sector, length, unit):
    """Whether a header at a sector of an image of this length is of that image's own partition table, in blocks of so many sectors."""
    last = length // unit - 1
    return length % unit == 0 and unit * header["own"] == sector and (header["own"], header["other"]) in ((1, last), (last, 1))


def hits(images, first, end, kinds, passed_over, unit):
    """The landmark sectors that count, by kind, in order of sector, then image."""
    wanted = {kind for asked in kinds for kind in MARKS_OF[asked]}

    def is_wanted(kind, found):
        return (kind in wanted or kind == "super" and "xfs5" in wanted and found.places or kind == "ext" and "extinode" in wanted
                or kind in ("boot", "record") and "mft" in wanted)
    seen = {kind: [] for kind in READERS}
    for sector in range(first, end):
        for place, image in enumerate(images):
            kind, found = read(image[sector * SECTOR:(sector + 1) * SECTOR])
            if not is_wanted(kind, found) or len(seen[kind]) == 4096 or (place, sector) in passed_over:
                continue
            if kind == "gpt" and (unit * found["own"] >= FAR or own_table(found, sector, len(image) // SECTOR, unit)):
                continue
            seen[kind].append((sector, place, found))
    return seen


def first_blocks(images, headers, unit):
    """The sectors at which the partitions begin that headers tell of."""
    firsts = set()
    for sector, place, header in headers:
        if header["entry"] == 128 and header["entries"] == header["own"] + 1 and sector + unit < len(images[place]) // SECTOR:
            for at in range((sector + unit) * SECTOR, (sector + unit + 1) * SECTOR, 128):
                entry = images[place][at:at + 128]
                first, last = struct.unpack_from("<QQ", entry, 32)
                if entry[:16] != bytes(16) and first <= last <= header["other"] and unit * first < FAR:
                    firsts.add(unit * first)
    return firsts


def file_systems(heads, rule, others):
    """The groups of one kind: a group for each geometry that a head tells, and what belongs to the only one."""
    geometries = list(dict.fromkeys(found for _, _, found in heads[1]))
    groups = []
    for geometry in geometries[:32]:
        marks = [Mark(heads[0], place, sector, rule(geometry)) for sector, place, found in heads[1] if found == geometry]
        if len(geometries) == 1:
            marks += others(geometry)
        groups.append(sorted(marks, key=lambda mark: (mark.sector, mark.image)))
    return groups


def gathered(kind, seen, key, rule):
    """The groups of one kind: of each value of the key, the first of them, the hits that have it."""
    groups = {}
    for sector, place, found in seen[kind]:
        groups.setdefault(key(sector, place, found), []).append(Mark(kind, place, sector, f"at:{rule(found)}"))
    return [Group(kind, marks) for marks in list(groups.values())[:32]]


def deciding(stated):
    """Of each identifier what most superblocks state of where inodes lie, of equals the first."""
    votes = Counter(stated)
    most = {places.uuid: max(votes[other] for other in votes if other.uuid == places.uuid) for places in votes}
    systems = {}
    for places in stated:
        if votes[places] == most[places.uuid]:
            systems.setdefault(places.uuid, places)
    return systems


def xfs5_groups(seen, images):
    """A group for each identifier of inodes of which some are marks: what its superblocks state says where they lie. How many bytes an inode
    has, it says itself, with those that follow where it was seen."""
    systems, groups = deciding([found.places for _, _, found in seen["super"] if found.places]), {}
    for sector, place, found in seen["xfs5"]:
        places = systems.get(found.uuid)
        size = found.size(images[place][sector * SECTOR:sector * SECTOR + LARGEST])
        if places and size == places.size and found.number * size % STRETCH == 0 and places.sector(found.number) is not None:
            groups.setdefault(found.uuid, []).append(Mark("xfs5", place, sector, f"at:{places.sector(found.number)}"))
    return [Group("xfs5", marks) for marks in list(groups.values())[:32]]


def tree_groups(seen, images):
    """A group for each identifier of tree blocks of which a leaf, read where it was seen, tells where some lie."""
    leaves = {}
    for sector, place, found in seen["btrfstree"]:
        block = images[place][sector * SECTOR:sector * SECTOR + trees.NODE]
        if found.is_leaf and len(block) == trees.NODE and trees.is_whole(block):
            leaves.setdefault(found.identifier, []).append((found.generation, trees.chunks(block)))
    groups = {}
    for sector, place, found in seen["btrfstree"]:
        places = trees.told(leaves.get(found.identifier, []), found.address)
        if places:
            groups.setdefault(found.identifier, []).append(Mark("btrfstree", place, sector, trees.rule(places)))
    return [Group("btrfstree", marks) for marks in list(groups.values())[:32]]


def pair_groups(seen, images):
    """A group for each identifier of inodes of ext4 of which a copy, read with what follows where it was seen, tells where some lie."""
    copies = [pairs.tables(images[place][sector * SECTOR:sector * SECTOR + pairs.FOLLOWING]) for sector, place, _ in seen["ext"]]
    copies, groups = [it for it in copies if it], {}
    for sector, place, found in seen["extinode"]:
        told = pairs.placed(copies, found)
        if told:
            groups.setdefault(told[0], []).append(Mark("extinode", place, sector, f"at:{told[1]}"))
    return [Group("extinode", marks) for marks in list(groups.values())[:32]]


def groups_of(seen, images, unit, kinds):
    groups = []
    if seen["gpt"]:
        groups.append(Group("gpt", [Mark("gpt", place, sector, f"at:{unit * found['own']}") for sector, place, found in seen["gpt"]]))

    def records(geometry):
        cluster, _, mft, mirror, size, _ = geometry
        wide = size // 512
        return [Mark("record", place, sector, f"either:{mft * cluster + found[1] * wide}:{mirror * cluster + found[1] * wide}")
                for sector, place, found in seen["record"] if found[0] == size]

    def heads(geometry):
        _, block, group, count, unit = geometry
        wide = group * block // 512
        return [Mark(kind, place, sector, f"at:{found[0] * wide + after * (unit // 512)}") for kind, after in (("agf", 1), ("agi", 2))
                for sector, place, found in seen[kind] if found[0] < count]

    if "ntfs" in kinds:
        groups += [Group("ntfs", marks) for marks in file_systems(("boot", seen["boot"]), lambda g: f"either:0:{g[1]}", records)]
    supers = [(sector, place, found.fields) for sector, place, found in seen["super"] if "xfs" in kinds]
    groups += [Group("xfs", marks) for marks in
               file_systems(("super", supers), lambda g: f"every:{g[2] * g[1] // 512}:{g[3]}:0", heads)]
    groups += gathered("btrfs", seen, lambda sector, place, found: found[0], lambda found: found[1] // SECTOR)
    groups += gathered("lvm", seen, lambda sector, place, found: (sector, place), lambda found: found)
    if "ext" in kinds:
        groups += gathered("ext", seen, lambda sector, place, found: found[0], lambda found: found[1])
    groups += pair_groups(seen, images) if "extinode" in kinds else []
    groups += (xfs5_groups(seen, images) if "xfs5" in kinds else []) + tree_groups(seen, images)
    return groups + (tables.groups(seen, images) if "mft" in kinds else [])
