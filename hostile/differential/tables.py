"""File records of NTFS, and where the tables of volumes have them: section `mft` of docs/LANDMARKS.md. What it does not say of the fields
is that of the documentation of Linux-NTFS.
"""

import struct

from typing import NamedTuple

from texts import FAR, SECTOR, Group, Mark

SIZES = (1024, 4096)
CLUSTERS = {code: code for code in (1, 2, 4, 8, 16, 32, 64, 128)} | {248: 256, 247: 512, 246: 1024, 245: 2048, 244: 4096}
MOST_TABLES = 32
MOST_MARKS = 4096
MOST_RUNS = 256
MOST_ATTRIBUTES = 64


class Volume(NamedTuple):
    """What a boot sector says of the table: sectors of a cluster, the clusters of table and mirror, bytes of a record."""
    cluster: int
    table: int
    mirror: int
    size: int

    def is_possible(self):
        return self.size in SIZES and self.table * self.cluster < FAR and self.mirror * self.cluster < FAR


class Start(NamedTuple):
    """What the first sector of a record says."""
    number: int
    size: int

    def counts(self):
        return self.number * self.size % (4096 if self.number < 4096 else 65536) == 0


def volume(sector):
    if sector[3:11] != b"NTFS    " or sector[510:512] != b"\x55\xAA" or sector[11:13] != b"\0\2":
        return None
    cluster, code = CLUSTERS.get(sector[13]), sector[64]
    if cluster is None:
        return None
    size = {246: 1024, 244: 4096}.get(code, code * cluster * SECTOR if code < 128 else 0)
    found = Volume(cluster, *struct.unpack_from("<QQ", sector, 48), size)
    return found if found.is_possible() else None


def start(sector):
    if sector[:4] != b"FILE" or struct.unpack_from("<H", sector, 4)[0] != 48:
        return None
    words, (size,), (number,) = struct.unpack_from("<H", sector, 6)[0], struct.unpack_from("<I", sector, 28), struct.unpack_from("<I", sector, 44)
    return Start(number, size) if size in SIZES and words == size // SECTOR + 1 else None


def landmark(sector):
    """What a sector is that is of no other kind: a record that counts, or a boot sector."""
    found = start(sector)
    if found:
        return found if found.counts() else None
    return volume(sector)


def is_whole(record):
    return all(record[end - 2:end] == record[48:50] for end in range(SECTOR, len(record) + 1, SECTOR))


def restored(record):
    """The bytes of a record with the last two of each sector put back from the update sequence."""
    data = bytearray(record)
    for place in range(len(record) // SECTOR):
        data[(place + 1) * SECTOR - 2:(place + 1) * SECTOR] = record[50 + 2 * place:52 + 2 * place]
    return bytes(data)


def number(data, at, count):
    """The number in so many bytes; what lies past the record is 0."""
    return int.from_bytes(data[at:at + count].ljust(count, b"\0") if at < len(data) else bytes(count), "little")


def data_attribute(data):
    """Where the header of the first $DATA begins that tells of runs."""
    at = number(data, 20, 2)
    for _ in range(MOST_ATTRIBUTES):
        kind, size = number(data, at, 4), number(data, at + 4, 4)
        ends = at + size <= len(data)
        if kind == 0x80 and ends and number(data, at + 8, 2) == 1 and not number(data, at + 12, 2) and not number(data, at + 16, 8):
            return at
        if kind == 0xFFFFFFFF or size < 24 or not ends:
            return None
        at += size
    return None


def runs_of(data, cluster):
    """The runs of $DATA of a record with restored bytes, as first clusters and counts, or None."""
    header = data_attribute(data)
    if header is None:
        return None
    end, at, first, runs = header + number(data, header + 4, 4), header + number(data, header + 32, 2), 0, []
    while not (at < end and number(data, at, 1) == 0):
        counts, places = number(data, at, 1) % 16, number(data, at, 1) // 16
        behind = at + 1 + counts + places
        if len(runs) == MOST_RUNS or not 1 <= counts <= 8 or not 1 <= places <= 8 or behind > end:
            return None
        count, distance = number(data, at + 1, counts), number(data, at + 1 + counts, places)
        first += distance - (256 ** places if 2 * distance >= 256 ** places else 0)
        if count == 0 or first < 0 or (first + count) * cluster >= FAR:
            return None
        runs.append((first, count))
        at = behind
    return runs


class Table(NamedTuple):
    """The table of a volume."""
    volume: Volume
    runs: tuple

    def rule(self, place):
        """The rule of the record of a number, or None."""
        boot, wide = self.volume, self.volume.size // SECTOR
        before = place * wide
        for first, count in self.runs:
            if before < count * boot.cluster:
                if before + wide > count * boot.cluster:
                    return None
                own, copy = first * boot.cluster + before, boot.mirror * boot.cluster + place * wide
                again = place < max(4, boot.cluster * SECTOR // boot.size) and copy < FAR
                return f"either:{own}:{copy}" if again else f"at:{own}"
            before -= count * boot.cluster
        return None


def table_of(boot, record):
    """The table of a volume by its record 0, if that is one of it."""
    runs = runs_of(restored(record), boot.cluster) if len(record) == boot.size else None
    return Table(boot, tuple(runs)) if runs and runs[0][0] == boot.table else None


def groups(seen, images):
    """A group for each table that a whole record 0 tells, by what was seen of the kinds `boot`, `record` and `mft`."""
    boots = [(sector, place, Volume(found[0], found[2], found[3], found[4])) for sector, place, found in seen["boot"]]
    boots = [it for it in boots if it[2].is_possible()] + [it for it in seen["mft"] if isinstance(it[2], Volume)]
    volumes = list(dict.fromkeys(found for _, _, found in sorted(boots, key=lambda it: it[:2])))[:MOST_TABLES]
    starts = [(sector, place, Start(found[1], found[0])) for sector, place, found in seen["record"] if found[0] in SIZES]
    starts += [it for it in seen["mft"] if isinstance(it[2], Start)]
    whole, tables = [], {}
    for sector, place, found in sorted(starts, key=lambda it: it[:2]):
        record = images[place][sector * SECTOR:len(images[place]) // SECTOR * SECTOR][:found.size]
        if len(record) < found.size or not is_whole(record):
            continue
        whole.append((sector, place, found))
        told = [table_of(boot, record) for boot in volumes] if found.number == 0 else []
        tables.update((table, None) for table in told if table)
    first = list(tables)[:MOST_TABLES]
    most, marked = MOST_MARKS // max(1, len(first)), []
    for table in first:
        rules = [(sector, place, table.rule(found.number)) for sector, place, found in whole
                 if found.size == table.volume.size and found.number]
        marked.append([Mark("mft", place, sector, rule) for sector, place, rule in rules if rule][:most])
    return [Group("mft", marks) for marks in marked if marks]
