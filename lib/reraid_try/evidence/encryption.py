"""Heads of encrypted volumes: what a volume, a partition or an image begins with where its contents are not to be read without a key.

Sources: "LUKS1 On-Disk Format Specification" and "LUKS2 On-Disk Format Specification" of cryptsetup; "BitLocker Drive Encryption (BDE) format
specification" of libbde; "FileVault Drive Encryption (FVDE)" of libfvde; `struct g_eli_metadata` of FreeBSD's g_eli.h. TrueCrypt, VeraCrypt and plain
dm-crypt have no head: their volumes are random bytes from the first one on."""

import dataclasses
import json
import uuid
from collections.abc import Callable

SECTOR = 512
Read = Callable[[int, int], bytes]

LUKS = b"LUKS\xba\xbe"
LUKS2_JSON, LUKS2_MIN, LUKS2_MAX = 4096, 16384, 4 << 20
BITLOCKER, BITLOCKER_TO_GO = b"-FVE-FS-", b"MSWIN4.1"
# The identifier of BitLocker's metadata, as it stands in a boot sector: 4967D63B-2E29-4AD8-8399-F6A339E3D001.
BITLOCKER_ID = uuid.UUID("4967d63b-2e29-4ad8-8399-f6a339e3d001").bytes_le
TO_GO_ID_PLACE = 424
CORE_STORAGE, CORE_STORAGE_PLACE = b"CS", 88
CORE_STORAGE_HEAD = b"\x01\x00\x10\x00"
GELI = b"GEOM::ELI"
# The longest head that is looked at in one piece.
HEAD = 4096


@dataclasses.dataclass(frozen=True)
class Encryption:
    """An encrypted volume: its kind as people call it, the identifier and the details that its head tells, and what opens it for reading, in which
    VOLUME stands for its file. `data` is at which of its bytes the encrypted data begin, where its head tells that."""

    kind: str
    opener: tuple[str, ...]
    identifier: str = ""
    detail: str = ""
    data: int | None = None

    def line(self) -> str:
        """Return it as one line of text."""
        told = [part for part in (self.detail, f"identifier {self.identifier}" if self.identifier else "") if part]
        return f"encrypted: {self.kind}" + (f" ({', '.join(told)})" if told else "")


def text_of(field: bytes) -> str:
    """The text of a field that ends at its first zero."""
    return field.split(b"\0", 1)[0].decode("ascii", "replace")


def luks1(head: bytes) -> Encryption:
    """What a head of LUKS1 tells."""
    payload = int.from_bytes(head[104:108], "big") * SECTOR
    return Encryption("LUKS1", ("cryptsetup", "open", "--readonly", "VOLUME", "NAME"), text_of(head[168:208]),
                      f"{text_of(head[8:40])}-{text_of(head[40:72])}", payload or None)


def luks2_segment(area: bytes) -> tuple[str, int | None]:
    """The cipher and the first byte of the first segment, by the area of JSON; nothing where that is damaged."""
    try:
        segment = json.loads(area.split(b"\0", 1)[0])["segments"]["0"]
        return str(segment.get("encryption", "")), int(segment["offset"])
    except (ValueError, KeyError, TypeError):
        return "", None


def luks2(head: bytes, read: Read) -> Encryption:
    """What a head of LUKS2 tells."""
    size = int.from_bytes(head[8:16], "big")
    area = read(LUKS2_JSON, size - LUKS2_JSON) if LUKS2_MIN <= size <= LUKS2_MAX else b""
    cipher, data = luks2_segment(area)
    return Encryption("LUKS2", ("cryptsetup", "open", "--readonly", "VOLUME", "NAME"), text_of(head[168:208]), cipher, data)


def luks(head: bytes, read: Read) -> Encryption | None:
    """A volume of LUKS."""
    if head[:6] != LUKS:
        return None
    version = int.from_bytes(head[6:8], "big")
    return luks1(head) if version == 1 else luks2(head, read) if version == 2 else None


def bitlocker(head: bytes, _read: Read) -> Encryption | None:
    """A volume of BitLocker, or of BitLocker To Go."""
    opener = ("cryptsetup", "open", "--type", "bitlk", "--readonly", "VOLUME", "NAME")
    if head[3:11] == BITLOCKER:
        return Encryption("BitLocker", opener)
    if head[3:11] == BITLOCKER_TO_GO and head[TO_GO_ID_PLACE:TO_GO_ID_PLACE + 16] == BITLOCKER_ID:
        return Encryption("BitLocker To Go", opener)
    return None


def file_vault(head: bytes, _read: Read) -> Encryption | None:
    """A volume of Core Storage, which is what FileVault 2 makes."""
    if head[8:12] != CORE_STORAGE_HEAD or head[CORE_STORAGE_PLACE:CORE_STORAGE_PLACE + 2] != CORE_STORAGE:
        return None
    return Encryption("FileVault 2 (Core Storage)", ("cryptsetup", "open", "--type", "fvault2", "--readonly", "VOLUME", "NAME"))


KINDS = (luks, bitlocker, file_vault)


def detect(read: Read, length: int | None = None) -> Encryption | None:
    """What a volume is encrypted with, by its head, and by its last sector where its length in bytes is known; None where nothing known says so.
    `read` gives the bytes from a place on, fewer at the end."""
    head = read(0, HEAD)
    for kind in KINDS:
        if found := kind(head, read):
            return found
    if length and length >= SECTOR and read(length // SECTOR * SECTOR - SECTOR, SECTOR)[:len(GELI)] == GELI:
        return Encryption("GELI of FreeBSD", ("geli", "attach", "-r", "VOLUME"))
    return None
