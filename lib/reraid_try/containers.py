"""Images that are no raw bytes of a disk in one file: what they are, by their bytes or their names, and what opens them.

The formats are told by their signatures: of EWF (E01) and logical evidence as libewf has them, of qcow2, VMDK, VHD, VHDX and VDI as the block
drivers of QEMU have them. A VHD is known by its footer, whose sum is right.
"""

import dataclasses
import os
import re
import struct
from collections.abc import Callable, Sequence

from .errors import OutsideError, said
from .units import ALL, SECTOR

# What is read of a file at each end.
HEAD = 1024
EWF, SPLIT = "E01", "split raw"
# Kinds that qemu-nbd opens, with its name for each.
QEMU = {"qcow": "qcow", "qcow2": "qcow2", "VMDK": "vmdk", "VHD": "vpc", "VHDX": "vhdx", "VDI": "vdi"}
PACKAGES = {"ewfmount": "ewf-tools", "fusermount3": "fuse3", "nbdfuse": "libnbd-bin", "nbdkit": "nbdkit", "qemu-nbd": "qemu-utils"}
# Kinds that are known and not opened here, with what to do about it.
UNOPENED = {
    "Ex01": "it is an E01 of the second version, which ewfmount of Debian 12 does not read: export it as raw or E01",
    "L01": "it is logical evidence, which has files and no disk",
    "AD1": "it is logical evidence, which has files and no disk",
    "AFF": "affuse (Debian package afflib-tools) shows it as a raw image",
    "gzip": "it is compressed: unpack it first", "xz": "it is compressed: unpack it first", "zstd": "it is compressed: unpack it first",
    "bzip2": "it is compressed: unpack it first", "zip": "it is compressed: unpack it first", "7z": "it is compressed: unpack it first"}
SIGNATURES = ((b"EVF\x09\x0d\x0a\xff\x00", EWF), (b"EVF2\x0d\x0a\x81\x00", "Ex01"), (b"LVF\x09\x0d\x0a\xff\x00", "L01"),
              (b"LEF2\x0d\x0a\x81\x00", "L01"), (b"ADSEGMENTEDFILE\x00", "AD1"), (b"AFF10\x0d\x0a\x00", "AFF"), (b"KDMV", "VMDK"), (b"COWD", "VMDK"),
              (b"# Disk DescriptorFile", "VMDK"), (b"vhdxfile", "VHDX"))
# Compressed files: a disk may begin with these bytes, so the name has to say so too.
COMPRESSED = {".gz": (b"\x1f\x8b", "gzip"), ".xz": (b"\xfd7zXZ\x00", "xz"), ".zst": (b"\x28\xb5\x2f\xfd", "zstd"), ".bz2": (b"BZh", "bzip2"),
              ".zip": (b"PK\x03\x04", "zip"), ".7z": (b"7z\xbc\xaf\x27\x1c", "7z")}
ENDINGS = {".e01": EWF, ".ex01": "Ex01", ".l01": "L01", ".qcow2": "qcow2", ".vmdk": "VMDK", ".vhd": "VHD", ".vhdx": "VHDX", ".vdi": "VDI"}
PART = re.compile(r"(.*\.)(\d{3,4})")
EXTENT = re.compile(rb'^\s*(?:RW|RDONLY|NOACCESS)\s+\d+\s+\w+\s+"([^"\n]+)"', re.MULTILINE)


@dataclasses.dataclass(frozen=True)
class Container:
    """An image in a container: its kind, and its files in order, the one that is named first."""

    kind: str
    parts: tuple[str, ...]

    @property
    def name(self) -> str:
        """Return the name of its first file, which stands for it."""
        return self.parts[0]

    def line(self) -> str:
        """Return it as one line of text."""
        return f"{self.name}: {self.kind}" + (f" of {len(self.parts)} files" if len(self.parts) > 1 else "")

    def shown(self) -> str:
        """Return the name of the file that shows its disk, in the folder where it is opened."""
        return "ewf1" if self.kind == EWF else "disk"

    def tools(self) -> tuple[str, ...]:
        """Return the programs that open it and undo that."""
        opening = ("ewfmount",) if self.kind == EWF else ("nbdfuse", "nbdkit" if self.kind == SPLIT else "qemu-nbd")
        return (*opening, "fusermount3")

    def command(self, folder: str, name: Callable[[str], str] = os.path.abspath) -> list[str]:
        """Return the command that opens it for reading in a folder, with its files as they are named there. That of E01 ends once it is open; the
        others go on until the folder is unmounted."""
        if self.kind == EWF:
            return ["ewfmount", name(self.name), folder]
        shown = ["nbdfuse", "-r", os.path.join(folder, self.shown())]
        if self.kind == SPLIT:
            return [*shown, "--command", "nbdkit", "-s", "-r", "split", *(f"file={name(part)}" for part in self.parts)]
        if self.kind == "VHD":
            # Of a size in its footer and one in cylinders the first is right.
            file = name(self.name).replace(",", ",,")
            driver = f"driver=vpc,force_size_calc=current_size,file.driver=file,file.filename={file}"
            return [*shown, "[", "qemu-nbd", "-r", "--image-opts", driver, "]"]
        return [*shown, "[", "qemu-nbd", "-r", "-f", QEMU[self.kind], name(self.name), "]"]

    def goes_on(self) -> bool:
        """The command that opens it runs as long as it is open."""
        return self.kind != EWF


@dataclasses.dataclass(frozen=True)
class Known:
    """What the words name: each image to be searched, as a container or as the name of a raw one, and what is to be said of them."""

    images: tuple[Container | str, ...]
    lines: tuple[str, ...] = ()

    def containers(self) -> list[Container]:
        """Those that have to be opened."""
        return [it for it in self.images if isinstance(it, Container)]


def read_at(name: str, first: int, count: int) -> bytes:
    """So many bytes of a file, from a first one on."""
    try:
        with open(name, "rb") as file:
            file.seek(first)
            return file.read(count)
    except OSError as error:
        raise OutsideError(f"{name} cannot be read: {said(error)}") from error


def ends_of(name: str) -> tuple[bytes, bytes]:
    """Return the first bytes of a file, and its last sector."""
    try:
        with open(name, "rb") as file:
            head = file.read(HEAD)
            file.seek(max(0, file.seek(0, os.SEEK_END) - SECTOR))
            return head, file.read(SECTOR)
    except OSError as error:
        raise OutsideError(f"{name} cannot be read: {said(error)}") from error


def is_vhd_footer(sector: bytes) -> bool:
    """It is the footer of a VHD: its cookie, and its sum, the complement of that of all other bytes."""
    if sector[:8] != b"conectix" or len(sector) < SECTOR:
        return False
    total: int = struct.unpack_from(">I", sector, 64)[0]
    return total == ~(sum(sector) - sum(sector[64:68])) & 0xFFFFFFFF


def kind_of(name: str, head: bytes, tail: bytes) -> str | None:
    """Return the kind of a file by its bytes; of compressed ones by its name too. None where it may be raw."""
    for signature, kind in SIGNATURES:
        if head.startswith(signature):
            return kind
    if head[:4] == b"QFI\xfb":
        version, = struct.unpack_from(">I", head, 4) if len(head) >= 8 else (0,)
        return {1: "qcow", 2: "qcow2", 3: "qcow2"}.get(version)
    if head[64:68] == b"\x7f\x10\xda\xbe":
        return "VDI"
    if is_vhd_footer(tail) or is_vhd_footer(head[:SECTOR]):
        return "VHD"
    compressed = COMPRESSED.get(os.path.splitext(name)[1].lower())
    return compressed[1] if compressed and head.startswith(compressed[0]) else None


def segment(head: bytes) -> int:
    """Return the number of an EWF's file among those of its image, from 1."""
    number: int = struct.unpack_from("<H", head, 9)[0] if len(head) >= 11 else 0
    return number


def segments(name: str, first: int = 1) -> tuple[str, ...]:
    """Return the files of an EWF whose first one is named, in order, as libewf names them: E01 to E99, EAA to EZZ, FAA and so on."""
    base, ending = os.path.splitext(name)
    found, letters = [name], ending[1:]
    if not re.fullmatch(r"[A-Za-z]01", letters):
        return (name,)
    begin = letters[0]
    low = ord("a") if begin.islower() else ord("A")
    for number in range(first + 1, 100 + 26 * 26 * 22):
        if number < 100:
            text = f"{begin}{number:02}"
        else:
            rest = number - 100
            text = chr(ord(begin) + rest // 676) + chr(low + rest // 26 % 26) + chr(low + rest % 26)
        if not os.path.isfile(f"{base}.{text}"):
            break
        found.append(f"{base}.{text}")
    return tuple(found)


def pieces(name: str) -> tuple[str, ...]:
    """Return the files of a split raw image whose first one, .000 or .001, is named, in order up to the first that is not there; nothing where it is
    no such name, or no second one is there."""
    match = PART.fullmatch(name)
    if not match or int(match[2]) > 1:
        return ()
    found = [name]
    while os.path.isfile(following := f"{match[1]}{int(match[2]) + len(found):0{len(match[2])}}"):
        found.append(following)
    return tuple(found) if len(found) > 1 else ()


def listed(folder: str) -> list[str]:
    """Return the names in a folder."""
    try:
        return os.listdir(folder)
    except OSError as error:
        raise OutsideError(f"{folder} cannot be read: {said(error)}") from error


def gap(parts: Sequence[str]) -> str | None:
    """Return the first file that is missing of a split image where later ones are there."""
    match = PART.fullmatch(parts[-1])
    if not match:
        return None
    folder, stem, width = os.path.dirname(parts[-1]) or ".", os.path.basename(match[1]), len(match[2])
    later = [it for it in listed(folder) if re.fullmatch(re.escape(stem) + rf"\d{{{width}}}", it) and int(it[len(stem):]) > int(match[2])]
    return f"{match[1]}{int(match[2]) + 1:0{width}}" if later else None


def described(name: str, head: bytes) -> bytes:
    """Return the text of a VMDK, in which its extents are named; nothing where it has none."""
    if head.startswith(b"KDMV") and len(head) >= 44:
        first, count = struct.unpack_from("<QQ", head, 28)
        return read_at(name, first * SECTOR, min(count, 64) * SECTOR) if 0 < first < ALL // SECTOR else b""
    if head.startswith(b"# Disk DescriptorFile"):
        return read_at(name, 0, 1 << 16)
    return b""


def extents(name: str, head: bytes) -> set[str]:
    """Return the other files that the text of a VMDK names."""
    folder = os.path.dirname(name)
    return {os.path.join(folder, it.decode(errors="surrogateescape")) for it in EXTENT.findall(described(name, head))} - {name}


def part_of(name: str, whole: dict[str, str], kind: str | None, head: bytes) -> str | None:
    """Return the image of which a file is a later part; None where it is one by itself."""
    if name in whole:
        return whole[name]
    if kind == EWF and segment(head) > 1:
        raise OutsideError(f"{name} is part {segment(head)} of an E01: give only its first file")
    return None


def known(names: Sequence[str], raw: bool = False) -> Known:
    """Return what the files of these names are; all raw where that is said. Later parts of an image are no images by themselves."""
    if raw:
        return Known(tuple(names))
    ends = {name: ends_of(name) for name in names}
    kinds = {name: kind_of(name, *ends[name]) for name in names}
    for name, kind in kinds.items():
        if kind in UNOPENED:
            raise OutsideError(f"{name} is not a raw image ({kind}): {UNOPENED[kind]}")
    whole: dict[str, str] = {}
    containers: dict[str, Container] = {}
    lines: list[str] = []
    for name, kind in kinds.items():
        parts = segments(name) if kind == EWF and segment(ends[name][0]) == 1 else pieces(name) if kind is None else (name,)
        others = extents(name, ends[name][0]) if kind == "VMDK" else set()
        if name in whole or not parts:
            continue
        if kind is None and are_disks(parts, names):
            lines.append(f"{name} and the files numbered after it are read as disks, not as the parts of one")
            whole |= {part: part for part in parts}
            continue
        whole |= {part: name for part in [*parts[1:], *others]}
        containers[name] = Container(kind or SPLIT, parts)
    images: list[Container | str] = []
    for name in names:
        owner = part_of(name, whole, kinds[name], ends[name][0])
        if owner in containers and owner != name:
            lines.append(f"{name}: part of {owner}")
        else:
            images.append(container_of(name, containers, lines))
    return Known(tuple(images), tuple(lines))


def are_disks(parts: Sequence[str], names: Sequence[str]) -> bool:
    """The pieces of a split image are rather disks that are numbered: more than one of them is named, and no other image is, or all are of one length
    (of the pieces of a disk the last one is shorter)."""
    named = [part for part in parts if part in names]
    return len(named) > 1 and (set(names) <= set(parts) or len({os.path.getsize(part) for part in parts}) == 1)


def container_of(name: str, containers: dict[str, Container], lines: list[str]) -> Container | str:
    """Return what an image is; a line is added where that is to be said."""
    it = containers.get(name)
    said_kind = ENDINGS.get(os.path.splitext(name)[1].lower())
    if it is None:
        lines += [f"{name}: its contents are not {said_kind}, as its name suggests; it is read as a raw image"] if said_kind else []
        return name
    if it.kind == SPLIT and (lost := gap(it.parts)):
        raise OutsideError(f"{name} is split into several files, and {lost} is missing")
    lines.append(it.line())
    return it
