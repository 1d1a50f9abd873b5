"""Whether a container is whole, as far as that can be told without reading the disk in it: what is missing of one its tool would mostly show as
zeros, without a word.

An EWF ends with a section `done` (libewf has the sections); qemu-img knows the tables of qcow2, VMDK and VHDX; those of VDI, and the lengths of flat
extents of a VMDK, are looked at here.
"""

import os
import re
import shutil
import struct
import subprocess

from .containers import EWF, QEMU, Container, described, ends_of
from .units import SECTOR

# The last section of an EWF: a descriptor alone, which begins with its type.
SECTION = 76
FLAT = re.compile(rb'^\s*(?:RW|RDONLY)\s+(\d+)\s+(?:FLAT|VMFS)\s+"([^"\n]+)"(?:\s+(\d+))?', re.MULTILINE)
# What qemu-img says of a good one, of one with room to be freed, and of kinds that it does not check.
GOOD = (0, 3, 63)


def ewf_fault(name: str) -> str | None:
    """What is missing behind the last file of an EWF that was found."""
    with open(name, "rb") as file:
        file.seek(max(0, file.seek(0, os.SEEK_END) - SECTION))
        kind = file.read(SECTION)[:16].rstrip(b"\0")
    if kind == b"done":
        return None
    return f"{name} says that a further file follows, and there is none" if kind == b"next" else f"{name} is cut off, or not closed"


def vdi_fault(name: str, head: bytes) -> str | None:
    """A VDI is shorter than its blocks."""
    if len(head) < 392:
        return f"{name} is cut off"
    data, = struct.unpack_from("<I", head, 344)
    block, more, _, used = struct.unpack_from("<IIII", head, 376)
    return f"{name} is cut off" if os.path.getsize(name) < data + used * (block + more) else None


def flat_fault(name: str, head: bytes) -> str | None:
    """A flat extent of a VMDK is not there, or shorter than its text says."""
    for sectors, other, first in FLAT.findall(described(name, head)):
        path = os.path.join(os.path.dirname(name), other.decode(errors="surrogateescape"))
        if not os.path.isfile(path):
            return f"{path} is not there"
        if os.path.getsize(path) < (int(sectors) + int(first or 0)) * SECTOR:
            return f"{path} is shorter than {name} says"
    return None


def told_by_tool(it: Container) -> str | None:
    """What qemu-img finds wrong with the tables of a container."""
    if not shutil.which("qemu-img"):
        return None
    done = subprocess.run(["qemu-img", "check", "-U", "-f", QEMU[it.kind], it.name], stdin=subprocess.DEVNULL, stdout=subprocess.PIPE,
                          stderr=subprocess.STDOUT, text=True, errors="replace", check=False)
    if done.returncode in GOOD:
        return None
    lines = [line.strip() for line in done.stdout.splitlines() if line.strip()]
    return "qemu-img check: " + (lines[0].removeprefix("qemu-img: ") if lines else f"status {done.returncode}")


def fault(it: Container) -> str | None:
    """What is missing of a container, or wrong with it; None where nothing is known to be."""
    if it.kind == EWF:
        return ewf_fault(it.parts[-1])
    head = ends_of(it.name)[0]
    if it.kind == "VDI":
        return vdi_fault(it.name, head)
    wrong = flat_fault(it.name, head) if it.kind == "VMDK" else None
    return wrong or (told_by_tool(it) if it.kind in QEMU else None)
