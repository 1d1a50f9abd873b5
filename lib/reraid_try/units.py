"""Sizes in bytes, and numbers as they are said."""

from collections.abc import Iterable

# What the program counts in: LBAs of images and volumes are in these.
SECTOR = 512
KIB, MIB, GIB, TIB = 1 << 10, 1 << 20, 1 << 30, 1 << 40
# More bytes than any image has.
ALL = 1 << 62
# Blocks in which a volume may count itself, beside sectors.
LARGE_BLOCK = 4096
# The number of disks at most.
MAX_IMAGES = 24


def counted(number: int, noun: str) -> str:
    """Return a number with its noun: `1 mark`, `2 marks`."""
    return f"{number} {noun}" + ("" if number == 1 else "s")


def size_said(count: int) -> str:
    """Return so many bytes as people read them."""
    unit, name = (MIB, "MiB") if count >= MIB else (KIB, "KiB")
    return f"{count / unit:.1f} {name}" if count >= KIB else counted(count, "byte")


def sectors_said(count: int) -> str:
    """Return so many sectors in KiB if that is a whole number, and in bytes otherwise."""
    return f"{count // 2} KiB" if count % 2 == 0 else f"{count * SECTOR} bytes"


def listed(numbers: Iterable[int]) -> str:
    """Numbers as a LIST of the words: rising, each once."""
    return ",".join(str(number) for number in sorted(set(numbers)))


def percent(part: int, whole: int) -> str:
    """Return a part of something, in hundredths; what is not nothing is not said to be."""
    if part and 100 * part < whole:
        return "less than 1%"
    return f"{100 * part // max(1, whole)}%"
