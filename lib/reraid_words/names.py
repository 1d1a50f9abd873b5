"""Says what is wrong with names of images, before anything opens them.

Usage, in lib/: python3 -m reraid_words.names [--twice] IMAGE..
Prints a line for each fault and ends with status 1; prints nothing where it finds none. With --twice it looks only for images that are named twice.
"""

import os
import stat
import sys
from collections.abc import Iterator, Sequence


def length_of(name: str) -> int:
    """Return the bytes of a file or of a block device."""
    with open(name, "rb") as file:
        return file.seek(0, os.SEEK_END)


def fault_of(name: str) -> str:
    """Return what is wrong with one name; nothing if an image can be read there."""
    try:
        mode = os.stat(name).st_mode
    except OSError as error:
        return f"{name or 'an empty name'}: {error.strerror}"
    if stat.S_ISDIR(mode):
        return f"{name} is a folder: give the images in it, such as {os.path.join(name, '*')}"
    if not (stat.S_ISREG(mode) or stat.S_ISBLK(mode)):
        return f"{name} is neither a file nor a block device"
    try:
        return "" if length_of(name) else f"{name} is empty: leave it out"
    except OSError as error:
        as_root = "" if os.geteuid() == 0 else " (try as root)"
        return f"{name} cannot be read: {error.strerror}{as_root}"


def identity(name: str) -> tuple[int, ...]:
    """Return the numbers by which a file or a block device is known, whatever its name."""
    seen = os.stat(name)
    return (seen.st_rdev,) if stat.S_ISBLK(seen.st_mode) else (seen.st_dev, seen.st_ino)


def twice(names: Sequence[str]) -> Iterator[str]:
    """Yield a text for each name of an image that an earlier name stands for too."""
    firsts: dict[tuple[int, ...], str] = {}
    for name in names:
        known = identity(name)
        if known in firsts:
            first = firsts[known]
            yield f"{name} is given twice" if first == name else f"{name} and {first} are the same file"
        firsts.setdefault(known, name)


def faults(names: Sequence[str]) -> list[str]:
    """Return what is wrong with names of images, each fault once."""
    wrong = {name: told for name in names if (told := fault_of(name))}
    return [*wrong.values(), *dict.fromkeys(twice([name for name in names if name not in wrong]))]


def main(words: list[str]) -> int:
    if not words:
        sys.exit(__doc__)
    found = faults(words)
    if words[0] == "--twice":
        found = list(twice([name for name in words[1:] if not fault_of(name)]))
    for line in found:
        print(line)
    return 1 if found else 0


if __name__ == "__main__":
    sys.exit(main(sys.argv[1:]))
