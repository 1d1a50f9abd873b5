"""Shows the volume of an array of arrays, such as a RAID 50: first the volumes of the sub-arrays, then that of the array over them.

Usage, in lib/: python3 -m reraid_mount.legs RERAID_MOUNT [OPTION..] legs=SET+SET.. SET DIR IMAGE..
RERAID_MOUNT is the program that shows one volume. The volumes of the sub-arrays stay in DIR.legs as long as they are shown.
"""

import dataclasses
import os
import pathlib
import re
import shlex
import subprocess
import sys
from collections.abc import Sequence

# A layout with its slots: a plus sign inside the offset joins offsets, one after the slots begins the next layout.
PARITY, MIRROR = r"\d+:[^:+]+:[^:+]+:\d+:[\d+]+:", r"(?:near|far|offset)\d+:\d+:[\d+]+:"
LAYOUT = re.compile(rf"((?:{PARITY}|{MIRROR})(?:\d+|-)(?:,(?:\d+|-))*)(?:@(\d+))?(?:\+|$)")
MAX_LEGS = 24
OPERAND, MAPS, NO_MAPS = "legs=", "--maps", "--no-maps"
REFUSED = 1


class Wrong(Exception):
    """Why images cannot be divided so."""


@dataclasses.dataclass(frozen=True)
class Leg:
    """The layout of a sub-array, and the sector after its last one."""

    layout: str
    end: int | None

    @property
    def images(self) -> int:
        """How many images it takes: those that its slots name."""
        return sum(slot != "-" for slot in self.layout.rpartition(":")[2].split(","))


def read_legs(text: str) -> list[Leg]:
    """Return the layouts of a text that joins them by plus signs."""
    found: list[Leg] = []
    at = 0
    while at < len(text) or not found:
        match = LAYOUT.match(text, at)
        if not match or (match.end() == len(text) and text.endswith("+")):
            raise Wrong(f"{OPERAND}{text}: after {text[:at] or OPERAND} a layout is expected, such as 5:ls:none:128:2048:0,1,2")
        found.append(Leg(match[1], int(match[2]) if match[2] else None))
        at = match.end()
    if len(found) > MAX_LEGS:
        raise Wrong(f"{OPERAND} has {len(found)} layouts: give at most {MAX_LEGS}")
    return found


@dataclasses.dataclass(frozen=True)
class Asked:
    """What the words ask for: options, the sub-arrays, the layout over them, the folder, and all images."""

    options: Sequence[str]
    legs: Sequence[Leg]
    layout: str
    folder: str
    images: Sequence[str]

    @property
    def below(self) -> pathlib.Path:
        """The folder with the volumes of the sub-arrays."""
        return pathlib.Path(self.folder + ".legs")

    def parts(self) -> list[tuple[Leg, Sequence[str]]]:
        """Return each sub-array with its images."""
        found, at = [], 0
        for leg in self.legs:
            found.append((leg, self.images[at:at + leg.images]))
            at += leg.images
        return found

    def left(self) -> Sequence[str]:
        """Return the images that are in no sub-array."""
        return self.images[sum(leg.images for leg in self.legs):]


def read_words(words: Sequence[str]) -> Asked:
    """Return what the words ask for."""
    at = next(place for place, word in enumerate(words) if word.startswith(OPERAND))
    legs, rest = read_legs(words[at].removeprefix(OPERAND)), words[at + 1:]
    if MAPS in words[:at]:
        raise Wrong(f"{MAPS} cannot be combined with {OPERAND}: put the mapfiles beside the images")
    if len(rest) < 2:
        raise Wrong(f"give the layout over the volumes, DIR and the images after {OPERAND} (see --help)")
    asked = Asked(words[:at], legs, rest[0], rest[1], rest[2:])
    taken = sum(leg.images for leg in legs)
    if taken > len(asked.images):
        raise Wrong(f"the layouts of {OPERAND} take {taken} images, and {len(asked.images)} are given")
    if asked.below.exists():
        raise Wrong(f"{asked.below} exists: it is the folder for the sub-arrays, so unmount and remove what is in it, or choose another DIR")
    return asked


def unmounting() -> list[str]:
    """Return the command that unmounts a volume as soon as nothing reads it: the server of the array over it may still be ending."""
    return ["umount", "-l"] if os.geteuid() == 0 else ["fusermount3", "-uz"]


def undo(asked: Asked) -> None:
    """Unmount the volumes of sub-arrays that are shown, and remove their folders."""
    for folder in sorted(asked.below.glob("*")):
        if folder.is_mount():
            subprocess.run([*unmounting(), str(folder)], check=False)
        folder.rmdir()
    if asked.below.exists():
        asked.below.rmdir()


def show(program: str, asked: Asked) -> int:
    """Show the volumes of the sub-arrays, then that of the array; return the status of the first that fails."""
    no_maps = [word for word in asked.options if word == NO_MAPS]
    volumes = []
    for number, (leg, images) in enumerate(asked.parts()):
        folder = asked.below / str(number)
        folder.mkdir(parents=True)
        end = [] if leg.end is None else ["--end", str(leg.end)]
        done = subprocess.run([program, *no_maps, *end, leg.layout, str(folder), *images], env=os.environ | {"RERAID_LEG": "yes"},
                              stdout=subprocess.DEVNULL, check=False)
        if done.returncode:
            print(f"reraid-mount: this was sub-array {number} of {OPERAND}", file=sys.stderr)
            return done.returncode
        volumes.append(str(folder / "volume"))
    return subprocess.run([program, *asked.options, asked.layout, asked.folder, *volumes, *asked.left()], check=False).returncode


def main(words: list[str]) -> int:
    if not any(word.startswith(OPERAND) for word in words[1:]):
        sys.exit(__doc__)
    try:
        asked = read_words(words[1:])
    except Wrong as error:
        print(f"reraid-mount: {error}", file=sys.stderr)
        return REFUSED
    try:
        status = show(words[0], asked)
    except BaseException:
        undo(asked)
        raise
    if status:
        undo(asked)
        return status
    below = shlex.quote(str(asked.below))
    print(f"then, for the sub-arrays: for leg in {below}/*; do {' '.join(unmounting())} \"$leg\"; done; rm -d {below}/* {below}")
    return 0


if __name__ == "__main__":
    sys.exit(main(sys.argv[1:]))
