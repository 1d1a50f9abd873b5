"""What the words of reraid may be, as docs/COMMANDS.md has it, and other names under which people know them."""

import re

COMMANDS = ("survey", "list", "check", "map", "write", "rebuild", "sample", "classes", "mirrors", "mirrorwrite", "salvage",
            "relations")
SURVEY = ("levels", "members", "patterns", "delays", "syndromes", "chunks", "offsets", "origins", "missing", "foreign", "badrows", "misfits", "least",
          "window", "end", "kinds", "mode", "logical", "drop")
OPERANDS = {
    "survey": SURVEY, "list": ("from", "size", "span", "pages", "form"), "check": ("set",), "map": ("set", "sector", "end"),
    "write": ("set", "end"), "rebuild": ("set", "slot", "end"), "sample": ("number", "set", "rows", "marks"), "classes": ("images", "end"),
    "mirrors": ("layouts", "members", "chunks", "offsets", "missing", "foreign", "badrows", "window", "end", "from", "size", "span"),
    "mirrorwrite": ("set", "end"), "salvage": ("set", "form", "end"), "relations": ("from", "end", "step", "offsets", "form"),
    "nbd": ("set", "maps", "end")}
PATTERNS = ("plain", "la", "ra", "ls", "rs", "parity-first", "parity-last", "n-restart", "n-continue", "la-6", "ra-6", "ls-6", "rs-6",
            "parity-first-6")
SYNDROMES = ("none", "after-q", "by-data", "by-slot")
# Of RAID 10, in the order of a list.
LAYOUTS = tuple(f"{kind}{copies}" for kind in ("near", "far", "offset") for copies in (2, 3, 4))
KINDS = ("gpt", "ntfs", "xfs", "btrfs", "lvm", "ext", "extinode", "xfs5", "btrfstree", "mft")
NAMES = {"levels": ("0", "5", "6"), "patterns": PATTERNS, "syndromes": SYNDROMES, "layouts": LAYOUTS, "kinds": KINDS, "mode": ("common", "each"),
         "logical": ("512", "4096"), "form": ("text", "json", "data", "lost"), "marks": ("none", "xfs")}
NUMBERS = ("members", "delays", "chunks", "offsets", "origins")
# Other names, mostly those of mdadm, and ours.
OTHERS = {
    "left-asymmetric": "la", "right-asymmetric": "ra", "left-symmetric": "ls", "right-symmetric": "rs", "parity-0": "parity-first",
    "parity-n": "parity-last", "ddf-zero-restart": "ra", "ddf-n-restart": "n-restart", "ddf-n-continue": "n-continue",
    "left-asymmetric-6": "la-6", "right-asymmetric-6": "ra-6", "left-symmetric-6": "ls-6", "right-symmetric-6": "rs-6",
    "parity-first-6": "parity-first-6", "raid0": "0", "raid5": "5", "raid6": "6", "4": "5", "raid4": "5", "10": "10", "raid10": "10",
    "n2": "near2", "n3": "near3", "f2": "far2", "f3": "far3", "o2": "offset2", "o3": "offset3", "near": "near2", "far": "far2", "offset": "offset2",
    "ext2": "ext", "ext3": "ext", "ext4": "ext", "lvm2": "lvm", "efi": "gpt"}
OTHER_OPERANDS = {"level": "levels", "raid-devices": "members", "disks": "members", "drives": "members", "layout": "patterns",
                  "layouts": "patterns", "pattern": "patterns", "algorithm": "patterns", "chunk": "chunks", "offset": "offsets",
                  "data-offset": "offsets", "lost": "missing", "degraded": "missing", "kind": "kinds", "syndrome": "syndromes", "order": "syndromes",
                  "skip": "drop", "sets": "set", "start": "from", "delay": "delays", "parity-delay": "delays", "rotation": "delays"}
BY_LEVEL = {"0": ("plain",), "5": ("la", "ra", "ls", "rs", "parity-first", "parity-last"), "6": PATTERNS[1:]}
UNITS = {"k": 2, "kb": 2, "kib": 2, "m": 2048, "mb": 2048, "mib": 2048, "g": 2097152, "gb": 2097152, "gib": 2097152}


def sectors(text: str) -> int | None:
    """Return the sectors of a size with a unit, as 64K has 128; None where it is none."""
    match = re.fullmatch(r"(\d{1,12})(\w+)", text)
    unit = UNITS.get(match[2].lower()) if match else None
    return int(match[1]) * unit if match and unit else None
