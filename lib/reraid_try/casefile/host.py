"""With what a run was made: the program and the tools, the machine, the command line and the date."""

import datetime
import hashlib
import os
import pathlib
import platform
import re
import shutil
import stat
import subprocess
import sys
from collections.abc import Sequence
from typing import Any

from ..units import MIB

# What is asked of each tool for its version, and where its answer is: the first line that has a number.
TOOLS = {"e2fsck": "-V", "xfs_repair": "-V", "btrfs": "--version", "ntfsfix": "--version", "pvck": "--version", "blkid": "--version",
         "nbdfuse": "--version", "ewfmount": "-V", "qemu-nbd": "--version", "nbdkit": "--version", "mdadm": "--version"}
SECONDS = 5
HERE = pathlib.Path(__file__).resolve().parents[3]


def line_of(*places: str) -> str:
    """Return the line of the first of these files that is there, below the folder where all is; nothing where none is."""
    for place in (HERE / place for place in places):
        if place.is_file():
            return place.read_text(encoding="ascii").strip()
    return ""


def version() -> str:
    """Return the version of these scripts."""
    return line_of("libexec/reraid/VERSION", "VERSION")


def kit() -> str:
    """With what the program beside these scripts was proved and built."""
    return line_of("libexec/reraid/KIT", "crates/reraid/out/KIT")


def said_by(words: Sequence[str]) -> str:
    """Return what a command says, at once on both of its outputs; nothing where it cannot be run or refuses."""
    try:
        done = subprocess.run(words, stdin=subprocess.DEVNULL, stdout=subprocess.PIPE, stderr=subprocess.STDOUT, text=True, errors="replace",
                              timeout=SECONDS, check=False)
    except (OSError, subprocess.TimeoutExpired):
        return ""
    return done.stdout


def tool_version(name: str) -> str:
    """Return the version of a tool, as it says it; nothing where it is not there."""
    if not shutil.which(name):
        return ""
    lines = [line.strip() for line in said_by([name, TOOLS[name]]).splitlines()]
    return next((line for line in lines if re.search(r"\d+\.\d+|\d{8}", line)), "")


def program_file(name: str) -> str:
    """Return the file of a program that is run for a name: of the wrapper reraid-nbd the program behind it; nothing where there is none."""
    found = shutil.which(name)
    if name == "reraid-nbd":
        places = (HERE / "libexec/reraid/reraid-nbd", HERE / "crates/reraid_nbd/out/reraid_nbd")
        return next((str(place) for place in places if place.is_file()), "")
    return os.path.realpath(found) if found else ""


def digest(name: str) -> str:
    """Return the SHA-256 of a file; nothing where it cannot be read."""
    found = hashlib.sha256()
    try:
        with open(name, "rb") as file:
            while block := file.read(MIB):
                found.update(block)
    except OSError:
        return ""
    return found.hexdigest()


def now() -> str:
    """Return the time, with its zone."""
    return datetime.datetime.now().astimezone().isoformat(timespec="seconds")


def date(nanoseconds: int) -> str:
    """Return a time of a file, with its zone."""
    return datetime.datetime.fromtimestamp(nanoseconds // 10**9).astimezone().isoformat(timespec="seconds")


def file_fields(name: str) -> dict[str, Any]:
    """Return what is told of a file of an image: its name, its bytes, and when it was changed last (None of a block device)."""
    with open(name, "rb") as file:
        seen = os.fstat(file.fileno())
        return {"name": name, "bytes": file.seek(0, os.SEEK_END), "changed": None if stat.S_ISBLK(seen.st_mode) else date(seen.st_mtime_ns)}


def fields(words: Sequence[str]) -> dict[str, Any]:
    """Return what is told of a run with these words, as it begins."""
    programs = {name: program_file(name) for name in ("reraid", "reraid-nbd")}
    told = said_by(["reraid", "--version"]).strip()
    own = program_file("reraid") in (str(HERE / "bin/reraid"), str(HERE / "crates/reraid/out/reraid"))
    system = platform.uname()
    files = [{"name": name, "file": file, "sha256": digest(file)} for name, file in programs.items() if file]
    tools = {name: told_version for name in TOOLS if (told_version := tool_version(name))}
    return {"version": version(), "kit": kit() if own else "", "program": told if told.startswith("reraid ") else "",
            "folder": os.getcwd(), "words": ["reraid-try", *words],
            "began": now(), "kernel": f"{system.system} {system.release} {system.version}", "machine": system.machine, "host": system.node,
            "python": sys.version.split()[0], "programs": files, "tools": tools}
