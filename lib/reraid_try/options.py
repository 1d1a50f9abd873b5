"""The arguments of the command line."""

import argparse
import dataclasses
import os
import shutil
from collections.abc import Sequence

from reraid_words import names

from . import containers, units
from .casefile import host, writing
from .opening import Opened
from .report.report import MINUTE, Shown

UNITS = {"K": units.KIB, "M": units.MIB, "G": units.GIB, "T": units.TIB}
LEVELS = ("0", "5", "6", "10")
MIN_MEMBERS = 2
MIN_FIRST, USUAL_FIRST, USUAL_SECONDS = units.MIB, 16 * units.GIB, 60
# A question takes this part of the time of a step at most, and so many seconds at least.
PART, MIN_SECONDS = 6, 5

ABOUT = """\
Find the layout of a RAID array from images of its disks. reraid-try surveys the images for landmarks and parity, and lists the layouts that
pass. If none passes, it relaxes one test after another. File system checkers then read the volume of each candidate. It only reads the images,
and does not choose between candidates: the last list has all of them."""

STATUSES = "status: 0 a candidate is rated + or ++, 1 none is, 2 wrong arguments, 3 I/O or another program failed, 130 interrupted"


@dataclasses.dataclass(frozen=True)
class Options:
    """What is asked for. `first` is how many bytes of each image are read, `seconds` how long a step may take, `question` how long a question,
    where that is not the usual part of it, `members` the numbers of members that are tried, None where hints say them, `report` the file of the
    page, `hashes` whether digests are taken, `raw` whether images in containers are searched as they are, `resume` the file that keeps what was
    answered, `opened` the containers that were opened, `every` after how many seconds a line says what is at work. `clean` asks to
    remove what killed runs left, in place of a search. `case` and `examiner` stand in the report. `shown` is what is printed for people."""

    images: tuple[str, ...]
    as_json: bool = False
    show: bool = False
    jobs: int = 1
    members: tuple[int, ...] | None = None
    levels: tuple[str, ...] = LEVELS
    first: int = USUAL_FIRST
    seconds: int = USUAL_SECONDS
    room: str | None = None
    log: str | None = None
    report: str | None = None
    hashes: bool = False
    raw: bool = False
    resume: str | None = None
    opened: tuple[Opened, ...] = ()
    every: int = MINUTE
    question: int | None = None
    clean: bool = False
    case: str = ""
    examiner: str = ""
    shown: Shown = Shown.RESULTS

    @property
    def question_seconds(self) -> int:
        """Return how long a question may take."""
        return self.question or max(MIN_SECONDS, self.seconds // PART)

    def wants(self, level: str) -> bool:
        """This level is to be tried."""
        return level in self.levels


def size(text: str) -> int:
    """Return a number of bytes, with K, M, G or T behind it."""
    unit = UNITS.get(text[-1:].upper(), 1)
    digits = text[:-1] if unit > 1 else text
    if not digits.isdecimal():
        raise argparse.ArgumentTypeError(f"{text}: give a size in bytes, or with K, M, G or T, such as 16G")
    value = int(digits) * unit
    if value < MIN_FIRST:
        raise argparse.ArgumentTypeError(f"{text}: give at least 1M")
    return value


def members(text: str) -> tuple[int, ...]:
    """Numbers of members."""
    if not all(part.isdecimal() for part in text.split(",")):
        raise argparse.ArgumentTypeError(f"{text}: give numbers of disks, separated by commas, such as 4,5")
    values = tuple(int(part) for part in text.split(","))
    if not all(MIN_MEMBERS <= value <= units.MAX_IMAGES for value in values):
        raise argparse.ArgumentTypeError(f"{text}: give numbers of disks from {MIN_MEMBERS} to {units.MAX_IMAGES}")
    return values


def levels(text: str) -> tuple[str, ...]:
    """Levels, as 0,5,6,10."""
    values = tuple(text.split(","))
    if not set(values) <= set(LEVELS):
        raise argparse.ArgumentTypeError(f"{text}: give levels out of 0, 5, 6 and 10, separated by commas (5 includes RAID 4)")
    return values


def positive(text: str) -> int:
    """Return a number above 0."""
    value = int(text) if text.isdecimal() else 0
    if value < 1:
        raise argparse.ArgumentTypeError(f"{text}: give a whole number above 0")
    return value


def parser() -> argparse.ArgumentParser:
    """Return the words."""
    it = argparse.ArgumentParser(prog="reraid-try", description=ABOUT, epilog=STATUSES)
    it.add_argument("images", nargs="*", metavar="IMAGE", help="an image of a disk; reraid-try uses IMAGE.map beside it as its ddrescue mapfile")
    it.add_argument("--version", action="version", version=f"reraid-try {host.version()}")
    it.add_argument("--json", action="store_true", help="print one JSON object per line")
    it.add_argument("-v", "--verbose", action="store_true", help="print the evidence and the search steps too")
    it.add_argument("-x", action="store_true", help="as -v, and print the command of each search step")
    it.add_argument("-j", dest="jobs", type=positive, default=os.cpu_count() or 1, metavar="N",
                    help="number of commands that run concurrently (default: the number of processors)")
    it.add_argument("--members", type=members, metavar="LIST",
                    help="numbers of disks to try, including missing ones (default: by the hints, and more)")
    it.add_argument("--levels", type=levels, default=LEVELS, metavar="LIST", help="levels to try, out of 0, 5, 6 and 10 (default: all)")
    it.add_argument("--first", type=size, default=USUAL_FIRST, metavar="SIZE", help="read this much of each image (default: 16G)")
    it.add_argument("--all", action="store_true", help="read all of each image")
    it.add_argument("--time", type=positive, default=USUAL_SECONDS, metavar="SECONDS", help="maximum time of a search step in seconds (default: 60)")
    it.add_argument("--every", type=positive, default=MINUTE, metavar="SECONDS",
                    help="if standard error is no terminal, report progress after this many seconds (default: 60)")
    it.add_argument("--room", metavar="DIR", help="folder in which volumes are written and mounted (default: the folder for temporary files)")
    it.add_argument("--log", metavar="FILE", help="append every command to FILE, with its status and time")
    it.add_argument("--resume", metavar="FILE", help="save all answers in FILE; a later run with FILE continues from them")
    it.add_argument("--report", metavar="FILE", help="write an HTML report for a case file, with pictures of the disks")
    it.add_argument("--case", default="", metavar="TEXT", help="the number or name of the case, for the report")
    it.add_argument("--examiner", default="", metavar="TEXT", help="the name of the examiner, for the report")
    it.add_argument("--hash", dest="hashes", action="store_true", help="compute the SHA-256 of each image during the search")
    it.add_argument("--clean", action="store_true", help="remove folders, mounts and processes that killed runs left; give no image")
    it.add_argument("--raw", action="store_true", help="do not open containers (E01, .001, qcow2, VMDK, VHD); search the files as they are")
    return it


def read_words(words: Sequence[str]) -> Options:
    """Return the options of the words; the run ends with status 2 where they are wrong."""
    asking = parser()
    it = asking.parse_args(["--help"] if list(words) == ["help"] and not os.path.exists("help") else words)
    if bool(it.images) == it.clean:
        asking.error("--clean takes no image" if it.clean else "give the images of all disks, such as *.img")
    if (told := writing.not_written_over(it.report, it.resume)):
        asking.error(told)
    if (wrong := names.faults(it.images)):
        asking.error("; ".join(wrong))
    # Of an image in many files all may be named.
    if len(it.images) > units.MAX_IMAGES and len(containers.known(it.images, it.raw).images) > units.MAX_IMAGES:
        asking.error(f"{len(it.images)} images: at most {units.MAX_IMAGES} can be searched at once")
    if it.room and not os.path.isdir(it.room):
        asking.error(f"--room {it.room}: this is not a folder")
    if not it.clean and not shutil.which("reraid"):
        asking.error("the program reraid is not on the PATH: install it, or add its folder")
    return Options(tuple(it.images), it.json, it.x, it.jobs, it.members, it.levels, units.ALL if it.all else it.first, it.time, it.room, it.log,
                   it.report, it.hashes, it.raw, it.resume, every=it.every, clean=it.clean, case=it.case, examiner=it.examiner,
                   shown=Shown.DETAILS if it.verbose or it.x else Shown.RESULTS)
