"""Plain answers: what the images are if they are no array that can be searched. The search ends with such an answer."""

import concurrent.futures
import dataclasses
import enum
import shlex
from collections.abc import Iterator, Sequence

from ..checks.alone import Alone, is_sound
from ..checks.candidates import Candidate
from ..checks.verdicts import Verdict
from ..evidence import entropy, fills, homes, linear, pools
from ..evidence.image_groups import ImageGroup
from ..evidence.homes import Home
from ..evidence.images import Image
from ..evidence.linear import Group
from ..evidence.pools import Device
from ..evidence.ties import Ties, Told, named
from ..report import typed
from ..units import SECTOR, counted

# What a mount of btrfs needs so that nothing is written; ENCRYPTED are the heads that `evidence.heads` finds.
BTRFS_OPTIONS = "ro,rescue=nologreplay"
ENCRYPTED = {"luks": "LUKS", "bitlocker": "BitLocker"}
CLOSED = ("crypto_LUKS", "BitLocker")
# Parity of ZFS fails in one of so many of the rows in which it holds, or in more.
FEW_LOOSE = 16
GO_ON = "  (to search for an array nevertheless, give --levels or --members)"


class Kind(enum.Enum):
    """What images are that are no array."""

    SINGLE = "single disks"
    MIRROR = "mirror"
    LINEAR = "linear"
    BTRFS = "btrfs"
    ZFS = "zfs"
    LOST = "too many disks missing"
    ENCRYPTED = "encrypted"


@dataclasses.dataclass(frozen=True)
class Answer:
    """What the images are, in words, and what to type to look into them."""

    kind: Kind
    text: str
    commands: tuple[str, ...] = ()

    def lines(self) -> str:
        """Return what is printed of it."""
        typed = ["  to mount it read-only, as root:", *(f"    {line}" for line in self.commands)] if self.commands else []
        return "\n".join([self.text, *typed, GO_ON])


def loop(image: Image, first: int) -> str:
    """Return the line that makes a device of an image, from a sector on."""
    name = image.opened.typed if image.opened else shlex.quote(image.name)
    return f"losetup -r -f --show {f'-o {first * SECTOR} ' if first else ''}{name}"


def btrfs(images: Sequence[Image]) -> Answer | None:
    """Return the answer if the images are the devices of one btrfs."""
    found = pools.pool_of([pools.btrfs_device(image) for image in images])
    if not found:
        return None
    lost = found[0].devices - len(found)
    missing = f"; {counted(lost, 'device')} {'is' if lost == 1 else 'are'} missing" if lost > 0 else ""
    text = (f"{named([it.image for it in found])}: the disks of one btrfs of {counted(found[0].devices, 'device')} ({found[0].pool}). It has its own "
            f"RAID, and there is no array below it{missing}")
    options = BTRFS_OPTIONS + ",degraded" * (lost > 0)
    return Answer(Kind.BTRFS, text, (*loops(images, found), "btrfs device scan", f"mount -t btrfs -o {options} UUID={found[0].pool} /mnt"))


def loops(images: Sequence[Image], found: Sequence[Device]) -> Iterator[str]:
    """Yield the lines that make a device of each disk."""
    numbers = {image.number: image for image in images}
    return (loop(numbers[it.image], it.first) for it in found)


def zfs(images: Sequence[Image]) -> Answer | None:
    """Return the answer if the images are the devices of one ZFS pool."""
    found = pools.pool_of([pools.zfs_device(image) for image in images])
    if not found:
        return None
    name = found[0].pool or "POOL"
    text = f"{named([it.image for it in found])}: labels of the ZFS pool {name}. ZFS has its own RAID, and there is no array below it"
    return Answer(Kind.ZFS, text, (*loops(images, found), f"zpool import -d /dev -o readonly=on -R /mnt {shlex.quote(name)}"))


def linear_volume(images: Sequence[Image]) -> Answer | None:
    """Return the answer if the images are the disks of linear volumes of LVM2."""
    found = [next((it for it in homes.homes(image) if it.kind == homes.LVM and it.fits), None) for image in images]
    group = linear.linear([it for it in found if it]) if all(found) and len(images) > 1 else None
    return linear_answer(group) if group else None


def linear_answer(group: Group) -> Answer:
    """Return the answer for a group of linear volumes."""
    lost = f"; {counted(group.lost, 'disk')} of the volume group {'is' if group.lost == 1 else 'are'} missing" if group.lost else ""
    text = (f"{named([it.image.number for it in group.disks])}: the volume is linear. LVM2 joins these disks one after another in the volume group "
            f"{group.name}{lost}. There is no array")
    active = f"vgchange -ay{' --activationmode partial' if group.lost else ''} {shlex.quote(group.name)}"
    mounts = (f"mount -o {it.options} {shlex.quote(f'/dev/{group.name}/{it.name}')} /mnt" for it in group.volumes)
    return Answer(Kind.LINEAR, text, (*(loop(it.image, it.first) for it in group.disks), active, *mounts))


def mount_lines(verdict: Verdict, image: Image) -> list[str]:
    """Return the lines that mount what an image holds by itself."""
    lines = list(image.opened.lines) if image.opened else []
    path = image.opened.typed if image.opened else shlex.quote(image.name)
    shown = typed.Shown(f"image{image.number}", path, image.sectors * SECTOR)
    return lines + [line.text for line in typed.mounts(verdict, shown)]


def too_many_lost(images: Sequence[Image], supers: Sequence[tuple[int, int]] = ()) -> Answer | None:
    """Return the answer if a file system is longer than all images together; `supers` are the places of superblocks that landmarks tell of."""
    home = homes.too_long(images, supers)
    if home is None:
        return None
    most = max(image.sectors for image in images)
    where = "with a superblock at" if home.is_copy else "that begins at"
    what = f"the {home.kind} {where} sector {home.first} of image {home.image.number}"
    there = f"{counted(len(images), 'image')} of at most {most} sectors"
    return Answer(Kind.LOST, f"too many disks are missing: {what} states that it has {home.sectors} sectors. {there} cannot hold it, with parity or "
                  f"without: it needs at least {-(-home.sectors // most)}. Only files that lie within one chunk can be found, by a program such as "
                  "photorec on each image")


NOTHING_TELLS = ("Only parity could tell the layout, and parity matches none of the images, as with RAID 0 or the maximum of missing disks. If you "
                 "know the layout, mount it with reraid-mount and open it with its key")


def encrypted(images: Sequence[Image], told: Told) -> Answer | None:
    """Return the answer if the images are encrypted and parity ties none of them."""
    if not told.asked or told.known or any(home.kind not in CLOSED for home in homes.all_homes(images)):
        return None
    head = next((head for image in images for head in image.heads if head.kind in ENCRYPTED), None)
    if head:
        return Answer(Kind.ENCRYPTED, f"encrypted: {ENCRYPTED[head.kind]} begins at sector {head.sector} of image {head.image}. "
                      f"{NOTHING_TELLS}")
    if all(entropy.is_random(image) for image in images):
        return Answer(Kind.ENCRYPTED, f"{named([it.number for it in images])} hold only data that look random, as encrypted volumes do. "
                      f"{NOTHING_TELLS}")
    return None


def closed(tested: Sequence[Candidate]) -> Answer | None:
    """Return the answer if all volumes in which something is known are encrypted."""
    known = [it for it in tested if it.found.findings and not it.found.refuted]
    if not known or not all(it.found.closed for it in known):
        return None
    kinds = " and ".join(dict.fromkeys(finding.kind for it in known for finding in it.found.encrypted))
    return Answer(Kind.ENCRYPTED, f"encrypted ({kinds}): {counted(len(known), 'layout')} that parity and zeros allow begin with it. Their contents "
                  "do not tell which one is right. Try each with its key")


class Answers:
    """Looks for a plain answer. `images` are those that hold something, `different` each once of those that hold the same, `supers` the images and
    sectors of superblocks that landmarks tell of."""

    def __init__(self, alone: Alone, ties: Ties, images: Sequence[Image], jobs: int, supers: Sequence[tuple[int, int]] = ()) -> None:
        self.alone, self.ties, self.jobs, self.supers = alone, ties, jobs, supers
        self.images = [image for image in images if image.first is not None]
        self.different = [image for image in self.images if image.like is None]

    def early(self) -> Answer | None:
        """Return the answer that what stands on the images gives at once."""
        if not self.images:
            return None
        return self.pool() or linear_volume(self.different) or self.by_itself()

    def pool(self) -> Answer | None:
        """Return the answer if the images are the disks of a pool. Disks that were used for an array since may still have old labels: then parity
        ties them, or another file system begins on one."""
        found = btrfs(self.different) or zfs(self.different)
        if found is None or any(home.kind != "btrfs" or found.kind is Kind.ZFS for home in homes.all_homes(self.different)):
            return None
        told = self.ties.told([image.number for image in self.different], 0, min(image.sectors for image in self.different))
        return found if all(self.is_of_pool(it, found.kind) for it in fills.telling(told)) else None

    def is_of_pool(self, group: ImageGroup, kind: Kind) -> bool:
        """Return whether the parity of some images is that of a pool of ZFS, which has parity of its own in each block. It holds in a part of the
        rows, and all labels are there."""
        if kind is not Kind.ZFS or FEW_LOOSE * group.loose < group.rows:
            return False
        found = [(image, pools.zfs_device(image)) for image in self.different if image.number in group.images]
        return all(device is not None and pools.has_all_labels(image, device) for image, device in found)

    def by_itself(self) -> Answer | None:
        """Return the answer if each image holds a file system by itself, or if all hold the same."""
        found = [homes.own_home(image) for image in self.different]
        if len(self.different) == 1 < len(self.images):
            return self.same_images(found[0])
        there = [home for home in found if home]
        if len(there) < len(self.different):
            return None
        with concurrent.futures.ThreadPoolExecutor(self.jobs) as pool:
            verdicts = list(pool.map(lambda home: self.alone.verdict(home.image, home.first), there))
        if not all(map(is_sound, verdicts)):
            return None
        if len(there) > 1 and len({home.place for home in there}) == 1:
            return self.mirror(there[0].image, verdicts[0])
        return self.single(there, verdicts)

    def same_images(self, home: Home | None) -> Answer | None:
        """Return the answer if all images hold the same, unless a file system on them is longer than one image."""
        image = self.different[0]
        if home is None and any(it.sectors > image.sectors - it.first for it in homes.all_homes([image])):
            return None
        return self.mirror(image, self.alone.verdict(image, home.first if home else 0))

    def mirror(self, image: Image, verdict: Verdict) -> Answer:
        """Return the answer for a mirror."""
        same = "hold the same data" if len(self.different) == 1 else "hold the same file system, and differ in some sectors"
        held = f": {'; '.join(it.text() for it in verdict.findings)}" if verdict.findings else ""
        text = (f"this is a mirror (RAID 1): {named([it.number for it in self.images])} {same}, and each of them is the whole volume by "
                f"itself{held}. No layout is searched for")
        return Answer(Kind.MIRROR, text, tuple(mount_lines(verdict, image)))

    def single(self, there: Sequence[Home], verdicts: Sequence[Verdict]) -> Answer:
        """Return the answer for single disks."""
        held = "; ".join(f"image {home.image.number}: {', '.join(it.text() for it in verdict.findings)}" for home, verdict in zip(there, verdicts))
        said = "each disk has its own file system: these are single disks, and no array"
        if len(there) == 1:
            said = "the disk has its own file system, and is no array"
        lines = (line for home, verdict in zip(there, verdicts) for line in mount_lines(verdict, home.image))
        return Answer(Kind.SINGLE, f"{said} ({held}). No layout is searched for", tuple(lines))

    def late(self, told: Told, tested: Sequence[Candidate]) -> Answer | None:
        """Return the answer that is given if nothing that the images give a reason for has a rating; `told` is what parity tells of the images, and
        `tested` are the candidates."""
        # With as many disks lost as the level bears there are as many data disks as images.
        if lost := too_many_lost(self.different, self.supers) if not any(it.group.parity for it in told.known) else None:
            return lost
        return closed(tested) or encrypted(self.different, told)
