"""Plain answers for images that are no array: pools, linear volumes, single disks, mirrors, too many missing disks, encryption."""

import random
import struct
import types
import uuid
from collections.abc import Sequence
from typing import Any, cast
from unittest import mock

from reraid_try.calls.plans import Mark
from reraid_try.checks import alone
from reraid_try.checks.alone import Alone
from reraid_try.checks.checkers import Checkers
from reraid_try.checks.lvm import Piece
from reraid_try.checks.systems import jfs_length, system_of
from reraid_try.checks.verdicts import Finding, Verdict
from reraid_try.checks.volumes import Region, Volume
from reraid_try.checks.wholes import Wholes
from reraid_try.evidence import copies, entropy, homes, linear, pools
from reraid_try.evidence.image_groups import ImageGroup
from reraid_try.evidence.heads import Head
from reraid_try.evidence.images import Image
from reraid_try.evidence.pools import Device
from reraid_try.evidence.tables import Partition, Table
from reraid_try.evidence.ties import Known, Ties, Told
from reraid_try.options import Options
from reraid_try.policy import answers
from reraid_try.policy.answers import Answer, Answers, Kind
from reraid_try.policy.search import Search
from reraid_try.units import GIB, KIB, MIB, SECTOR
from tests.standin import InFolder
from tests.standin import Told as Report
from tests.test_candidates import candidate, whole

POOL = uuid.UUID("12345678-1234-5678-1234-567812345678")
SIZE = 4 * MIB
TEXT = """vg {
id = "g"
seqno = 1
extent_size = 8
physical_volumes {
pv0 {
id = "%s"
pe_start = 2048
}
pv1 {
id = "%s"
pe_start = 2048
}
}
logical_volumes {
data {
segment1 {
start_extent = 0
extent_count = 100
type = "striped"
stripe_count = %d
stripes = [ "pv0", 0 ]
}
}
}
}
"""


def ext(sectors: int) -> bytes:
    """The start of an ext4 of so many sectors, in blocks of 1 KiB."""
    sector = bytearray(SECTOR)
    struct.pack_into("<I", sector, 4, sectors // 2)
    struct.pack_into("<I", sector, 32, 8192)
    sector[56:58] = b"\x53\xef"
    return bytes(1024) + bytes(sector)


def btrfs(number: int, devices: int, pool: uuid.UUID = POOL) -> bytes:
    """The start of a device of a btrfs."""
    head = bytearray(2 * SECTOR)
    head[32:48], head[64:72] = pool.bytes, b"_BHRfS_M"
    struct.pack_into("<Q", head, 0x88, devices)
    struct.pack_into("<QQ", head, 0xC9, number, SIZE)
    return bytes(64 * KIB) + bytes(head)


def zfs(name: bytes) -> bytes:
    """The pairs of names and values of a label of ZFS, as far as they are looked at."""
    def text(it: bytes) -> bytes:
        return struct.pack(">I", len(it)) + it.ljust(-(-len(it) // 4) * 4, b"\0")
    return b"pool_guid vdev_tree" + text(b"name") + struct.pack(">II", 9, 1) + text(name)


def physical(identifier: str, sectors: int, other: str, stripes: int = 1) -> bytes:
    """The start of a physical volume of LVM2 of so many sectors, with its text."""
    label = b"LABELONE" + struct.pack("<QII", 1, 0, 32) + b"LVM2 001" + identifier.encode() + struct.pack("<Q", sectors * SECTOR)
    first, second = sorted((identifier, other))
    return bytes(SECTOR) + label.ljust(SECTOR, b"\0") + bytes(2 * SECTOR) + (TEXT % (first, second, stripes)).encode()


class Disks(InFolder):
    """Images with these bytes at these places."""

    def image(self, number: int, *parts: tuple[int, bytes], size: int = SIZE, **values: Any) -> Image:
        """An image, zeros elsewhere."""
        data = bytearray(size)
        for place, part in parts:
            data[place:place + len(part)] = part
        return Image(self.file(f"{number}.img", bytes(data)), number, size // SECTOR, first=values.pop("first", 1), **values)


class Pools(Disks):
    def test_btrfs(self) -> None:
        table = Table("gpt", True, (Partition(2048, 100, "gpt"),))
        some = [self.image(0, (0, btrfs(2, 3))), self.image(1, (MIB, btrfs(1, 3)), table=table), self.image(2, (0, btrfs(1, 1))), self.image(3)]
        self.assertEqual([pools.btrfs_device(it) for it in some], [Device(0, 0, str(POOL), 2, 3), Device(1, 2048, str(POOL), 1, 3), None, None])

    def test_zfs(self) -> None:
        for place in (16 * KIB, 272 * KIB, SIZE - 496 * KIB, SIZE - 240 * KIB):
            self.assertEqual(pools.zfs_device(self.image(0, (place, zfs(b"tank")))), Device(0, 0, "tank"))
        self.assertIsNone(pools.zfs_device(self.image(0, (300 * KIB, b"pool_guid"))))
        self.assertEqual(pools.name_of(b"pool_guid"), "")

    def test_one_pool(self) -> None:
        one, other, foreign = Device(0, 0, "a", 1, 2), Device(1, 0, "a", 2, 2), Device(1, 0, "b", 2, 2)
        self.assertEqual(pools.pool_of([one, other]), [one, other])
        others: list[list[Device | None]] = [[one, None], [one, foreign], [one, one], []]
        self.assertEqual([pools.pool_of(some) for some in others], [[]] * 4)


class Homes(Disks):
    def test_what_fits(self) -> None:
        """A file system that ends in its image and covers half of it: not a small one, nor one that is longer."""
        for sectors, fits in ((8192, True), (4096, True), (4000, False), (8194, False)):
            found = homes.own_home(self.image(0, (0, ext(sectors))))
            self.assertEqual(found.sectors if found else None, sectors if fits else None)
        image = self.image(0, (0, ext(20000)), (MIB, ext(4096)))
        self.assertEqual([(it.kind, it.first, it.sectors) for it in homes.homes(image)], [("ext4", 0, 20000), ("ext4", 2048, 4096)])
        self.assertEqual(getattr(homes.own_home(image), "first", None), 2048)

    def test_too_long(self) -> None:
        """All file systems that begin on images are longer than all images together."""
        some = [self.image(0, (MIB, ext(30000))), self.image(1), self.image(2)]
        self.assertEqual(getattr(homes.too_long(some), "sectors", None), 30000)
        self.assertIsNone(homes.too_long([self.image(0, (MIB, ext(24576))), *some[1:]]))
        self.assertIsNone(homes.too_long([self.image(0, (MIB, ext(30000)), (0, ext(4096))), *some[1:]]))
        self.assertIsNone(homes.too_long(some[1:]))
        behind = self.image(0, (3 * MIB, ext(30000)), heads=(Head("ext", 0, 6144),))
        self.assertEqual(getattr(homes.too_long([behind, *some[1:]]), "first", None), 6144)

    def test_a_physical_volume(self) -> None:
        found = homes.home_at(self.image(0, (0, physical("a" * 32, 8192, "b" * 32))), 0)
        self.assertEqual((found.kind, found.sectors, found.fits) if found else None, ("LVM2_member", 8192, True))

    def test_jfs(self) -> None:
        """It is as long as its log, which stands behind the room of its checker, says."""
        head = bytearray(36 * KIB)
        head[32 * KIB:32 * KIB + 4] = b"JFS1"
        struct.pack_into("<QIII", head, 32 * KIB + 8, 482904, 4096, 12, 512)
        head[32 * KIB + 72:32 * KIB + 80] = bytes.fromhex("0001000000ec0000")
        head[32 * KIB + 80:32 * KIB + 88] = bytes.fromhex("35000000cbeb0000")
        self.assertEqual(jfs_length(bytes(head)), 60672 * 4096)
        self.assertEqual(system_of("jfs").command("v"), ["fsck.jfs", "-n", "v"])


class Linear(Disks):
    names = "a" * 32, "b" * 32

    def group(self, stripes: int = 1, count: int = 2) -> linear.Group | None:
        """The group of two disks of which so many are there."""
        some = [self.image(number, (0, physical(name, 8192, self.names[1 - number], stripes)), (MIB, ext(3000)))
                for number, name in enumerate(self.names)]
        found = [homes.home_at(image, 0) for image in some[:count]]
        return linear.linear([it for it in found if it])

    def test_disks_one_after_another(self) -> None:
        found = self.group()
        self.assertEqual((found.name, found.lost, [(it.name, it.options) for it in found.volumes]) if found else None,
                         ("vg", 0, [("data", "ro,noload")]))
        self.assertEqual(getattr(self.group(count=1), "lost", None), 1)

    def test_striped(self) -> None:
        self.assertIsNone(self.group(2))
        self.assertEqual([linear.is_spread({"type": kind, "stripe_count": "1"}) for kind in ("raid5_ls", "mirror", "striped", "thin")],
                         [True, True, False, False])
        self.assertIsNone(linear.linear([]))

    def test_the_answer(self) -> None:
        found = self.group(count=1)
        told = answers.linear_answer(found) if found else None
        self.assertEqual(told.text if told else None, "image 0: the volume is linear. LVM2 joins these disks one after another in the volume group "
                                                      "vg; 1 "
                         "disk of the volume group is missing. There is no array")
        self.assertEqual(told.commands[1:] if told else None, ("vgchange -ay --activationmode partial vg", "mount -o ro,noload /dev/vg/data /mnt"))


class Samples(Disks):
    def test_what_looks_random(self) -> None:
        noise = random.Random(3).randbytes(SIZE // 2)
        self.assertTrue(entropy.is_random(self.image(0, (MIB, noise))))
        self.assertFalse(entropy.is_random(self.image(0, (MIB, noise[:MIB] + b"text " * 200000))))
        self.assertFalse(entropy.is_random(self.image(0)))

    def test_copies_that_lie_apart(self) -> None:
        """Most sectors have a copy, as with RAID 10; a file that is stored twice is not enough, nor is a pattern that stands everywhere."""
        noise = random.Random(4).randbytes(SIZE)
        half = SIZE // 2
        far = [noise[:half] + noise[half:], noise[half:] + noise[:half]]
        twice = [noise, random.Random(5).randbytes(half) + noise[:64 * SECTOR] + random.Random(6).randbytes(half - 64 * SECTOR)]
        for disks, told in ((far, True), (twice, False), ([b"#" * SIZE] * 2, False), ([noise[:half] + bytes(half)] * 2, False)):
            names = [self.file(f"{number}.img", data) for number, data in enumerate(disks)]
            self.assertIs(copies.lie_apart(names, half // SECTOR, 0, SIZE // SECTOR), told)


def clean(kind: str = "ext4") -> Verdict:
    """A file system without errors."""
    return Verdict([Finding("", kind, True, "e2fsck reports no errors", (Piece(0, SIZE),))], length=SIZE)


class ByItself(Disks):
    """What images are by what stands on each."""

    def answer(self, images: Sequence[Image], verdict: Verdict | None = None, known: Sequence[Known] = ()) -> Answer | None:
        """The answer for images, of which each holds this by itself."""
        looks = types.SimpleNamespace(verdict=lambda _image, _first: verdict or clean())
        ties = types.SimpleNamespace(told=lambda *_: Told(tuple(known), (), True))
        return Answers(cast(Alone, looks), cast(Ties, ties), images, 2).early()

    def kind(self, *images: Image, verdict: Verdict | None = None, known: Sequence[Known] = ()) -> Kind | None:
        """What these images are."""
        found = self.answer(images, verdict, known)
        return found.kind if found else None

    def test_single_disks(self) -> None:
        one, other = self.image(0, (0, ext(8000))), self.image(1, (0, ext(7000)))
        found = self.answer([one, other])
        self.assertEqual(found.text if found else None, "each disk has its own file system: these are single disks, and no array (image 0: ext4: "
                         "e2fsck reports no errors; image 1: ext4: e2fsck reports no errors). No layout is searched for")
        self.assertEqual(found.commands if found else None, tuple(f"mount -o ro,noload,loop {it.name} /mnt" for it in (one, other)))
        self.assertIsNone(self.kind(one, self.image(1)))
        self.assertIsNone(self.kind(one, self.image(1, (0, ext(9000)))))
        faulty = clean()
        faulty.findings[0].clean = False
        self.assertIsNone(self.kind(one, other, verdict=faulty))

    def test_a_mirror(self) -> None:
        """Images that hold the same, or the same file system: not those of a file system that is longer than one of them."""
        one = self.image(0, (0, ext(8000)))
        self.assertEqual(self.kind(one, self.image(1, (0, ext(8000)), like=0)), Kind.MIRROR)
        self.assertEqual(self.kind(one, self.image(1, (0, ext(8000)), (MIB, b"other"))), Kind.MIRROR)
        longer = self.image(0, (0, ext(16000)))
        self.assertIsNone(self.kind(longer, self.image(1, (0, ext(16000)), like=0)))
        self.assertEqual(self.kind(self.image(0), self.image(1, like=0)), Kind.MIRROR)
        self.assertIsNone(self.kind(self.image(0, first=None), self.image(1, first=None)))

    def test_pools(self) -> None:
        """Old labels on the disks of an array do not count: parity ties them, or another file system begins there."""
        disks = [self.image(number, (0, btrfs(number + 1, 3))) for number in range(2)]
        found = self.answer(disks)
        self.assertIn("1 device is missing", found.text if found else "")
        self.assertTrue(found and found.commands[-1].startswith("mount -t btrfs -o ro,rescue=nologreplay,degraded UUID=12345678"))
        self.assertIsNone(self.kind(*disks, verdict=Verdict(), known=[Known(ImageGroup((0, 1, 2), 90, 0, 99, "5", 1))]))
        labels = [self.image(number, (16 * KIB, zfs(b"tank"))) for number in range(2)]
        self.assertEqual(self.kind(*labels), Kind.ZFS)
        self.assertIsNone(self.kind(labels[0], self.image(1, (16 * KIB, zfs(b"tank")), (MIB, ext(9000)))))

    def test_parity_of_zfs(self) -> None:
        """A raidz has parity of its own, which holds in a part of the rows. Parity of an array holds in nearly all, and it lies over some labels."""
        places = 16 * KIB, 272 * KIB, SIZE - 496 * KIB, SIZE - 240 * KIB
        disks = [self.image(number, *((place, zfs(b"tank")) for place in places)) for number in range(3)]

        def known(loose: int) -> list[Known]:
            """Parity that holds in 96 rows and fails in some."""
            return [Known(ImageGroup((0, 1, 2), 96, 0, 99, "5", 1, loose=loose))]
        self.assertEqual([self.kind(*disks, known=known(loose)) for loose in (5, 6, 90)], [None, Kind.ZFS, Kind.ZFS])
        disks[2] = self.image(2, *((place, zfs(b"tank")) for place in places[:3]))
        self.assertIsNone(self.kind(*disks, known=known(90)))
        some = [self.image(number, (0, btrfs(number + 1, 3))) for number in range(3)]
        self.assertIsNone(self.kind(*some, verdict=Verdict(), known=known(90)))

    def test_a_linear_volume(self) -> None:
        disks = [self.image(number, (0, physical(name, 8192, "ab"[1 - number] * 32))) for number, name in enumerate(("a" * 32, "b" * 32))]
        self.assertEqual(self.kind(*disks), Kind.LINEAR)

    def test_what_is_sound(self) -> None:
        files = dict(files=Wholes(4, 3, 2 * MIB), row=MIB)
        unchecked = Verdict([Finding("", "vfat")], **files)  # type: ignore[arg-type]
        self.assertEqual([alone.is_sound(it) for it in (clean(), unchecked, Verdict([Finding("", "vfat")]), Verdict([Finding("", "ext4", False)]),
                                                        Verdict())], [True, True, False, False, False])

    def test_how_it_is_looked_at(self) -> None:
        """A checker that takes no place within a file is not asked of a long partition, which would have to be copied."""
        looks = Alone(cast(Any, None), cast(Any, None), 9)
        volume = Volume("v", 4 * GIB)
        with mock.patch.object(Checkers, "ask", return_value="asked"):
            for kind, length, told in (("ext4", 2 * GIB, "asked"), ("xfs", 2 * GIB, None), ("xfs", GIB, "asked"), ("xfs", 4 * GIB, "asked")):
                self.assertEqual(looks.ask(system_of(kind), volume, Region("", (Piece(0, length),)), length, None), told)


class Late(Disks):
    """What is answered if nothing has a rating."""

    def late(self, images: Sequence[Image], told: Told = Told(asked=True), tested: Sequence[Any] = ()) -> Answer | None:
        """The answer."""
        return Answers(cast(Any, None), cast(Any, None), images, 1).late(told, tested)

    def test_too_many_lost(self) -> None:
        some = [self.image(0, (MIB, ext(30000))), self.image(1), self.image(2)]
        found = self.late(some)
        self.assertEqual(found.kind if found else None, Kind.LOST)
        self.assertIn("the ext4 that begins at sector 2048 of image 0 states that it has 30000 sectors. 3 images of at most 8192 sectors cannot hold "
                      "it, with parity or without: it needs at least 4.", found.text if found else "")
        self.assertIsNone(self.late(some, Told((Known(ImageGroup((0, 1, 2), 90, 0, 99, "5", 1)),), (), True)))
        # Few rows are tied, as if one disk of four were lost: even then the file system is too long.
        barely = self.late(some, Told((Known(ImageGroup((0, 1, 2), 90, 0, 99, "5", 0)),), (), True))
        self.assertEqual(barely.kind if barely else None, Kind.LOST)

    def test_too_many_lost_by_copies_of_a_superblock(self) -> None:
        """Superblocks that landmarks tell of say how long an XFS is. If one says that it fits, that counts."""
        head = b"XFSB" + struct.pack(">IQ", 4096, 30000 // 8)
        some = [self.image(0, (MIB, head)), self.image(1, (2 * MIB, b"XFSB" + struct.pack(">IQ", 4096, 8000 // 8))), self.image(2)]
        first, second = (0, 2048), (1, 4096)
        for supers, kind in (((first,), Kind.LOST), ((first, (1, 2048)), Kind.LOST), ((first, second), None), ((), None), (((7, 8),), None)):
            it = Answers(cast(Any, None), cast(Any, None), some, 1, supers)
            with mock.patch.object(homes, "all_homes", return_value=[]):
                found = it.late(Told(asked=True), ())
            self.assertEqual(found.kind if found else None, kind)
            if found:
                self.assertIn("the xfs with a superblock at sector 2048 of image 0 states that it has 30000 sectors.", found.text)

    def test_encrypted(self) -> None:
        """Nothing tells a layout where contents are encrypted and parity ties nothing."""
        noise = random.Random(5).randbytes(MIB)
        luks = [self.image(0, (0, b"LUKS\xba\xbe\0\1"), (MIB, noise), heads=(Head("luks", 0, 0),)), self.image(1, (MIB, noise))]
        for some, told, kind in ((luks, Told(asked=True), Kind.ENCRYPTED), (luks[1:], Told(asked=True), Kind.ENCRYPTED), (luks, Told(), None),
                                 (luks, Told((Known(ImageGroup((0, 1, 2), 90, 0, 99, "5", 1)),), (), True), None),
                                 ([*luks, self.image(2, (0, ext(4000)))], Told(asked=True), None),
                                 ([*luks[1:], self.image(3, (MIB, b"text " * 90000))], Told(asked=True), None)):
            self.assertEqual(getattr(self.late(some, told), "kind", None), kind)

    def test_closed(self) -> None:
        """All volumes in which something is known are encrypted: their sets are left to be tried with the key."""
        it = candidate(verdict=Verdict([Finding("", "crypto_LUKS")], length=9))
        found = self.late([self.image(0)], Told((Known(ImageGroup((0, 1, 2), 90, 0, 99, "5", 1)),), (), True), [it, candidate()])
        self.assertIn("encrypted (crypto_LUKS): 1 layout that parity and zeros allow", found.text if found else "")
        self.assertIsNone(answers.closed([it, candidate(verdict=whole())]))
        self.assertIsNone(answers.closed([]))


class Asked(InFolder):
    """When a search asks for a plain answer, and what it says."""

    def search(self, **values: Any) -> Search:
        """A search over no images."""
        self.report = Report()
        return Search(Options(("a",), **values), cast(Any, None), self.report, cast(Any, None))

    def test_where_an_array_is_named(self) -> None:
        cases: list[tuple[dict[str, Any], bool]] = [({}, True), ({"levels": ("5",)}, False), ({"members": (4,)}, False)]
        for values, asked in cases:
            it = self.search(**values)
            self.assertIs(it.answered(lambda _: Answer(Kind.ZFS, "a pool")), asked)
            self.assertIs(it.solved, asked)
        self.assertFalse(self.search().answered(lambda _: None))

    def test_what_is_hopeless(self) -> None:
        """Too many missing disks, and encrypted images that nothing ties: asked once of what parity tells. Only the latter allow any set."""
        for late, told, closed in ((Answer(Kind.LOST, "lost"), True, False), (None, False, False), (Answer(Kind.ENCRYPTED, "closed"), True, True)):
            it = self.search()
            with mock.patch.object(Answers, "late", return_value=late) as asked:
                self.assertEqual([it.is_hopeless(Told()), it.is_hopeless(Told()), it.is_closed(Told())], [told, told, closed])
                self.assertEqual((asked.call_count, it.solved), (1, False))
                it.is_hopeless(Told(asked=True))
                self.assertEqual(asked.call_count, 2)

    def test_superblocks(self) -> None:
        """Those of XFS that landmarks tell of, each once, are asked about anew when more are known."""
        it = self.search()
        mark, other = Mark("super", 2, 2048, "every:8:1:0"), Mark("inode", 2, 4096, "at:8:1:0")
        groups = [types.SimpleNamespace(kind=kind, marks=(mark, other, mark)) for kind in ("xfs", "ext")]
        with mock.patch.object(Answers, "late", return_value=None) as asked:
            self.assertFalse(it.is_hopeless(Told()))
            it.scopes = [cast(Any, types.SimpleNamespace(plan=types.SimpleNamespace(groups=groups)))] * 2
            self.assertEqual(it.supers, ((2, 2048),))
            self.assertEqual([it.is_hopeless(Told()), it.is_hopeless(Told()), asked.call_count], [False, False, 2])

    def test_what_is_said(self) -> None:
        it = self.search()
        it.say_answer()
        self.assertEqual(self.report.lines, [])
        it.answer = Answer(Kind.ZFS, "a pool", ("zpool import",))
        it.say_answer()
        self.assertEqual(self.report.text, "a pool\n  to mount it read-only, as root:\n    zpool import\n  (to search for an array nevertheless, "
                                           "give "
                                           "--levels or --members)")
