"""Partitions that disks have in common: disks of a NAS, made by hand."""

import dataclasses
import os
import random
import tempfile
import unittest

from reraid_try.evidence import shared
from reraid_try.evidence.images import Image
from reraid_try.evidence.tables import Partition, Table


def disk(number: int, *partitions: tuple[int, int], own: bool = True, folder: str = "") -> Image:
    """A disk with partitions at these places."""
    table = Table("GPT of 512 bytes", own, tuple(Partition(first, count, "gpt") for first, count in partitions)) if partitions else Table()
    return Image(os.path.join(folder, f"{number}.img"), number, 4096, table=table)


class Places(unittest.TestCase):
    """Which places are in common."""

    def test_equal_tables(self) -> None:
        """The same three partitions on each of three disks: the largest comes first."""
        found = shared.places([disk(number, (8, 100), (108, 50), (158, 900)) for number in range(3)])
        self.assertEqual([(it.first, it.count, it.images) for it in found], [(158, 900, (0, 1, 2)), (8, 100, (0, 1, 2)), (108, 50, (0, 1, 2))])
        self.assertEqual((found[0].end, found[0].offsets((0, 20, 2048))), (1058, (158, 178)))

    def test_offsets_within(self) -> None:
        """Data may begin in a place as long as it lasts."""
        self.assertEqual(shared.Place(100, 50, (0, 1)).offsets((0, 49, 50)), (100, 149))

    def test_larger_disks(self) -> None:
        """Two larger disks among four have a further partition, and one disk a longer last one: the shortest counts."""
        small, longer, large = ((8, 100), (108, 300)), ((8, 100), (108, 310)), ((8, 100), (108, 300), (408, 500))
        found = shared.places([disk(0, *small), disk(1, *longer), disk(2, *large), disk(3, *large)])
        self.assertEqual([(it.first, it.count, it.images) for it in found], [(108, 300, (0, 1, 2, 3)), (408, 500, (2, 3)), (8, 100, (0, 1, 2, 3))])

    def test_table_of_the_array(self) -> None:
        """The table that an array of whole disks begins with is of none of them; nor do a few disks with tables speak for many without."""
        self.assertEqual(shared.places([disk(0, (8, 100), own=False), disk(1, (8, 100), own=False)]), [])
        self.assertEqual(shared.places([disk(0, (8, 100)), disk(1, (8, 100)), disk(2), disk(3)]), [])
        self.assertEqual(shared.places([disk(0, (8, 100)), disk(1)]), [])

    def test_one_disk_twice(self) -> None:
        """A disk that was imaged twice has nothing in common with itself."""
        again = dataclasses.replace(disk(1, (8, 100)), like=0)
        self.assertEqual(shared.places([disk(0, (8, 100)), again]), [])
        self.assertEqual([it.images for it in shared.places([disk(0, (8, 100)), again, disk(2, (8, 100))])], [(0, 2)])


class OfPartition(unittest.TestCase):
    """Images that may be of a partition alone."""

    def test_which(self) -> None:
        """They have no table of their own, and are as long as the partition at least, and shorter than a whole disk."""
        whole = [dataclasses.replace(disk(number, (8, 4000)), first=0) for number in range(2)]
        place, = shared.places(whole)
        one, sectors = disk(2), (4096, 4095, 4000, 3999)
        others = [(dataclasses.replace(one, sectors=count), is_alone) for count, is_alone in zip(sectors, (False, True, True, False))]
        others += [(dataclasses.replace(disk(2, (8, 3900)), sectors=4050), False), (dataclasses.replace(one, sectors=4050, like=0), False)]
        for other, is_alone in others:
            found = shared.of_partition(place, [*whole, dataclasses.replace(other, first=0)])
            self.assertEqual([it.number for it in found], [2] * is_alone)
        self.assertEqual(shared.of_partition(place, [*whole, dataclasses.replace(disk(2), sectors=4000)]), [])


class Contents(unittest.TestCase):
    """What the images hold at a place."""

    def setUp(self) -> None:
        folder = tempfile.TemporaryDirectory()
        self.addCleanup(folder.cleanup)
        rnd = random.Random(5)
        mirror = rnd.randbytes(1000 * 512)
        self.disks = [disk(number, (0, 1000), (1000, 1000), (2000, 2000), folder=folder.name) for number in range(3)]
        for it in self.disks:
            with open(it.name, "wb") as file:
                # Metadata of md tell the copies of a mirror apart.
                file.write(mirror[:4096] + rnd.randbytes(4096) + mirror[8192:])
                file.seek(2000 * 512)
                file.write(rnd.randbytes(2000 * 512))

    def test_kinds(self) -> None:
        """An array, an empty place, and a mirror with metadata of their own on each."""
        found = {it.first: it for it in shared.looked_at(self.disks)}
        self.assertEqual({first: (it.copied, it.empty) for first, it in found.items()}, {0: (True, False), 1000: (False, True), 2000: (False, False)})
        self.assertIn("the same on each", found[0].line())
        self.assertIn("zeros in all sampled sectors", found[1000].line())
        self.assertIn("not the same on each: perhaps an array of its own", found[2000].line())

    def test_an_array_with_some_equal_blocks(self) -> None:
        """Images of which a half is the same are no copies; those of which but one in twenty blocks differs are."""
        for differing, copied in ((62, False), (6, True)):
            for it in self.disks:
                with open(it.name, "r+b") as file:
                    for block in range(125):
                        file.seek(block * 4096)
                        file.write(random.Random(f"{it.number} {block}" if block < differing else str(block)).randbytes(4096))
            self.assertEqual([it.copied for it in shared.looked_at(self.disks) if it.first == 0], [copied])

    def test_nine_in_ten(self) -> None:
        """Of a hundred blocks that are not zeros ninety have to be the same, and no fewer."""
        for differing, copied in ((10, True), (11, False)):
            for it in self.disks:
                with open(it.name, "r+b") as file:
                    for block in range(125):
                        file.seek(block * 4096)
                        filled = random.Random(f"{it.number} {block}" if block < differing else str(block)).randbytes(4096)
                        file.write(filled if block < 100 else bytes(4096))
            self.assertEqual([it.copied for it in shared.looked_at(self.disks) if it.first == 0], [copied])

    def test_efi_system_partitions(self) -> None:
        """Those of each disk by itself are no array, and passed over; where nothing else is there they are searched all the same."""
        def typed(*kinds: str) -> list[Image]:
            """The disks, whose last partitions have these types."""
            return [dataclasses.replace(it, table=dataclasses.replace(it.table, partitions=(Partition(2000, 2000, kind),)))
                    for it, kind in zip(self.disks, kinds)]
        for kind in ("efi", "ef"):
            place, = shared.looked_at(typed(kind, kind, kind))
            self.assertIn("EFI system partitions, not the same on each", place.line())
            self.assertFalse(place.tells)
            self.assertEqual(shared.searched([place]), [place])
            self.assertEqual(shared.searched([place, shared.Place(0, 9, (0, 1))]), [shared.Place(0, 9, (0, 1))])
        place, = shared.looked_at(typed("efi", "efi", "gpt"))
        self.assertTrue(place.tells)

    def test_searched(self) -> None:
        """Arrays alone are searched; where all there is are copies, the largest of these."""
        found = shared.looked_at(self.disks)
        self.assertEqual([it.first for it in shared.searched(found)], [2000])
        self.assertEqual([it.first for it in shared.searched(it for it in found if it.first < 2000)], [0])
        self.assertEqual(shared.searched(it for it in found if it.first == 1000), [])


if __name__ == "__main__":
    unittest.main()
