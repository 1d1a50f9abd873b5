"""Which files touch lost sectors: by the tools over small file systems, by their texts, and in a candidate's volume."""

import os
import shutil
import subprocess
import unittest
from unittest import mock

from reraid_try.calls.commands import Commands
from reraid_try.calls.formats import read_lost_runs
from reraid_try.checks import lost_files
from reraid_try.checks.checkers import Checkers
from reraid_try.checks.lost_files import Asked, LostFiles
from reraid_try.checks.lvm import Piece
from reraid_try.checks.verdicts import Finding
from reraid_try.checks.volumes import Room, Volume
from reraid_try.units import MIB, SECTOR
from tests.standin import InFolder, Standin, put

DEBUGFS = shutil.which("debugfs", path=os.environ.get("PATH", "") + ":/usr/sbin:/sbin")
MKE2FS = shutil.which("mke2fs", path=os.environ.get("PATH", "") + ":/usr/sbin:/sbin")


class Runs(unittest.TestCase):
    def test_within(self) -> None:
        """Runs of sectors are cut to the part, and counted in bytes from its start."""
        lost = [(0, 4), (10, 2), (19, 5)]
        self.assertEqual(lost_files.within(lost, 2 * SECTOR, 18 * SECTOR), [(0, 2 * SECTOR), (8 * SECTOR, 10 * SECTOR), (17 * SECTOR, 18 * SECTOR)])
        self.assertEqual(lost_files.within(lost, 4 * SECTOR, 6 * SECTOR), [])

    def test_blocks(self) -> None:
        self.assertEqual(lost_files.blocks_of([(0, 512), (1500, 2049)], 1024), (0, 1, 2))
        self.assertEqual(lost_files.runs_of((0, 1, 2, 5, 7, 8)), [(0, 2), (5, 5), (7, 8)])

    def test_what_salvage_says(self) -> None:
        self.assertEqual(read_lost_runs(put("lost 3 4\nlost 9 1\ngood 95 of 100\n")), [(3, 4), (9, 1)])

    def test_what_is_said(self) -> None:
        self.assertEqual(lost_files.told({"/b", "/a"}, 7, "ext4"), (("/a", "/b"), "2 files touch them; the other lost sectors are free or hold no "
                                                                                  "file"))
        self.assertIn("(of the first 5000 of 5001 blocks)", lost_files.told(set(), 5001, "ext4")[1])
        self.assertEqual(lost_files.told(None, 7, "xfs"), ((), "the tools of xfs do not report which files touch them"))
        self.assertEqual(LostFiles("at 2048 xfs", 1, note="so").text(), "at 2048 xfs: 1 sector of it is lost; so")


class Tools(InFolder):
    """The tools by the texts that they put."""

    def test_ext(self) -> None:
        """Inodes of the file system itself are no files; an inode without a name has its number."""
        asked = Asked("v", 1048576, (3000, 10, 11), 1024)
        standin = Standin(("debugfs -R icheck 3000 10 11", put("", 1)), ("debugfs", put("")))
        self.assertIsNone(lost_files.ext_files(standin, asked, 1))
        texts = {"icheck": "Block\tInode number\n3000\t12\n10\t7\n11\t13\n12\t<block not found>\n", "ncheck": "Inode\tPathname\n12\t//a b\n"}
        standin = Standin(("debugfs", lambda words, _: put(texts[words[2].split()[0]])))
        self.assertEqual(lost_files.ext_files(standin, asked, 1), {"/a b", "inode 13, whose name is not found"})
        self.assertEqual([words for words, _ in standin.asked], [["debugfs", "-R", "icheck 3000 10 11", "v?offset=1048576"],
                                                                 ["debugfs", "-R", "ncheck 12 13", "v?offset=1048576"]])

    def test_ntfs(self) -> None:
        text = "Searching for sector range 3-4\nInode 0 /$MFT/$DATA\nInode 64 /a b/$DATA\nInode 66 /s/small/$DATA\n* 3 inodes found\n"
        standin = Standin(("ntfscluster -f -s 3-4 v", put(text)), ("ntfscluster -f -s 9-9 v", put("* no inode found\n")))
        self.assertEqual(lost_files.ntfs_files(standin, Asked("v", 0, (3, 4, 9), 512), 1), {"/$MFT", "/a b", "/s/small"})
        self.assertIsNone(lost_files.ntfs_files(Standin(("ntfscluster", put("", 1))), Asked("v", 0, (3,), 512), 1))

    def test_xfs(self) -> None:
        text = "block 25 (0/25) type data inode 131 s/a b\nblock 250 (0/250) type free2\n"
        standin = Standin(("xfs_db", put(text)))
        self.assertEqual(lost_files.xfs_files(standin, Asked("v", 0, (25, 250), 4096), 1), {"/s/a b"})
        self.assertEqual(standin.asked[0][0], ["xfs_db", "-r", "-f", "-c", "blockget -n", "-c", "daddr 200", "-c", "blockuse -n", "-c", "daddr 2000",
                                               "-c", "blockuse -n", "v"])
        self.assertIsNone(lost_files.xfs_files(Standin(("xfs_db", put("", 1))), Asked("v", 0, (25,), 4096), 1))

    @unittest.skipUnless(DEBUGFS and MKE2FS, "there is no debugfs")
    def test_an_ext4_in_a_partition(self) -> None:
        """The tool itself, over a file system that begins later: the file whose blocks are lost is named, and no other."""
        tree, made = f"{self.folder}/tree", f"{self.folder}/made"
        os.makedirs(f"{tree}/s")
        self.file("tree/s/lost", os.urandom(300000))
        self.file("tree/kept", os.urandom(300000))
        with open(made, "wb") as file:
            file.truncate(8 * MIB)
        subprocess.run([MKE2FS or "", "-q", "-F", "-t", "ext4", "-b", "1024", "-d", tree, made], check=True, capture_output=True)
        said = subprocess.run([DEBUGFS or "", "-R", "blocks /s/lost", made], check=True, capture_output=True, text=True).stdout
        block = int(said.split()[20])
        volume = self.file("volume", bytes(MIB))
        with open(volume, "ab") as file, open(made, "rb") as other:
            file.write(other.read())
        room = Room(Standin(), self.folder, mounts=False)
        self.addCleanup(room.close)
        with mock.patch.dict(os.environ, PATH=os.environ["PATH"] + ":/usr/sbin:/sbin"):
            checks = Checkers(Commands(), room, 60, MIB)
            lost = [(2048 + 2 * block, 4), (0, 8)]
            found = checks.lost_files(Volume(volume, 9 * MIB), Finding("at 2048", "ext4", True, pieces=(Piece(MIB, 8 * MIB),)), lost)
        self.assertEqual(found, LostFiles("at 2048 ext4", 4, ("/s/lost",), "1 file touches them; the other lost sectors are free or hold no file"))

    def test_a_kind_without_a_tool(self) -> None:
        room = Room(Standin(), self.folder, mounts=False)
        self.addCleanup(room.close)
        volume = Volume(self.file("volume", bytes(MIB)), MIB)
        found = Checkers(Standin(), room, 60, MIB).lost_files(volume, Finding("", "btrfs", True, pieces=(Piece(0, MIB),)), [(7, 1)])
        self.assertEqual(found.text(), "btrfs: 1 sector of it is lost; the files of btrfs that touch them are not looked for")


if __name__ == "__main__":
    unittest.main()
