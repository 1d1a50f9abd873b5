"""What is said of refused words."""

import unittest

from reraid_words.expected import expected
from reraid_words.values import sectors


def said(command: str, *words: str, place: int = 0) -> str:
    """The lines, as one text."""
    return "\n".join(expected(command, words, place))


class Expected(unittest.TestCase):
    """Each kind of mistake, with the word that is meant."""

    def test_units(self) -> None:
        self.assertEqual(sectors("64K"), 128)
        self.assertEqual(sectors("1MiB"), 2048)
        self.assertIsNone(sectors("64"))
        self.assertIn("so 128 for 64K", said("survey", "chunks=64K"))
        self.assertIn("so 2048 for 1M", said("nbd", "set=5:ls:none:128:1M:0,1,2"))

    def test_names_of_mdadm(self) -> None:
        self.assertIn("did you mean la?", said("survey", "patterns=left-asymmetric"))
        self.assertIn("did you mean ls?", said("nbd", "set=5:left-symmetric:none:128:2048:0,1,2"))
        self.assertIn("did you mean ext?", said("survey", "kinds=ext4"))
        self.assertIn("reraid mirrors", said("survey", "levels=10"))

    def test_operands(self) -> None:
        self.assertIn("did you mean chunks?", said("survey", "chunk=128"))
        self.assertIn("did you mean members?", said("survey", "--raid-devices=4"))
        self.assertIn("the operands are set= end=, followed by --", said("write", "form=json"))
        self.assertIn("is given twice", said("survey", "levels=5", "levels=6", place=1))

    def test_lists(self) -> None:
        self.assertIn("kinds=gpt,xfs", said("survey", "kinds=xfs,gpt"))
        self.assertIn("kinds are gpt,ntfs,xfs,btrfs,lvm,ext,extinode,xfs5,btrfstree,mft, in this order", said("survey", "kinds=zfs"))
        self.assertIn("chunks=64,128", said("survey", "chunks=128,64"))
        self.assertIn("powers of two", said("survey", "chunks=100"))
        self.assertEqual(said("survey", "chunks=1,32768"), "")
        self.assertIn("powers of two", said("survey", "chunks=65536"))
        self.assertIn("from 2 to 24", said("survey", "members=25"))
        self.assertIn("from 2 to 24", said("survey", "members=1"))
        self.assertEqual(said("survey", "members=2,24"), "")
        self.assertEqual(said("survey", "delays=1,16"), "")
        self.assertEqual(said("survey", "delays=1024"), "")
        self.assertIn("from 1 to 1024", said("survey", "delays=1025"))
        self.assertIn("from 1 to 1024", said("survey", "delays=0,2"))
        self.assertIn("delays in rows", said("survey", "delays=16K"))
        self.assertIn("at most 16", said("survey", "delays=" + ",".join(map(str, range(1, 18)))))
        self.assertIn("delays=1,16", said("survey", "delays=16,1"))
        self.assertIn("did you mean delays?", said("survey", "delay=16"))
        self.assertIn("layouts=near3,far2", said("mirrors", "layouts=far2,near3"))
        self.assertIn("did you mean far2?", said("mirrors", "layouts=f2"))

    def test_sets(self) -> None:
        self.assertIn("LEVEL:PATTERN:ORDER:CHUNK:OFFSET:SLOTS", said("nbd", "set=5:ls"))
        for word in ("near2:128", "far5:128:2048:0,1", "offset:128:2048:0,1"):
            self.assertIn("LAYOUT:CHUNK:OFFSET:SLOTS, such as near2:128:2048:0,1,2,-, with one of near2,near3,near4,", said("nbd", f"set={word}"))
        self.assertEqual(said("nbd", "set=offset3:128:2048:0,1,-"), "")
        self.assertIn("so 128 for 64K", said("mirrorwrite", "set=far2:64K:2048:0,1,-"))
        self.assertIn("after-q or by-data or by-slot", said("nbd", "set=6:ls:none:128:2048:0,1,2,3"))
        self.assertIn("numbers of images", said("nbd", "set=5:ls:none:128:2048:a,b,c"))
        self.assertIn("24: slots are numbers of images", said("nbd", "set=5:ls:none:128:2048:23,24,0"))
        self.assertEqual(said("nbd", "set=5:ls:none:128:2048:23,1,0"), "")
        self.assertEqual(said("nbd", "set=5:ls*16:none:128:2048:0,1,-"), "")
        for delay in ("*1", "*0", "*", "*16K", "*016", "*4294967296"):
            self.assertIn("for a delay of 1 write only ls", said("nbd", f"set=5:ls{delay}:none:128:2048:0,1,-"))
        self.assertIn("did you mean ls?", said("nbd", "set=5:left-symmetric*16:none:128:2048:0,1,2"))
        self.assertEqual(said("nbd", "set=5:ls:none:128:2048:0,1,-"), "")

    def test_maps(self) -> None:
        self.assertEqual(said("nbd", "set=5:ls:none:128:2048:0,1,-", "maps=a.map", place=1), "")
        self.assertIn("is given twice", said("nbd", "maps=a.map", "maps=a.map", place=1))
        for word in ("near2", "far3", "offset2"):
            self.assertEqual(said("nbd", f"set={word}:128:2048:0,1", "maps=a.map"), "")
        self.assertIn("the operands are set= end=, followed by --", said("write", "maps=a.map"))

    def test_relations(self) -> None:
        self.assertIn("separated by +: 2048+0+2048", said("relations", "offsets=1,2"))
        self.assertEqual(said("relations", "offsets=2048+0"), "")
        self.assertIn("so 2048 for 1M", said("relations", "step=1M"))
        self.assertIn("the operands are from= end= step= offsets= form=, followed by --", said("relations", "size=1"))

    def test_shape(self) -> None:
        self.assertIn("write -- before the images", said("nbd", "set=5:ls:none:128:2048:0,1,2", "a.img", place=1))
        self.assertIn("-- and the images", said("nbd", "set=5:ls:none:128:2048:0,1,2", place=1))
        self.assertIn("did you mean survey?", said("survy"))
        self.assertEqual(said("nbd", "--help", "more"), "--help takes no other argument")


if __name__ == "__main__":
    unittest.main()
