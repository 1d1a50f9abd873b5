"""What is said of names of images that cannot be read, or that stand twice."""

import contextlib
import io
import os

from reraid_words import names
from tests.standin import InFolder


class Names(InFolder):
    def test_each_fault_names_its_image(self) -> None:
        good, empty, none = self.file("good", "x"), self.file("empty"), f"{self.folder}/none"
        os.mkfifo(f"{self.folder}/fifo")
        os.mkdir(f"{self.folder}/disks")
        for given, said in (([good], []), ([empty], [f"{empty} is empty: leave it out"]), ([none], [f"{none}: No such file or directory"]),
                            ([f"{self.folder}/disks"], [f"{self.folder}/disks is a folder: give the images in it, such as {self.folder}/disks/*"]),
                            ([f"{self.folder}/fifo"], [f"{self.folder}/fifo is neither a file nor a block device"]),
                            ([""], ["an empty name: No such file or directory"]),
                            ([none, good, empty], [f"{none}: No such file or directory", f"{empty} is empty: leave it out"]),
                            ([none, none], [f"{none}: No such file or directory"])):
            self.assertEqual(names.faults(given), said)

    def test_no_permission(self) -> None:
        secret = self.file("secret", "x")
        os.chmod(secret, 0)
        if os.access(secret, os.R_OK):
            self.skipTest("root reads everything")
        self.assertEqual(names.faults([secret]), [f"{secret} cannot be read: Permission denied (try as root)"])

    def test_one_file_twice(self) -> None:
        one, other = self.file("one", "x"), self.file("other", "x")
        link, hard = f"{self.folder}/link", f"{self.folder}/hard"
        os.symlink("one", link)
        os.link(one, hard)
        self.assertEqual(names.faults([one, other, one, one]), [f"{one} is given twice"])
        self.assertEqual(names.faults([one, link, hard]), [f"{link} and {one} are the same file", f"{hard} and {one} are the same file"])

    def test_the_command(self) -> None:
        one = self.file("a", "x")
        for words, status, said in (([one], 0, ""), (["none"], 1, "none: No such file or directory\n"), (["--twice", one, "none"], 0, ""),
                                    (["--twice", one, one], 1, f"{one} is given twice\n")):
            with contextlib.redirect_stdout(io.StringIO()) as out:
                self.assertEqual((names.main(words), out.getvalue()), (status, said))
        with self.assertRaises(SystemExit):
            names.main([])
