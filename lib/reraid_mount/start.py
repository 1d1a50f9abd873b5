"""Says whether a volume begins with something known: a file system, a partition table, a physical volume of LVM2, or what is encrypted.

Usage, in lib/: python3 -m reraid_mount.start VOLUME
Prints a warning where nothing known begins there, as where images stand in a wrong order; prints nothing else.
"""

import shutil
import subprocess
import sys

from reraid_try.evidence import heads, unread

WARNING = """warning: {0} begins with no known file system, partition table or encrypted volume.
  The disk order may be wrong, or an image may be missing or belong to another array.
  A file system may also begin later, or be of another kind.
  reraid-try finds the order from the contents of the images."""


def by_blkid(path: str) -> bool:
    """Return whether blkid(8) knows what a volume begins with."""
    blkid = shutil.which("blkid", path="/usr/sbin:/sbin:/usr/bin:/bin")
    if not blkid:
        return False
    done = subprocess.run([blkid, "-p", "-o", "export", path], stdin=subprocess.DEVNULL, stdout=subprocess.PIPE, stderr=subprocess.DEVNULL, text=True,
                          errors="replace", check=False)
    return any(line.startswith(("TYPE=", "PTTYPE=")) for line in done.stdout.splitlines())


def is_known(path: str) -> bool:
    """Return whether something known begins at the start of a volume."""
    with unread.opened(path) as file:
        head = file.read(heads.HEAD_BYTES)
    return heads.sniff(head) is not None or by_blkid(path)


def main(words: list[str]) -> int:
    if len(words) != 1:
        sys.exit(__doc__)
    if not is_known(words[0]):
        print(WARNING.format(words[0]))
    return 0


if __name__ == "__main__":
    sys.exit(main(sys.argv[1:]))
