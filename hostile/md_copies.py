#!/usr/bin/env python3
"""Arrays of RAID 10 that Linux's own driver makes and fills, in a Linux in user mode: what their disks then hold, some of them lost, is put together
again by the reference, and by the program where one is named, and compared with the volume that the driver gave, byte for byte. Of the program the
true set must stand among those that `mirrors` lists of all layouts, too.

Usage: hostile/md_copies.py [PROGRAM]
As root, with the Debian packages user-mode-linux and mdadm. The last line says how many comparisons were as stated; status 1 where one was not.
"""

import os
import pathlib
import random
import shutil
import subprocess
import sys
import tempfile

HERE = pathlib.Path(__file__).resolve().parent
sys.dont_write_bytecode = True
sys.path.insert(0, str(HERE / "differential"))
import mirrors  # noqa: E402
from texts import LAYOUTS, SECTOR, Mirror  # noqa: E402

# Layouts as reraid and as mdadm name them, how many disks, and those that are lost: each chunk has a copy on another.
ARRAYS = (("near2", "n2", 6, (1, 2, 4)), ("near2", "n2", 5, (0, 2)), ("near3", "n3", 5, ()), ("near3", "n3", 4, (1, 2)), ("near4", "n4", 5, (0, 1, 3)),
          ("far2", "f2", 2, (0,)), ("far2", "f2", 3, ()), ("far2", "f2", 4, ()), ("far2", "f2", 4, (2,)), ("far2", "f2", 4, (0, 2)),
          ("far3", "f3", 5, (1, 2)), ("far4", "f4", 4, (0, 1, 3)), ("offset2", "o2", 3, (1,)), ("offset2", "o2", 4, ()), ("offset3", "o3", 5, (0, 4)),
          ("offset4", "o4", 6, (2, 3, 4)))
CHUNK = 128
# No whole number of chunks, nor of rows of any layout.
DISK = 24 * 1024 * 1024 + 7 * 65536 + 3 * SECTOR

GUEST = """#!/bin/bash
export PATH=/usr/sbin:/usr/bin:/sbin:/bin
mount -t proc proc /proc; mount -t sysfs sysfs /sys; mount -t tmpfs tmpfs /run; mount -t tmpfs tmpfs /mnt
mkdir /mnt/host /run/mdadm; mount -t hostfs none /mnt/host -o {folder}
for name in md-mod raid10; do insmod /usr/lib/uml/modules/$(uname -r)/kernel/drivers/md/$name.ko; done
mdadm --create --run --force --assume-clean --homehost=any /dev/md0 --level=10 --layout={layout} --chunk={kilobytes} --raid-devices={count} {disks} &&
    head -c $(blockdev --getsize64 /dev/md0) /mnt/host/bytes >/dev/md0
sync; echo 3 >/proc/sys/vm/drop_caches
cat /dev/md0 >/mnt/host/volume
for word in component_size dev-ubda/offset; do cat /sys/block/md0/md/$word; done >/mnt/host/facts
mdadm --stop /dev/md0; sync; touch /mnt/host/done; sync; echo o >/proc/sysrq-trigger; sleep 60
"""


def made(folder, layout, count, chance):
    """The disks of an array, its volume, and the sectors of a disk at which its data begin and end."""
    for name in ("done", "volume"):
        (folder / name).unlink(missing_ok=True)
    disks = [folder / f"disk{place}" for place in range(count)]
    for disk in disks:
        disk.write_bytes(chance.randbytes(DISK))
    (folder / "bytes").write_bytes(chance.randbytes(DISK * count))
    devices = [f"/dev/ubd{chr(ord('a') + place)}" for place in range(count)]
    (folder / "init").write_text(GUEST.format(folder=folder, layout=layout, kilobytes=CHUNK // 2, count=count, disks=" ".join(devices)))
    (folder / "init").chmod(0o755)
    words = ["mem=256M", "root=/dev/root", "rootfstype=hostfs", "rootflags=/", "ro", f"init={folder}/init", f"uml_dir={folder}", "con=null",
             "con0=null,fd:1", *(f"ubd{place}={disk}" for place, disk in enumerate(disks))]
    with open(folder / "log", "w", encoding="utf-8") as log:
        subprocess.run(["timeout", "600", "linux.uml", *words], stdin=subprocess.DEVNULL, stdout=log, stderr=log,
                       env={**os.environ, "TMPDIR": str(folder)}, check=False)
    if not (folder / "done").exists():
        sys.exit("no array was made:\n" + (folder / "log").read_text(errors="replace")[-2000:])
    kilobytes, offset = map(int, (folder / "facts").read_text().split())
    return [disk.read_bytes() for disk in disks], (folder / "volume").read_bytes(), offset, offset + 2 * kilobytes


class Tally:
    def __init__(self):
        self.done = self.failed = 0

    def add(self, right, what):
        self.done += 1
        self.failed += not right
        print(f"{'ok' if right else 'FAILED'} {what}", flush=True)


def run(program, folder, *words):
    return subprocess.run([program, *words], cwd=folder, capture_output=True, check=False)


def ask(tally, program, folder, found, images, volume, end):
    """The program over the images, as files."""
    names = [f"image{place}" for place in range(len(images))]
    for name, image in zip(names, images):
        (folder / name).write_bytes(image)
    put = run(program, folder, "mirrorwrite", f"set={found.word()}", f"end={end}", "--", *names)
    tally.add((put.returncode, put.stdout) == (0, volume), f"mirrorwrite set={found.word()} end={end}")
    asked = [f"layouts={','.join(LAYOUTS)}", f"members={found.members}", f"missing={found.lost}", f"chunks={CHUNK // 2},{CHUNK}",
             f"offsets={found.offset}"]
    listed = run(program, folder, "mirrors", *asked, f"end={end}", "window=4096", "size=1000", "--", *names)
    lines = listed.stdout.decode().splitlines()
    tally.add(listed.returncode == 0 and any(line.endswith(" " + found.word()) for line in lines), f"mirrors {' '.join(asked)}: {len(lines) - 1} pass")


def main(words):
    if os.geteuid() or not shutil.which("linux.uml") or not shutil.which("mdadm"):
        sys.exit("it takes root, linux.uml and mdadm")
    tally, chance = Tally(), random.Random(10)
    with tempfile.TemporaryDirectory(prefix="reraid-md.") as name:
        folder, before = pathlib.Path(name), None
        for layout, word, count, lost in ARRAYS:
            if (word, count) != before:
                disks, volume, offset, end = made(folder, word, count, chance)
                before = word, count
            left = [slot for slot in range(count) if slot not in lost]
            chance.shuffle(left)
            images = [disks[slot] for slot in left]
            found = Mirror(layout, CHUNK, offset, [left.index(slot) if slot in left else None for slot in range(count)])
            tally.add(mirrors.volume(found, images, end) == volume, f"{found.word()} of {len(volume)} bytes")
            if words:
                ask(tally, os.path.abspath(words[0]), folder, found, images, volume, end)
    print(f"{tally.done} comparisons, {tally.failed} not as stated")
    return tally.failed > 0


if __name__ == "__main__":
    sys.exit(main(sys.argv[1:]))
