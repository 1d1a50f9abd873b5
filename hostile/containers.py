#!/usr/bin/env python3
"""Tries images in containers: makes a RAID 5 of four disks with an ext4, puts its disks into containers of each kind that can be made here, and
compares what `reraid-try` opens with the disks; then searches them, runs the lines that it says open them, and compares the volume of the set that it
found. Also what is refused, and that nothing is left open.

Usage: hostile/containers.py [--open]
With --open nothing is searched. The last line says how many checks were as they should be; status 1 where one was not. Needs the built programs, FUSE,
and the Debian packages e2fsprogs, ewf-tools, fuse3, libnbd-bin, nbdkit and qemu-utils.
"""

import filecmp
import json
import os
import pathlib
import subprocess
import sys
import tempfile
import time

TOP = pathlib.Path(__file__).resolve().parent.parent
sys.dont_write_bytecode = True
sys.path.insert(0, str(TOP / "lib"))
from reraid_try import containers, opening  # noqa: E402
from reraid_try.errors import OutsideError  # noqa: E402

# A run that is refused takes no longer.
SECONDS = 120
ENV = os.environ | {"PATH": os.pathsep.join([str(TOP / "crates/reraid/out"), str(TOP / "bin"), os.environ["PATH"], "/usr/sbin", "/sbin"])}
# How a disk is put into each kind: the commands, and the file that is named.
MADE = {
    "E01": (["ewfacquire -u -q -t d -f encase6 -S 3MiB -c fast ./d.dd"], "d.E01"), "split": (["split -b 3M -a 3 --numeric-suffixes=1 d.dd d."], "d.001"),
    "qcow2": (["qemu-img convert -O qcow2 d.dd d.qcow2"], "d.qcow2"), "compressed": (["qemu-img convert -c -O qcow2 d.dd d.img"], "d.img"),
    "VMDK": (["qemu-img convert -O vmdk d.dd d.vmdk"], "d.vmdk"),
    "flat": (["qemu-img convert -O vmdk -o subformat=monolithicFlat d.dd d.vmdk"], "d.vmdk"),
    "extents": (["qemu-img convert -O vmdk -o subformat=twoGbMaxExtentSparse d.dd d.vmdk"], "d.vmdk"),
    "stream": (["qemu-img convert -O vmdk -o subformat=streamOptimized d.dd d.vmdk"], "d.vmdk"),
    "VHD": (["qemu-img convert -O vpc d.dd d.vhd"], "d.vhd"), "fixed": (["qemu-img convert -O vpc -o subformat=fixed d.dd d.vhd"], "d.vhd"),
    "VHDX": (["qemu-img convert -O vhdx d.dd d.vhdx"], "d.vhdx"), "VDI": (["qemu-img convert -O vdi d.dd d.vdi"], "d.vdi"),
    "child": (["qemu-img create -f qcow2 -b d.dd -F raw d.qcow2"], "d.qcow2")}
# Containers that are not whole: the commands that make each of d.dd, and what is said of it.
CUT = {"cut.vmdk": ("head -c 5M d.vmdk > cut.vmdk", "points after EOF"),
       "cut.qcow2": ("qemu-img convert -O qcow2 d.dd q && head -c 5M q > cut.qcow2", "qemu-img check"),
       "cut.vhdx": ("qemu-img convert -O vhdx d.dd x && head -c 9M x > cut.vhdx", "qemu-img check"),
       "cut.vdi": ("qemu-img convert -O vdi d.dd v && head -c 5M v > cut.vdi", "is cut off"),
       "flat.vmdk": ("qemu-img convert -O vmdk -o subformat=monolithicFlat d.dd flat.vmdk && truncate -s 5M flat-flat.vmdk", "is shorter than"),
       "e.E01": ("ewfacquire -u -q -t e -f encase6 -S 3MiB -c fast ./d.dd && rm e.E03", "a further file follows, and there is none")}


class Checks:
    """How many checks there were, and how many failed."""

    def __init__(self):
        self.done = self.failed = 0

    def that(self, fact, what):
        """Counts a check, and says what it was where it failed."""
        self.done += 1
        if not fact:
            self.failed += 1
            print(f"FAILED {what}")


def run(folder, *words):
    """Runs a command quietly."""
    subprocess.run(words, check=True, cwd=folder, env=ENV, stdout=subprocess.DEVNULL, stderr=subprocess.DEVNULL)


def same(path, disk):
    """What is shown is the disk; it may have zeros behind it."""
    length = os.path.getsize(disk)
    with open(path, "rb") as shown, open(disk, "rb") as wanted:
        return shown.read(length) == wanted.read() and not shown.read().strip(b"\0")


def opened(checks, base):
    """Each kind, opened and compared, with a name that is awkward."""
    for kind, (commands, name) in MADE.items():
        with tempfile.TemporaryDirectory(dir=base, prefix="E01 of " if kind == "E01" else f"{kind}, of:") as folder:
            run(folder, "sh", "-c", "head -c 7M /dev/urandom > d.dd")
            for command in commands:
                run(folder, "sh", "-c", command)
            found = containers.known([os.path.join(folder, name)])
            room = tempfile.mkdtemp(dir=base)
            opener = opening.Opener(room)
            try:
                names, _ = opener.all(found.images)
                checks.that(same(names[0], os.path.join(folder, "d.dd")), f"{kind}: what is shown is the disk")
            except OutsideError as error:
                checks.that(False, f"{kind}: {error}")
            finally:
                opener.close()
            checks.that(room not in pathlib.Path("/proc/mounts").read_text(encoding="utf-8"), f"{kind}: nothing is left open")


def refused(checks, base):
    """What cannot be opened, or is cut."""
    with tempfile.TemporaryDirectory(dir=base) as folder:
        run(folder, "sh", "-c", "head -c 7M /dev/urandom > d.dd; qemu-img convert -O vmdk d.dd d.vmdk; gzip -k d.dd")
        for name, (command, wanted) in CUT.items():
            run(folder, "sh", "-c", command)
            done = subprocess.run(["reraid-try", name, "d.dd"], cwd=folder, env=ENV, capture_output=True, text=True, timeout=SECONDS, check=False)
            checks.that(done.returncode == 3 and "it is not whole" in done.stderr and wanted in done.stderr, f"{name}: {done.returncode} {done.stderr}")
        bad = b"EVF\x09\x0d\x0a\xff\x00\x01\x01\x00" + bytes(3000) + b"done".ljust(76, b"\0")
        (pathlib.Path(folder) / "bad.E01").write_bytes(bad)
        done = subprocess.run(["reraid-try", "bad.E01", "d.dd"], cwd=folder, env=ENV, capture_output=True, text=True, timeout=SECONDS, check=False)
        checks.that(done.returncode == 3 and "ewfmount does not open it" in done.stderr, f"one that its tool does not open: {done.stderr}")
        done = subprocess.run(["reraid-try", "d.dd.gz", "d.dd"], cwd=folder, env=ENV, capture_output=True, text=True, check=False)
        checks.that(done.returncode == 3 and "unpack it first" in done.stderr, f"a compressed one: {done.stderr}")
        alone = ENV | {"PATH": os.pathsep.join([*ENV["PATH"].split(os.pathsep)[:3], f"{folder}/few"])}
        (pathlib.Path(folder) / "few").mkdir()
        for tool in ("python3", "env", "sh", "dirname", "realpath", "cat"):
            os.symlink(subprocess.run(["sh", "-c", f"command -v {tool}"], capture_output=True, text=True, check=True).stdout.strip(), f"{folder}/few/{tool}")
        words = [sys.executable, str(TOP / "bin/reraid-try"), "d.vmdk", "d.dd"]
        done = subprocess.run(words, cwd=folder, env=alone, capture_output=True, text=True, check=False)
        wanted = "nbdfuse and qemu-nbd and fusermount3 would open it (Debian: apt install libnbd-bin qemu-utils fuse3)"
        checks.that(done.returncode == 3 and wanted in done.stderr, f"without the tools: {done.returncode} {done.stderr}")


def searched(checks, base):
    """A search over four disks in four containers, and the lines that it says open them."""
    with tempfile.TemporaryDirectory(dir=base) as folder:
        run(folder, "sh", "-c", "mkdir tree && head -c 3M /dev/urandom | gzip > tree/photos.gz && mke2fs -q -t ext4 -d tree volume 12M")
        run(folder, str(TOP / "bench/making/disks.py"), "5", "128", "volume", "c.dd", "a.dd", "d.dd", "b.dd")
        for disk, command in {"a": "ewfacquire -u -q -t a -f encase6 -S 3MiB ./a.dd", "b": "split -b 3M -a 3 --numeric-suffixes=1 b.dd b.",
                              "c": "qemu-img convert -O qcow2 c.dd c.qcow2", "d": "qemu-img convert -O vmdk d.dd d.vmdk"}.items():
            run(folder, "sh", "-c", f"{command} && mv {disk}.dd {disk}.raw")
        words = ["reraid-try", "--json", "--levels", "5", "a.E01", "b.001", "c.qcow2", "d.vmdk"]
        done = subprocess.run(words, cwd=folder, env=ENV, capture_output=True, text=True, check=False)
        events = [json.loads(line) for line in done.stdout.splitlines()]
        named = [it["name"] for it in events if it["event"] == "image"]
        checks.that(named == ["a.E01", "b.001", "c.qcow2", "d.vmdk"], f"images are called as they were named: {named}")
        told = [it for it in events if it["event"] == "words" and it.get("set", "").endswith(":2,0,3,1")]
        checks.that(told, f"the true set is among the best: {[it.get('set') for it in events if it['event'] == 'words']} {done.stderr[-300:]}")
        for it in told[:1]:
            lines = [line for line in it["commands"] if line.startswith(("mkdir", "ewfmount", "nbdfuse"))]
            names = [word for line in it["commands"] if line.startswith("reraid-mount") for word in line.split() if word.startswith("opened/")]
            script = "\n".join([*lines, *(f"until [ -e {name} ]; do sleep 0.1; done" for name in names),
                                f"reraid write set={it['set']} -- {' '.join(names)} > found", *(f"fusermount3 -u {os.path.dirname(name)}" for name in names)])
            subprocess.run(["bash", "-c", script], cwd=folder, env=ENV, stdin=subprocess.DEVNULL, capture_output=True, check=False)
            run(folder, "sh", "-c", "head -c $(stat -c %s volume) found > cut")
            checks.that(filecmp.cmp(f"{folder}/cut", f"{folder}/volume", False), "the lines to type open the images: the volume is that of the array")
        time.sleep(1)
        checks.that(folder not in pathlib.Path("/proc/mounts").read_text(encoding="utf-8"), "nothing is left open")


def main(words):
    checks = Checks()
    with tempfile.TemporaryDirectory(prefix="reraid-containers.") as base:
        opened(checks, base)
        refused(checks, base)
        if "--open" not in words:
            searched(checks, base)
    print(f"{checks.done} checks, {checks.failed} not as they should be")
    return checks.failed > 0


if __name__ == "__main__":
    sys.exit(main(sys.argv[1:]))
