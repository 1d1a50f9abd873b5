"""A plugin of nbdkit (python) that shows a file as a hard disk would: at the pace of its platters, and with a seek where a read does not go
on where the last one ended. It serves one read at a time, of those that wait the next one in its way, as a disk and the kernel do.

    nbdkit -r python slow_disk.py file=FILE pace=150 seek=8

PACE is in megabytes a second, SEEK in milliseconds. A place that is a little further on is waited for until it comes, where that takes less
than a seek. While nothing is asked for the disk reads on, as far as its own memory holds. Before it moves it waits for a moment whether the next read in its way comes after all, as reads of one file may overtake each
other on their way here; what it then goes to has that moment in its time.
"""

import os
import threading
import time

import nbdkit

API_VERSION = 2

# The seconds of that moment, and the bytes of the disk's own memory.
MOMENT = 0.001
AHEAD = 2 << 20

# Of the words: the descriptor of the file, bytes a second, and seconds.
words = {"file": None, "pace": 150e6, "seek": 0.008}


class Disk:
    """Where the head is, when it is free, and which reads wait for it."""

    def __init__(self):
        self.changed = threading.Condition()
        self.waiting = []
        self.busy = False
        self.head = 0
        self.free = 0.0

    def next(self):
        """The read that is served next: the first from the head on, or the first of all."""
        return min(self.waiting, key=lambda read: (read[0] < self.head, read[0], read[1]))

    def ready(self, place, length, asked):
        """When a read is done that was asked for at that time, and is served now."""
        on = (place - self.head + length) / words["pace"]
        if 0 <= place - self.head < words["seek"] * words["pace"]:
            return max(self.free, asked - AHEAD / words["pace"]) + on
        return max(self.free, asked) + words["seek"] + length / words["pace"]

    def pass_under(self, place, length):
        """Waits until so many bytes from the place have passed under the head, in their turn."""
        read = (place, time.monotonic())
        with self.changed:
            self.waiting.append(read)
            self.changed.notify_all()
            waited = False
            while self.busy or self.next() is not read or not (waited or place == self.head):
                if self.busy or self.next() is not read:
                    self.changed.wait()
                else:
                    waited = not self.changed.wait(MOMENT)
            self.waiting.remove(read)
            self.busy = True
            self.free = self.ready(place, length, read[1])
            self.head = place + length
        time.sleep(max(0.0, self.free - time.monotonic()))
        with self.changed:
            self.busy = False
            self.changed.notify_all()


disk = Disk()


def thread_model():
    return nbdkit.THREAD_MODEL_PARALLEL


def config(key, value):
    if key == "file":
        words["file"] = os.open(value, os.O_RDONLY)
    elif key == "pace":
        words["pace"] = float(value) * 1e6
    elif key == "seek":
        words["seek"] = float(value) / 1e3
    else:
        raise RuntimeError(f"unknown word {key}")


def config_complete():
    if words["file"] is None:
        raise RuntimeError("file= is missing")


def open(readonly):
    return 1


def get_size(handle):
    return os.fstat(words["file"]).st_size


def pread(handle, buffer, offset, flags):
    disk.pass_under(offset, len(buffer))
    os.preadv(words["file"], [buffer], offset)
