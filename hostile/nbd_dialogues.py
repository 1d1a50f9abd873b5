#!/usr/bin/env python3
"""Talks to reraid-nbd as clients at random, and compares every byte and the status with a model of the protocol over the volume that `write`
and `mirrorwrite` put: reads at levels 0, 5, 6 and near2, with offsets of each image, with each number of lost members; options, requests and
ends of all kinds; refusals; images that fail, clients that go away, and an output that is full.

Usage: hostile/nbd_dialogues.py PROGRAM SERVER [seed=NUMBER] [reads=NUMBER] [dialogues=NUMBER]
Reads are for each array (1200, if left out), dialogues for all together (2000). The last line says how many cases were as stated; status 1
where one was not. A dialogue that differs is kept, and its name printed.
"""

import itertools
import os
import pathlib
import random
import subprocess
import sys
import tempfile

HERE = pathlib.Path(__file__).resolve().parent
sys.dont_write_bytecode = True
sys.path.insert(0, str(HERE))
import nbd_model as model  # noqa: E402

DISKS = HERE.parent / "bench/making/disks.py"
# The level or the layout of copies, which has no pattern, the pattern, chunk, offsets and members of each array, and how many members may be lost.
ARRAYS = [
    ("0", "plain", 8, [16], 3, 0),
    ("0", "plain", 128, [2048], 4, 0),
    ("5", "ls", 128, [2048], 4, 1),
    ("5", "ra", 8, [0], 3, 1),
    ("5", "la", 16, [16, 0, 32, 8], 4, 1),
    ("6", "ls", 128, [2048], 5, 2),
    ("6", "parity-first", 8, [8], 6, 2),
    ("6", "n-continue", 16, [0, 16, 16, 48, 0], 5, 2),
    ("near2", "", 128, [2048], 4, 1),
    ("near2", "", 8, [0], 5, 1),
    ("near3", "", 8, [0], 4, 2),
    ("far2", "", 128, [2048], 4, 1),
    ("far3", "", 8, [8], 5, 2),
    ("offset2", "", 16, [0], 3, 1),
]
LINE = "reraid: "
# The lines of the statuses that `write` has not, or with other words.
LINES = {0: "", 11: LINE + "input fault\n", 12: LINE + "output fault\n", 14: LINE + "dialogue is malformed\n"}


class Cases:
    """Counts cases."""

    def __init__(self):
        self.done = self.failed = self.reads = 0

    def add(self, fact, what):
        self.done += 1
        if not fact:
            self.failed += 1
            print(f"FAILED {what}", flush=True)


def set_word(array, slots):
    """The set of an array whose slots hold these images."""
    level, pattern, chunk, offsets, _, _ = array
    if not pattern:
        return f"{level}:{chunk}:{offsets[0]}:{','.join(slots)}"
    syndrome = "by-slot" if pattern == "n-continue" else "after-q" if level == "6" else "none"
    return f"{level}:{pattern}:{syndrome}:{chunk}:{'+'.join(map(str, offsets))}:{','.join(slots)}"


def make_array(array, number, chance, least=6 << 20):
    """The disks of an array with so many bytes at least, in their slots."""
    level, pattern, chunk, offsets, members, _ = array
    names = [f"{number}.{slot}" for slot in range(members)]
    pathlib.Path("volume").write_bytes(chance.randbytes(least + chance.randint(0, 1 << 20)))
    asked = [f"offsets={','.join(map(str, offsets))}"]
    if pattern:
        asked += [f"pattern={pattern}", f"syndrome={'by-slot' if pattern == 'n-continue' else 'after-q'}"]
    subprocess.run([DISKS, *asked, level, str(chunk), "volume", *names], check=True)
    return names


def sets_of(array, names):
    """For each choice of lost members the word of the set, and the names of the images that are left, in another order than the slots."""
    level, pattern, chunk, offsets, members, most = array
    for count in range(most + 1):
        for lost in itertools.islice(itertools.combinations(range(members), count), 0, None, 1 if count < 2 else 4):
            left = [slot for slot in reversed(range(members)) if slot not in lost]
            slots = [str(left.index(slot)) if slot in left else "-" for slot in range(members)]
            mine = [offsets[slot] for slot in left] if len(offsets) > 1 else offsets
            yield lost, set_word((level, pattern, chunk, mine, members, most), slots), [names[slot] for slot in left]


def served(server, words, data):
    """What the server puts for these bytes, its status and its line. It may end before it took all of them."""
    with subprocess.Popen([server, *words], stdin=subprocess.PIPE, stdout=subprocess.PIPE, stderr=subprocess.PIPE) as process:
        out, err = process.communicate(data, timeout=120)
    return out, process.returncode, err.decode()


def compare(cases, server, words, content, data, what):
    """One dialogue beside the model."""
    wanted, status = model.said(content, data)
    out, got, line = served(server, words, data)
    right = out == wanted and got == status and line == LINES[status]
    if not right:
        file = tempfile.NamedTemporaryFile(prefix="reraid-nbd-dialogue.", dir="/tmp", delete=False)
        file.write(data)
        what += f": status {got} for {status}, {len(out)} bytes for {len(wanted)}, line {line!r}; kept as {file.name}"
    cases.add(right, what)
    return right


def try_reads(cases, program, server, count, chance):
    """Reads of each array, and what else may be asked of the last set of each."""
    kept = []
    for number, array in enumerate(ARRAYS):
        names = make_array(array, number, chance)
        command = "write" if array[1] else "mirrorwrite"
        sets = list(sets_of(array, names))
        for lost, word, left in sets:
            content = subprocess.run([program, command, f"set={word}", "--", *left], check=True, stdout=subprocess.PIPE).stdout
            words = [f"set={word}", "--", *left]
            each = -(-count // len(sets))
            data = model.hello() + model.reads(chance, len(content), each, len(content) // 4) + model.request(model.DISCONNECT, 0)
            if compare(cases, server, words, content, data, f"{each} reads of {word}, lost {list(lost)}"):
                cases.reads += each
        kept.append((words, content))
        end = array[3][0] + 3 * array[2] + 1
        if len(array[3]) == 1:
            words = [f"end={end}", f"set={word}", "--", *left]
            put = subprocess.run([program, command, f"end={end}", f"set={word}", "--", *left], check=True, stdout=subprocess.PIPE).stdout
            compare(cases, server, words, put, model.hello(0) + model.reads(chance, len(put), 20, len(put)), f"end={end} of {word}")
    return kept


def try_long_reads(cases, program, server, chance):
    """The longest read, one byte more, and reads with it past the end, of clients by each way in."""
    array = ARRAYS[2]
    names = make_array(array, "long", chance, model.GREATEST)
    *_, (_, word, left) = sets_of(array, names)
    words = [f"set={word}", "--", *left]
    content = subprocess.run([program, "write", *words], check=True, stdout=subprocess.PIPE).stdout
    last = len(content) - model.GREATEST
    places = (0, model.GREATEST), (last, model.GREATEST), (0, model.GREATEST + 1), (last + 1, model.GREATEST), (last // 2 + 77, model.GREATEST - 1)
    data = b"".join(model.request(model.READ, number, place, length) for number, (place, length) in enumerate(places))
    ways = {"EXPORT_NAME": model.hello(), "GO": model.entered(), "GO with the sizes of blocks": model.entered(3)}
    for name, hello in ways.items():
        compare(cases, server, words, content, hello + data, f"the longest reads by {name}")
        cases.reads += len(places)


def try_dialogues(cases, server, kept, count, chance):
    """Clients at random."""
    for number in range(count):
        words, content = chance.choice(kept)
        compare(cases, server, words, content, model.some_dialogue(chance, len(content)), f"dialogue {number} with {words}")


class Client:
    """A client that goes on while the server runs."""

    def __init__(self, server, words, **more):
        self.process = subprocess.Popen([server, *words], stdin=subprocess.PIPE, stdout=subprocess.PIPE, stderr=subprocess.PIPE, **more)
        self.put(model.hello())
        self.take(18 + 10)

    def put(self, data):
        self.process.stdin.write(data)
        self.process.stdin.flush()

    def take(self, count):
        return self.process.stdout.read(count)

    def read(self, place, length):
        """The error of a read, and its data."""
        self.put(model.request(model.READ, 7, place, length))
        magic, error, handle = model.REPLY.unpack(self.take(16))
        assert (magic, handle) == (model.REPLY_MAGIC, 7)
        return error, b"" if error else self.take(length)

    def end(self):
        """The status and the line, after the input has ended."""
        self.process.stdin.close()
        self.process.stdout.close()
        line = self.process.stderr.read().decode()
        return self.process.wait(60), line


def try_faults(cases, program, server):
    """An image that is cut in mid-run fails the reads that need it, and no others; clients go away; outputs fail."""
    names = ["f.0", "f.1", "f.2"]
    noise = random.Random(5)
    pathlib.Path("volume").write_bytes(noise.randbytes(8 << 20))
    subprocess.run([DISKS, "offsets=0", "5", "128", "volume", *names], check=True)
    words = ["set=5:parity-last:none:128:0:0,1,2", "--", *names]
    content = subprocess.run([program, "write", *words], check=True, stdout=subprocess.PIPE).stdout
    whole = os.path.getsize("f.1")
    client = Client(server, words)
    cases.add(client.read(0, len(content) // 4) == (0, content[: len(content) // 4]), "a read before an image fails")
    os.truncate("f.1", whole // 2)
    chunk = 65536
    last = len(content) // chunk - 1
    cases.add(client.read(last * chunk, 100) == (model.INPUT_OUTPUT, b""), "a read of an image that was cut is EIO")
    cases.add(client.read((last - 1) * chunk + 9, 100) == (0, content[(last - 1) * chunk + 9 :][:100]), "a read of the others goes on")
    cases.add(client.read((last - 1) * chunk, 2 * chunk) == (model.INPUT_OUTPUT, b""), "a read over both is EIO")
    cases.add(client.read(chunk, 4096) == (0, content[chunk:][:4096]), "a read of what is left of it goes on")
    cases.add(client.end() == (0, ""), "the end after faults")
    os.truncate("f.1", whole)

    client = Client(server, words)
    client.put(model.request(model.READ, 1, 0, 4 << 20))
    client.take(1000)
    cases.add(one_line(client.end(), 12), "a client that goes away in mid-reply")
    client = Client(server, words)
    client.put(model.REQUEST.pack(model.REQUEST_MAGIC, 0, 0, 0, 0, 0)[:11])
    cases.add(one_line(client.end(), 14), "a client that goes away in mid-request")
    with open("/dev/full", "wb") as full:
        done = subprocess.run([server, *words], input=model.hello(), stdout=full, stderr=subprocess.PIPE, check=False)
    cases.add(one_line((done.returncode, done.stderr.decode()), 12), "a full output")
    folder = os.open(".", os.O_RDONLY)
    done = subprocess.run([server, *words], stdin=folder, stdout=subprocess.PIPE, stderr=subprocess.PIPE, check=False)
    cases.add(one_line((done.returncode, done.stderr.decode()), 11), "an input that cannot be read")
    os.close(folder)
    for closed, status in (("<&-", 0), (">&-", 12)):
        done = subprocess.run(["bash", "-c", f'exec "$@" {closed}', "bash", server, *words], input=b"", stdout=subprocess.PIPE, stderr=subprocess.PIPE, check=False)
        cases.add(done.returncode == status, f"closed by {closed}: status {done.returncode}")


def one_line(end, status):
    return end == (status, LINES[status])


def try_refusals(cases, program, server):
    """Words, images and sets that are refused: nothing is put, and the numbers of the line are those that `write` names."""
    names = ["f.0", "f.1", "f.2"]
    good = "set=5:ls:none:128:0:0,1,2"
    # What follows the server's name, and how many words `write` has more: its own.
    refused = [[], ["--"], ["--", *names], [good], [good, *names], ["set=5:ls", "--", *names], [good, good, "--", *names], [good, "end=x", "--", *names],
               ["end=5", "--", *names], [good, "sector=5", "--", *names], [good, "--"], [good, "end=99999999", "--", *names], [good, "--", "nothing"],
               [good, "--", "."], [good, "--", "/dev/null"], ["set=5:ls:none:128:0:0,1,7", "--", *names], ["set=5:ls:none:100:0:0,1,2", "--", *names],
               ["set=5:ls:after-q:128:0:0,1,2", "--", *names], ["set=5:ls:none:128:0:-,-,2", "--", *names], ["set=5:ls:none:128:99999:0,1,2", "--", *names],
               ["set=5:ls:none:128:0+0:0,1,2", "--", *names], [good, "--", *(names * 9)]]
    mirrored = [["set=near2:128:0:0,0,1", "--", *names], ["set=near2:3:0:0,1,2", "--", *names], ["set=near2:128:0:-,-,1", "--", *names],
                ["set=near2:128:0:0", "--", *names], ["set=near2:128:99999:0,1,2", "--", *names], ["set=near2:128:0", "--", *names],
                ["set=far2:128:0:-,-,1", "--", *names], ["set=offset4:128:0:0,1,2", "--", *names], ["set=far5:128:0:0,1,2", "--", *names]]
    for command, lists in (("write", refused), ("mirrorwrite", mirrored)):
        for words in lists:
            wanted = subprocess.run([program, command, *words], stdin=subprocess.DEVNULL, capture_output=True, check=False)
            out, status, line = served(server, words, model.hello())
            said = wanted.stderr.decode().removeprefix("reraid: ")
            if wanted.returncode == 1:
                said = f"word {int(said.split()[1]) - 1} is not understood\n"
            right = (out, status, line) == (b"", wanted.returncode, LINE + said) and status in (1, 4, 7, 10)
            cases.add(right, f"refusal of {words}: status {status}, {line!r}, {len(out)} bytes put; `{command}`: {wanted.returncode}, {said!r}")


def main(words):
    asked = {"seed": random.randrange(1 << 32), "reads": 1200, "dialogues": 2000}
    asked.update((name, int(value)) for name, value in (word.split("=") for word in words[2:]))
    program, server = map(os.path.abspath, words[:2])
    cases, chance = Cases(), random.Random(asked["seed"])
    print(f"seed={asked['seed']}")
    with tempfile.TemporaryDirectory() as folder:
        os.chdir(folder)
        kept = try_reads(cases, program, server, asked["reads"], chance)
        try_long_reads(cases, program, server, chance)
        try_faults(cases, program, server)
        try_refusals(cases, program, server)
        try_dialogues(cases, server, kept, asked["dialogues"], chance)
        os.chdir("/")
    print(f"{cases.done} cases, with {cases.reads} reads, {cases.failed} not as stated")
    return cases.failed > 0


if __name__ == "__main__":
    if len(sys.argv) < 3:
        sys.exit(__doc__)
    sys.exit(main(sys.argv[1:]))
