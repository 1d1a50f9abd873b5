#!/usr/bin/env python3
"""Tries the page of `reraid-try --report`: makes a RAID 6 of six disks with an ext4, of which one disk dropped out early and holds old data since,
one is in a container and one has areas that could not be read, searches it, and looks at the page. It has all that it should, with nothing that it
would fetch, and no script; and in Chromium, where that is installed, no two texts overlap and nothing is cut off, at 1,200 and 400 pixels, light and
dark; printed to PDF it has no empty page.

Usage: hostile/casefile.py [--page FILE] [FOLDER]
With --page that page alone is looked at in Chromium. Pictures are left in FOLDER, to be looked at. The last line says how many checks were as they
should be; status 1 where one was not. Needs the built programs, and the Debian packages e2fsprogs, chromium, poppler-utils, qemu-utils, libnbd-bin.
"""

import hashlib
import html
import html.parser
import json
import os
import pathlib
import re
import shutil
import subprocess
import sys
import tempfile

TOP = pathlib.Path(__file__).resolve().parent.parent
CHROMIUM = ["chromium", "--headless", "--no-sandbox", "--disable-gpu", "--hide-scrollbars", "--force-device-scale-factor=1"]
# Finds texts that overlap, and what reaches beyond the page: rectangles of all texts, but those of one line of one text.
SCRIPT = """<script>window.onload = () => {
  const found = [], walk = document.createTreeWalker(document.body, NodeFilter.SHOW_TEXT);
  for (let node; node = walk.nextNode();) {
    if (!node.data.trim() || node.parentElement.closest('script, svg')) continue;
    const range = document.createRange(); range.selectNodeContents(node);
    for (const it of range.getClientRects()) if (it.width > 1 && it.height > 1 && it.left > -500) found.push([it, node]);
  }
  const said = [];
  for (let i = 0; i < found.length; i++) {
    const [a, one] = found[i];
    if (a.right > document.documentElement.clientWidth + 1) said.push('beyond: ' + one.data.trim().slice(0, 40));
    for (let j = i + 1; j < found.length; j++) {
      const [b, other] = found[j];
      const wide = Math.min(a.right, b.right) - Math.max(a.left, b.left), high = Math.min(a.bottom, b.bottom) - Math.max(a.top, b.top);
      if (one !== other && wide > 1 && high > 3) said.push('over: ' + one.data.trim().slice(0, 30) + ' / ' + other.data.trim().slice(0, 30));
    }
  }
  parent.document.body.innerHTML = '<pre id=told>' + JSON.stringify({texts: found.length, said: said.slice(0, 20), high: document.documentElement.scrollHeight,
    wide: document.documentElement.clientWidth}).replace(/</g, '&lt;') + '</pre>';
}</script>"""


class Checks:
    """How many checks there were, and how many failed."""

    def __init__(self):
        self.done = self.failed = 0

    def that(self, fact, what):
        """Counts a check, and says what it was where it failed."""
        self.done += 1
        if not fact:
            self.failed += 1
            print(f"FAILED {what}")


class Elements(html.parser.HTMLParser):
    """The elements of a page, and whether they are nested well."""

    VOID = {"meta", "br", "path"}

    def __init__(self):
        super().__init__()
        self.open, self.tags, self.outside, self.good = [], set(), [], True

    def handle_starttag(self, tag, attrs):
        self.tags.add(tag)
        self.outside += [value for name, value in attrs if name in ("src", "href", "xlink:href")]
        if tag not in self.VOID:
            self.open.append(tag)

    def handle_startendtag(self, tag, attrs):
        self.tags.add(tag)

    def handle_endtag(self, tag):
        self.good = self.good and bool(self.open) and self.open.pop() == tag


def in_chromium(checks, page, folder):
    """The page at both widths, light and dark, and printed."""
    if not shutil.which("chromium"):
        print("left out: there is no chromium")
        return
    text = page.read_text(encoding="utf-8")
    looks = {"light": text, "dark": text.replace("prefers-color-scheme: dark", "min-width: 1px")}
    for look, made in looks.items():
        (folder / f"{look}.html").write_text(made, encoding="utf-8")
        for wide in (1200, 400):
            asked = folder / "asked.html"
            # In a frame, since a window has some least width.
            framed = html.escape(made.replace("</body>", SCRIPT + "</body>"))
            asked.write_text(f'<!DOCTYPE html><meta charset="utf-8"><iframe width={wide} height=900 frameborder=0 srcdoc="{framed}"></iframe>',
                             encoding="utf-8")
            done = subprocess.run([*CHROMIUM, "--window-size=1300,1000", "--virtual-time-budget=20000", "--dump-dom", f"file://{asked}"],
                                  capture_output=True, text=True, check=False)
            match = re.search(r"<pre id=\"told\">(.*?)</pre>", done.stdout, re.DOTALL)
            told = json.loads(match[1].replace("&lt;", "<").replace("&gt;", ">").replace("&amp;", "&")) if match else {"said": ["no answer"], "texts": 0}
            checks.that(told["texts"] > 50 and told.get("wide") == wide, f"{look}, {wide} pixels: texts were found: {told}")
            checks.that(not told["said"], f"{look}, {wide} pixels: {told['said']}")
            subprocess.run([*CHROMIUM, f"--window-size={wide},{min(16000, told.get('high', 3000))}", f"--screenshot={folder}/{look}{wide}.png",
                            f"file://{folder}/{look}.html"], capture_output=True, check=False)
            asked.unlink()
    printed = folder / "page.pdf"
    subprocess.run([*CHROMIUM, "--no-pdf-header-footer", f"--print-to-pdf={printed}", f"file://{page}"], capture_output=True, check=False)
    checks.that(printed.exists(), "it is printed")
    if printed.exists() and shutil.which("pdftotext"):
        pages = subprocess.run(["pdftotext", "-layout", printed, "-"], capture_output=True, text=True, check=True).stdout.rstrip("\f").split("\f")
        checks.that(all(len(it.split()) > 5 for it in pages), "no printed page is empty")


def make(folder):
    """The images, in an order that is not that of their slots, of which c is old and e a qcow2; and the map of a."""
    run = lambda *words: subprocess.run(words, check=True, cwd=folder, stdout=subprocess.DEVNULL, stderr=subprocess.DEVNULL)  # noqa: E731
    (folder / "tree").mkdir()
    for number in range(6):
        run("sh", "-c", f"head -c 2M /dev/urandom | gzip > tree/{number}.gz")
    run("mke2fs", "-q", "-t", "ext4", "-d", "tree", "volume", "40M")
    run(TOP / "bench/making/disks.py", "6", "128", "volume", "d.img", "a.img", "c.img", "e.img", "b.img", "f.img")
    # What the old disk holds: that of another volume from a third of it on.
    run("sh", "-c", "head -c 40M /dev/urandom > other")
    run(TOP / "bench/making/disks.py", "6", "128", "other", "0", "1", "old", "3", "4", "5")
    size = (folder / "c.img").stat().st_size
    with open(folder / "c.img", "r+b") as disk, open(folder / "old", "rb") as old:
        disk.seek(size // 3)
        old.seek(size // 3)
        disk.write(old.read())
    bad = 4 << 20
    with open(folder / "a.img", "r+b") as disk:
        disk.seek(bad)
        disk.write(bytes(65536))
    length = (folder / "a.img").stat().st_size
    (folder / "a.map").write_text(f"0 + 1\n0 {bad} +\n{bad} 65536 -\n{bad + 65536} {length - bad - 65536} +\n", encoding="ascii")
    run("qemu-img", "convert", "-O", "qcow2", "e.img", "e.qcow2")
    for name in ("0", "1", "3", "4", "5", "old", "other", "e.img"):
        (folder / name).unlink()


def searched(checks, folder):
    """The page of a search over these, after it is looked at as a text."""
    env = os.environ | {"PATH": os.pathsep.join([str(TOP / "crates/reraid/out"), str(TOP / "bin"), os.environ["PATH"], "/usr/sbin", "/sbin"])}
    names = ["a.img", "b.img", "c.img", "d.img", "f.img", "e.qcow2"]
    words = ["reraid-try", "--json", "--report", "case.html", "--hash", "--case", "7/2026", "--examiner", "A. B. <C>", *names]
    done = subprocess.run(words, cwd=folder, env=env, capture_output=True, text=True, check=False)
    events = [json.loads(line) for line in done.stdout.splitlines()]
    checks.that(done.returncode in (0, 1) and "Traceback" not in done.stderr, f"reraid-try ends by itself: {done.returncode} {done.stderr[-600:]}")
    for kind in ("run", "files", "image", "container", "strip", "hash", "trial", "not tried", "end", "finished", "page"):
        checks.that(any(it["event"] == kind for it in events), f"--json has the event {kind}")
    page = folder / "case.html"
    if not page.exists():
        return None
    text = page.read_text(encoding="utf-8")
    elements = Elements()
    elements.feed(text)
    checks.that(elements.good and not elements.open, "its elements are nested")
    checks.that("script" not in elements.tags and not elements.outside and "url(" not in text and "@import" not in text, "it fetches nothing")
    for name in names[:5]:
        checks.that(hashlib.sha256((folder / name).read_bytes()).hexdigest() in text, f"the digest of {name}")
    checks.that(hashlib.sha256((folder / "a.map").read_bytes()).hexdigest() in text, "the digest of a.map")
    for wanted in (*names, "in a container: qcow2", "unread", "reraid-try --json --report case.html", "What was not tried", "Made with", os.uname().release,
                   "<dt>case</dt><dd>7/2026</dd>", "<dt>examiner</dt><dd>A. B. &lt;C&gt;</dd>", "bytes, changed last 20"):
        checks.that(wanted in text, f"it has: {wanted}")
    again = subprocess.run(words, cwd=folder, env=env, capture_output=True, text=True, check=False)
    checks.that(again.returncode == 2 and "exists already" in again.stderr and page.read_text(encoding="utf-8") == text, "a page that exists is kept")
    return page


def main(words):
    checks = Checks()
    page = words.pop(words.index("--page") + 1) if "--page" in words else None
    rest = [word for word in words if word != "--page"]
    folder = pathlib.Path(rest[0] if rest else tempfile.mkdtemp(prefix="reraid-casefile.")).resolve()
    folder.mkdir(exist_ok=True)
    if page is None:
        make(folder)
        page = searched(checks, folder)
    if page:
        in_chromium(checks, pathlib.Path(page).resolve(), folder)
    print(f"pictures are in {folder}")
    print(f"{checks.done} checks, {checks.failed} not as they should be")
    return checks.failed > 0


if __name__ == "__main__":
    sys.exit(main(sys.argv[1:]))
