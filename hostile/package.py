#!/usr/bin/env python3
"""Makes the Debian package, unpacks it into an empty tree, and tries what is there: the fields and the files are as a package's should be,
the completion of bash offers what it should, and the first listing of README prints what it prints there, by the programs of the tree.

Usage: hostile/package.py [--all]
With --all it runs every command of README from there, for which it takes the Debian packages that `make pages` takes. The last line says
how many checks were as they should be; status 1 where one was not.
"""

import gzip
import os
import pathlib
import re
import stat
import subprocess
import sys
import tempfile

TOP = pathlib.Path(__file__).resolve().parent.parent
sys.dont_write_bytecode = True
sys.path.insert(0, str(TOP / "bench/pages"))
import as_printed  # noqa: E402

NEEDED = ("Package", "Version", "Architecture", "Maintainer", "Installed-Size", "Depends", "Section", "Priority", "Description")
COMPLETIONS = [
    ("reraid su", ["survey"]),
    ("reraid mirror", ["mirrors", "mirrorwrite"]),
    ("reraid survey lev", ["levels="]),
    ("reraid survey levels=5 m", ["members=", "missing=", "misfits=", "mode="]),
    ("reraid survey levels=5,", ["5,0", "5,6"]),
    ("reraid survey kinds=gpt,x", ["gpt,xfs", "gpt,xfs5"]),
    ("reraid list form=", ["text", "json"]),
    ("reraid salvage form=", ["data", "lost"]),
    ("reraid relations form=", ["text", "json"]),
    ("reraid relations s", ["step="]),
    ("reraid relations offsets=2048,", ["expected:"]),
    ("reraid relations offsets=2048+", []),
    ("reraid --v", ["--version"]),
    ("reraid write end=5 ", ["set=", "--"]),
    ("reraid write set=", ["0:", "5:", "6:"]),
    ("reraid write set=5:parity-", ["parity-first:", "parity-last:"]),
    ("reraid write set=6:ls:after-q:12", ["128:"]),
    ("reraid write set=5:ls:none:128:2048:", ["expected:"]),
    ("reraid survey patterns=la,left-symmetric", ["la,ls"]),
    ("reraid survey chunks=64,512K", ["64,1024"]),
    ("reraid survey kinds=zfs", ["expected:"]),
    ("reraid survey window=1G", ["2097152"]),
    ("reraid survey window=100", []),
    ("reraid-mount 5:left-asym", ["expected:"]),
    ("reraid-mount 5:left-asymmetric", ["la"]),
    ("reraid-try --first 16X", ["expected:"]),
    ("reraid mirrorwrite set=near2:64:2", ["2048:", "262144:", "264192:"]),
    ("reraid write -- a", []),
    ("reraid mirrorwrite set=off", ["offset2:", "offset3:", "offset4:"]),
    ("reraid mirrorwrite set=far3:1", ["16:", "128:", "1024:"]),
    ("reraid-nbd set=n", ["near2:", "near3:", "near4:"]),
    ("reraid-mount 6:ls:by-", ["by-data:", "by-slot:"]),
    ("reraid-try --le", ["--levels"]),
    ("reraid-nbd --", ["--"]),
    ("reraid-nbd --v", ["--version"]),
    ("reraid-mount --h", ["--help"]),
    ("reraid-try --levels 5,", ["5,0", "5,6", "5,10"]),
    ("reraid-ranges s", ["split"]),
]


class Checks:
    """How many checks there were, and how many failed."""

    def __init__(self):
        self.done = self.failed = 0

    def that(self, fact, what):
        """Counts a check, and says what it was where it failed."""
        self.done += 1
        if not fact:
            self.failed += 1
            print(f"FAILED {what}")


def output(*words, **more):
    """What a command prints; it ends with status 0."""
    return subprocess.run(words, check=True, text=True, stdout=subprocess.PIPE, **more).stdout


def check_fields(checks, package):
    """The fields of the package, and that its libraries are those of packages that it depends on."""
    fields = dict(line.split(": ", 1) for line in output("dpkg-deb", "--field", package).splitlines() if not line.startswith(" "))
    for name in NEEDED:
        checks.that(fields.get(name), f"the field {name}")
    checks.that(fields["Architecture"] == output("dpkg", "--print-architecture").strip(), "the architecture")
    checks.that(len(fields["Description"]) <= 80, "the first line of the description has at most 80 characters")
    checks.that(subprocess.run(["dpkg", "--validate-version", fields["Version"]], check=False).returncode == 0, "the version")
    return fields


def check_owners(checks, package):
    """Of each file the owner and the modes, as the package has them."""
    for line in output("dpkg-deb", "--contents", package).splitlines():
        mode, owner, _, _, _, name = line.split(maxsplit=5)
        checks.that(owner == "root/root", f"{name} belongs to root, not {owner}")
        program = name.startswith("./usr/bin/") or name == "./usr/libexec/reraid/reraid-nbd" or name.endswith(".py") and "/examples/" in name
        wanted = {"d": "drwxr-xr-x", "l": "lrwxrwxrwx", "-": "-rwxr-xr-x" if program else "-rw-r--r--"}[mode[0]]
        checks.that(mode == wanted or name == "./usr/bin/", f"{name} has mode {mode}, not {wanted}")
        checks.that(name == "./" or name.startswith("./usr/"), f"{name} is outside of usr")


def check_files(checks, tree, sums):
    """The files: their sums, no empty ones, and a manual page and a completion for each program."""
    for line in sums.splitlines():
        wanted, name = line.split(maxsplit=1)
        checks.that(output("md5sum", tree / name).split()[0] == wanted, f"the sum of {name}")
    files = [path for path in tree.rglob("*") if path.is_file() and not path.is_symlink()]
    checks.that(len(files) == len(sums.splitlines()), "each file has a sum")
    for path in files:
        checks.that(path.stat().st_size or path.name == "__init__.py", f"{path.name} is not empty")
        if path.suffix == ".gz":
            checks.that(subprocess.run(["gzip", "-t", path], check=False).returncode == 0, f"{path.name} is whole")
    for path in sorted((tree / "usr/bin").iterdir()):
        checks.that(path.stat().st_mode & stat.S_IXUSR, f"{path.name} can be run")
        checks.that((tree / f"usr/share/man/man1/{path.name}.1.gz").exists(), f"{path.name} has a manual page")
        checks.that((tree / f"usr/share/bash-completion/completions/{path.name}").exists(), f"{path.name} has a completion")
    for path in tree.rglob("*.py"):
        try:
            compile(path.read_text(), path.name, "exec")
        except SyntaxError as error:
            checks.that(False, f"{path.name}: {error}")


def check_versions(checks, tree, fields):
    """Each program says the number of VERSION, which the version of the package begins with; and the help of each begins as it should."""
    version = (TOP / "VERSION").read_text().strip()
    checks.that(fields["Version"].split("+")[0] == version, "the version of the package is that of VERSION")
    for path in sorted((tree / "usr/bin").glob("reraid*")):
        checks.that(output(path, "--version").strip() == f"{path.name} {version}", f"{path.name} --version")
        checks.that("usage:" in output(path, "--help"), f"{path.name} --help")
    for page in (tree / "usr/share/man/man1").iterdir():
        text = gzip.decompress(page.read_bytes()).decode()
        checks.that(f'"reraid {version}"' in text, f"{page.name} has the version")
        for name in re.findall(r"(?:docs/)?[\w\\-]+\.md", text):
            checks.that((tree / "usr/share/doc/reraid" / name.replace("\\", "")).exists(), f"{name} of {page.name} is there")


def check_libraries(checks, tree, fields):
    """The libraries of the programs belong to libc6 alone, whose version is said."""
    for path in [*sorted((tree / "usr/bin").iterdir()), tree / "usr/libexec/reraid/reraid-nbd"]:
        if path.read_bytes()[:4] != b"\x7fELF":
            continue
        for line in output("ldd", path).splitlines():
            if "=>" not in line:
                continue
            name = line.split("=>")[1].split()[0]
            checks.that("libc6:" in output("dpkg", "-S", name), f"{name} of {path.name} belongs to libc6")
    checks.that("libc6 (>= " in fields["Depends"], "libc6 has its version")


def check_completions(checks, tree):
    """What the completion offers at the end of some lines."""
    script = tree / "usr/share/bash-completion/completions/reraid"
    run = ('source "$1"; compopt() { :; }; COMP_LINE=$2 COMP_POINT=${#2}; name=${2%% *}; '
           '"_${name//-/_}"; printf "%s\\n" "${COMPREPLY[@]}"')
    for line, wanted in COMPLETIONS:
        got = output("bash", "-c", run, "bash", script, line).split()
        got = got[:1] if got[:1] == ["expected:"] else got
        checks.that(got == wanted, f"completion of `{line}`: {got}")


def first_listing(tree, every):
    """The commands of README up to the end of its first listing, by the programs of the tree; those after it too if asked for."""
    page = TOP / "README.md"
    found = as_printed.commands(page, ["$ "])
    last = next(place for place, (_, command, _) in enumerate(found) if command[0].startswith("reraid-try "))
    found = found if every else found[: last + 1]
    examples = tree / "usr/share/doc/reraid/examples"
    first = f"export PATH={tree}/usr/bin:{examples}:/usr/local/bin:/usr/bin:/bin:/usr/sbin:/sbin"
    return [(found[0][0], [first], [])] + found[1:]


def check_listing(checks, tree, every):
    """Runs these commands, in an empty folder."""
    found = first_listing(tree, every)
    for (number, command, wanted), got in zip(found, as_printed.run(found)):
        checks.that(got.splitlines() == wanted, f"README.md:{number}: {command[0]}\n--- the page has\n" + "\n".join(wanted) + f"\n--- and it prints\n{got}")


def main(words):
    checks = Checks()
    with tempfile.TemporaryDirectory() as folder:
        os.chmod(folder, 0o755)
        package = output(TOP / "bench/making/deb.sh", folder, stderr=subprocess.DEVNULL).strip()
        twice = pathlib.Path(package).read_bytes()
        output(TOP / "bench/making/deb.sh", folder, stderr=subprocess.DEVNULL)
        checks.that(twice == pathlib.Path(package).read_bytes(), "the package is the same when it is made again")
        tree = pathlib.Path(folder) / "tree"
        output("dpkg", "-x", package, tree)
        fields = check_fields(checks, package)
        check_owners(checks, package)
        check_files(checks, tree, output("dpkg-deb", "--info", package, "md5sums"))
        check_versions(checks, tree, fields)
        check_libraries(checks, tree, fields)
        check_completions(checks, tree)
        check_listing(checks, tree, "--all" in words)
        print(f"{os.path.basename(package)}, {os.path.getsize(package) >> 10} KiB: {checks.done} checks, {checks.failed} not as they should be")
    return checks.failed > 0


if __name__ == "__main__":
    if set(sys.argv[1:]) - {"--all"}:
        sys.exit(__doc__)
    sys.exit(main(sys.argv[1:]))
