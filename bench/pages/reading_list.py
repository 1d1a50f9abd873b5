#!/usr/bin/env python3
"""Print the definitions that a reader meets if he follows names from the contract of a program down.

    bench/pages/reading_list.py COMMAND..                      the names, their files and lines, and the sums
    bench/pages/reading_list.py --scope printed COMMAND..      only what the postcondition `printed` names, without refusals and reads
    bench/pages/reading_list.py --scope unbounded COMMAND..    all but the maximum of what is read
    bench/pages/reading_list.py --totals                       the sums of `list`, `write` and the server
    bench/pages/reading_list.py --compare                      the differences from the numbers of docs/PROMISES.md; status 1 if there is one
    bench/pages/reading_list.py --update                       writes the numbers into docs/PROMISES.md

A COMMAND is one of `reraid`, such as `list`, or `server`: that of `reraid_nbd`. Names lead by the `use` lines of a file to specs/*.antt, and from
`declared` modules to the types and constants of src/*.rt. What Rattle's library and other crates of the kit define is not followed. Lines are
those of signatures, clauses and types, without comments, `use` lines and lines that only close a bracket. The contract's own lines do not count.

A clause for another constructor of `Command` or `Verb` is neither followed nor counted. These are not told apart, so a list may be too long:

- clauses by the name or the kind of an operand
- the arguments of a function, as refusals among those of `textless`; only fields of a record are left out by a scope

A list is too short in two cases. It does not have the meaning of traits (`I.seen`, `K.gained`) and of `Model` instances. And a refused argument is
refused by the grammar of all commands, of which a list has only that of its own.
"""

import argparse
import dataclasses
import enum
import functools
import pathlib
import re
import sys
from collections.abc import Iterable, Iterator

TOP = pathlib.Path(__file__).resolve().parents[2]
USE = re.compile(r"^ *(?:ghost |pub )?use Rattle\.(\w+)\.specs\.([\w.]+)\.\{(.*?)\};?$", re.M | re.S)
RUST_USE = re.compile(r"^use (\w+)((?:::\w+)*)(?:::\{(.*?)\})?;$", re.M | re.S)
REEXPORT = re.compile(r"^pub use Rattle\.(\w+)\.specs\.([\w.]+)$", re.M)
HEAD = re.compile(r"(?:abbrev |unfoldable )?(?:pub )?(record |data )?([^\s:({]+)")
FIELD = re.compile(r"  (?:pub )?(\w+) [=:] ")
RUST_HEAD = re.compile(r"pub(?:\(crate\))? (?:struct|enum|const) (\w+)")
VARIANT = re.compile(r"    (\w+)\b(?!:)")
DATA = re.compile(r"^(?:pub )?data (\S+) .*\n((?:  .*\n?)+)", re.M)
CLAUSE = re.compile(r" +(?:requires|ensures)\*? (?:(\w+) )?\{")
# A row of the page: its number, term and definitions; and its lines for `list` and for `write`.
ROW = re.compile(r"^(\| \d+ \|.*) \| ([\d,–]+) \| ([\d,–]+) \|$", re.M)
NAMED = re.compile(r"`(\w+)/(\w+)`: (`\w+`(?:, `\w+`)*)")
TOTALS_HEAD = "| definitions / files / lines | contract | without `reads` | only `printed` |"
TOTALS = re.compile(re.escape(TOTALS_HEAD) + r"\n(?:\|.*\n)+")
PAGE = "docs/PROMISES.md"
# A line of these alone does not count.
CLOSING = " }]);,"
NEVER = re.compile(r"(?!)")
TOKEN = re.compile(r"(?<![\w.'])[^\W\d][\w']*")
# Names that a text binds: of λ and of (name : type).
BOUND = re.compile(r"λ ([^.]*)\.|[({]([\w' ]+) : ")
COMMENT = re.compile(r"(?:^| +)(?:--|//).*$|^ *#!?\[.*\]$", re.M)


class Scope(enum.Enum):
    """How much of a contract is followed."""

    CONTRACT = "contract"
    UNBOUNDED = "unbounded"
    PRINTED = "printed"


# By scope: the postconditions that are followed, all if there is none; those that are not; and the fields of a job that are not.
CLAUSES: dict[Scope, frozenset[str]] = {Scope.CONTRACT: frozenset(), Scope.UNBOUNDED: frozenset(), Scope.PRINTED: frozenset(("printed",))}
NO_CLAUSES: dict[Scope, frozenset[str]] = {Scope.CONTRACT: frozenset(), Scope.UNBOUNDED: frozenset(("reads",)), Scope.PRINTED: frozenset()}
NO_FIELDS: dict[Scope, frozenset[str]] = {
    Scope.CONTRACT: frozenset(),
    Scope.UNBOUNDED: frozenset(("MayRead",)),
    Scope.PRINTED: frozenset(("MayRead", "early", "refused", "further")),
}


@dataclasses.dataclass(frozen=True)
class Key:
    """A definition: its file, as `crates/NAME/..`, and its name there."""

    file: str
    name: str


@dataclasses.dataclass(frozen=True)
class Variant:
    """A constructor of a type."""

    owner: Key
    name: str


@dataclasses.dataclass(frozen=True)
class Part:
    """A signature, a clause, a field or a constructor: its lines, the names in it, those of its pattern, and the field that it states."""

    lines: int
    names: tuple[str, ...]
    pattern: frozenset[str] = frozenset()
    field: str = ""


@dataclasses.dataclass(frozen=True)
class Source:
    """A file: its definitions in parts, and what its other names mean."""

    parts: dict[str, list[Part]]
    names: dict[str, Key]
    variants: dict[str, Variant]


@dataclasses.dataclass(frozen=True)
class Program:
    """A contract: the crate and the function, and the command whose clauses are followed."""

    crate: str
    function: str
    commands: frozenset[str]

    @property
    def file(self) -> str:
        """Return the file of the contract."""
        return f"crates/{self.crate}/src/top.rt"


@dataclasses.dataclass(frozen=True)
class Read:
    """A definition that a reader meets, how many of its lines he reads, and which definitions they name."""

    key: Key
    lines: int
    leads: tuple[Key, ...]


# The types by whose constructors clauses are told apart.
BY_COMMAND = (Key("crates/command_words/src/command.rt", "Command"), Key("crates/command_words/src/command.rt", "Verb"))
SERVER = Program("reraid_nbd_cli", "reraid_nbd", frozenset(("write", "mirrorwrite")))


def program_of(command: str) -> Program:
    """Return the contract to follow for a word of the command line."""
    return SERVER if command == "server" else Program("reraid_cli", "reraid", frozenset((command,)))


def commands(house: "House") -> set[str]:
    """Return what can be asked for: the commands that are verbs, and the server."""
    verbs = house.source(BY_COMMAND[1].file).parts[BY_COMMAND[1].name]
    return {name.lower() for part in verbs for name in part.pattern} | {"server"}


def tokens(text: str, also_bound: Iterable[str] = ()) -> tuple[str, ...]:
    """Return the names of a text in its order, without those that it binds, its fields after a dot and the keys of its records.

    >>> tokens("λ a b. f a (x : Kind) × g.h × record { key = k; other = o }")
    ('f', 'Kind', 'g', 'record', 'k', 'o')
    """
    bound = {name for groups in BOUND.findall(text) for name in " ".join(groups).split()} | set(also_bound)
    keyless = re.sub(r"([{;]\s*)\w+ = ", r"\1", re.sub(r"(?m)^  (?:pub )?\w+ [=:] ", "", text))
    unquoted = re.sub(r'"[^"]*"', "", keyless)
    return tuple(name for name in dict.fromkeys(TOKEN.findall(unquoted)) if name not in bound | {"λ"})


def part_of(lines: list[str], field: str = "", pattern: str = "") -> Part:
    """Return the part that some lines are; lower-case names of the pattern are variables."""
    named = frozenset(TOKEN.findall(pattern))
    names = tokens("\n".join(lines), (name for name in named if name[0].islower()))
    return Part(sum(1 for line in lines if line.strip(CLOSING)), names, named, field)


def pieces(lines: list[str], start: re.Pattern[str]) -> Iterator[list[str]]:
    """Yield the lines in pieces, each but the first from a line that matches."""
    piece: list[str] = []
    for line in lines:
        if piece and start.match(line):
            yield piece
            piece = []
        piece.append(line)
    if piece:
        yield piece


def clause_parts(lines: list[str]) -> Iterator[Part]:
    """Yield the parts of a signature or an equation: one, or of a record's fields one each."""
    pattern = " ".join(lines).partition(" = ")[0].partition(" ")[2] if " : " not in lines[0].partition(" = ")[0] else ""
    if not lines[0].endswith(" record {"):
        yield part_of(lines, pattern=pattern)
        return
    for piece in pieces(lines, FIELD):
        field = FIELD.match(piece[0])
        yield part_of(piece, field[1] if field else "", pattern)


def parts_of(text: str) -> dict[str, list[Part]]:
    """Return the definitions of a text without comments and `use` lines, by name."""
    found: dict[str, list[Part]] = {}
    for piece in pieces(text.splitlines(), re.compile(r"[^\s}\])]")):
        head = HEAD.match(piece[0])
        if not head or piece[0].startswith(("pub mod ", "pub use ", "use ", "unfolding ")):
            continue
        parts = found.setdefault(head[2], [])
        if head[1]:
            for inner in pieces(piece, re.compile(r"  \w")):
                field = FIELD.match(inner[0]) if inner is not piece else None
                parts.append(part_of(inner, field[1] if field else ""))
        else:
            parts.extend(clause_parts(piece))
    return found


def rust_parts(text: str) -> dict[str, list[Part]]:
    """Return the types and constants of a source without comments, by name; each variant of an enum is a part of its own."""
    found = {}
    for piece in pieces(text.splitlines(), re.compile(r"\S")):
        head = RUST_HEAD.match(piece[0])
        if not head:
            continue
        split = VARIANT if " enum " in piece[0] else NEVER
        found[head[1]] = [part_of(inner, pattern=rust_pattern(inner[0], split)) for inner in pieces(piece, split)]
    return found


def rust_pattern(line: str, variant: re.Pattern[str]) -> str:
    """Return the variant that a line begins, if it does."""
    match = variant.match(line)
    return match[1] if match else ""


def imported(names: str) -> Iterator[tuple[str, str]]:
    """Yield the names between the braces of a `use` line: the name here, and that there."""
    for name in re.split(r",\s*", names.strip()):
        there, _, here = name.strip().partition(" as ")
        if there:
            yield here or there, there


@dataclasses.dataclass(frozen=True)
class House:
    """The crates below a folder."""

    top: pathlib.Path

    @functools.cache
    def text(self, file: str) -> str:
        """Return the text of a file without comments."""
        return COMMENT.sub("", (self.top / file).read_text(encoding="utf-8"))

    @functools.cache
    def declared(self, crate: str) -> dict[str, str]:
        """Return the types and constants of a crate's sources: of each name its file."""
        files = [str(path.relative_to(self.top)) for path in sorted((self.top / "crates" / crate / "src").glob("**/*.rt"))]
        return {name: file for file in files for name in rust_parts(self.text(file))}

    def module(self, crate: str, path: str) -> str | None:
        """Return the file of a module of definitions, if it is one of this house."""
        file = f"crates/{crate}/specs/{path.replace('.', '/')}.antt"
        if (self.top / file).exists():
            return file
        library = f"crates/{crate}/specs/Lib.antt"
        others = REEXPORT.findall(self.text(library)) if (self.top / library).exists() else []
        return next((self.module(other, there) for other, there in others if there == path), None)

    def meaning(self, crate: str, path: str, name: str) -> Key | Variant | None:
        """Return what a name of a module is: a definition, a constructor, or None if it is not of this house."""
        steps = path.split(".")
        if steps[0] == "declared":
            owner = steps[-2] if steps[-1] == "TheVariants" else name
            file = self.declared(crate).get(owner)
            key = Key(file, owner) if file else None
            return Variant(key, name) if key and steps[-1] == "TheVariants" else key
        if file := self.module(crate, path):
            there = self.source(file)
            return there.variants.get(name) or there.names.get(name)
        file = self.module(crate, ".".join(steps[:-1]))
        return Variant(Key(file, steps[-1]), name) if file else None

    def rust_names(self, file: str) -> dict[str, Key]:
        """Return what the names of a source mean that it takes from crates of this house."""
        own, found = file.split("/")[1], {}
        for crate, path, names in RUST_USE.findall(self.text(file)):
            there = self.declared(own if crate == "crate" else crate)
            for here, name in imported(names or path.rpartition("::")[2]):
                if name in there:
                    found[here] = Key(there[name], name)
        return found

    @functools.cache
    def source(self, file: str) -> Source:
        """Return a file of definitions or types."""
        text = self.text(file)
        rust = file.endswith(".rt")
        parts = rust_parts(text) if rust else parts_of(USE.sub("", text))
        names = self.rust_names(file) if rust else {}
        variants = {} if rust else {name: Variant(Key(file, owner), name) for owner, name in constructors(text)}
        if rust:
            variants = {name: Variant(Key(file, owner), name) for owner, them in parts.items() for part in them for name in part.pattern}
        for crate, path, listed in USE.findall(text):
            for here, there in imported(listed):
                meant = self.meaning(crate, path, there)
                if isinstance(meant, Key):
                    names[here] = meant
                elif meant:
                    variants[here] = meant
        # In Rust a constructor is not named without its type.
        names |= ({} if rust else {name: it.owner for name, it in variants.items()}) | {name: Key(file, name) for name in parts}
        return Source(parts, names, variants)


def constructors(text: str) -> Iterator[tuple[str, str]]:
    """Yield the constructors that a file of definitions declares, each after its type."""
    for owner, body in DATA.findall(text):
        for name in re.findall(r"^  (\w+) :", body, re.M):
            yield owner, name


def clauses(house: House, program: Program, scope: Scope) -> Iterator[Part]:
    """Yield the clauses of a contract that are followed."""
    lines = house.text(program.file).splitlines()
    first = next(n for n, line in enumerate(lines) if line.startswith(f"pub fn {program.function}<"))
    last = next(n for n in range(first, len(lines)) if lines[n] == "{")
    for piece in pieces(lines[first:last], CLAUSE):
        head = CLAUSE.match(piece[0])
        wanted = CLAUSES[scope]
        if head and (head[1] in wanted if wanted else head[1] not in NO_CLAUSES[scope]):
            yield part_of([CLAUSE.sub("", piece[0]), *piece[1:]])


def is_kept(source: Source, part: Part, program: Program, scope: Scope) -> bool:
    """Whether a part counts: no field that the scope leaves out, and no clause of another command."""
    others = (source.variants[name] for name in part.pattern if name in source.variants)
    return part.field not in NO_FIELDS[scope] and all(it.owner not in BY_COMMAND or it.name.lower() in program.commands for it in others)


def meant(source: Source, parts: Iterable[Part]) -> tuple[Key, ...]:
    """Return the definitions that some parts of a file name, in their order."""
    return tuple(dict.fromkeys(source.names[name] for part in parts for name in part.names if name in source.names))


def reading_list(house: House, program: Program, scope: Scope) -> list[Read]:
    """Return the definitions that a reader meets, in the order in which he meets them if he follows each name at once."""
    found: dict[Key, Read] = {}
    waiting = list(reversed(meant(house.source(program.file), clauses(house, program, scope))))
    while waiting:
        key = waiting.pop()
        if key in found:
            continue
        source = house.source(key.file)
        kept = [part for part in source.parts[key.name] if is_kept(source, part, program, scope)]
        found[key] = Read(key, sum(part.lines for part in kept), meant(source, kept))
        waiting += reversed(found[key].leads)
    return list(found.values())


def sums(reads: list[Read]) -> str:
    """Return how many definitions, files and lines there are."""
    return f"{len(reads):,} / {len({it.key.file for it in reads}):,} / {sum(it.lines for it in reads):,}"


def totals(house: House) -> str:
    """Return the table of the sums of both programs."""
    lines = [TOTALS_HEAD, "|---|---|---|---|"]
    for command in ("list", "write", "server"):
        scopes = [Scope.CONTRACT] if command == "server" else list(Scope)
        cells = [sums(reading_list(house, program_of(command), scope)) for scope in scopes] + ["–"] * len(Scope)
        lines.append(f"| {'server' if command == 'server' else f'`{command}`'} | {' | '.join(cells[:len(Scope)])} |")
    return "\n".join(lines) + "\n"


def lines_by_row(reads: list[Read], rows: list[list[Key]]) -> tuple[list[int], list[Key]]:
    """Return how many lines belong to each row of terms, and the definitions that belong to none.

    To a row belong its terms and what they lead to, without what leads there only by a term of another row, and what an earlier row has.
    """
    terms = {key for row in rows for key in row}
    left = {it.key: it for it in reads}
    counts = []
    for row in rows:
        waiting, count = list(row), 0
        while waiting:
            if it := left.pop(waiting.pop(), None):
                count += it.lines
                waiting += [key for key in it.leads if key not in terms]
        counts.append(count)
    return counts, list(left)


def terms_of(row: str) -> list[Key]:
    """Return the definitions that a row names as `crate/File`: `name`, `name`."""
    return [Key(f"crates/{crate}/specs/{file}.antt", name) for crate, file, names in NAMED.findall(row) for name in re.findall(r"\w+", names)]


def with_numbers(house: House, text: str) -> str:
    """Return the text of the page with the numbers of today."""
    rows = ROW.findall(text)
    columns = []
    for command in ("list", "write"):
        counts, rest = lines_by_row(reading_list(house, program_of(command), Scope.PRINTED), [terms_of(row) for row, _, _ in rows])
        if rest:
            sys.exit(f"no row of the table leads to {', '.join(f'{key.file}: {key.name}' for key in rest)}")
        columns.append(iter(counts))
    text = ROW.sub(lambda row: f"{row[1]} | {next(columns[0]) or '–'} | {next(columns[1]) or '–'} |", text)
    return TOTALS.sub(lambda table: totals(house), text)


def compared(house: House, text: str) -> list[str]:
    """Return the lines of the page that have other numbers than today's, and the remedy."""
    pairs = zip(text.splitlines(), with_numbers(house, text).splitlines(), strict=True)
    found = [f"{PAGE}: {line}\n  today: {today}" for line, today in pairs if line != today]
    return found + ["bench/pages/reading_list.py --update writes these numbers"] * bool(found)


def listed(house: House, command: str, scope: Scope) -> str:
    """Return the reading list of a command and its sums."""
    reads = reading_list(house, program_of(command), scope)
    lines = [f"{it.lines:4}  {it.key.file.removeprefix('crates/'):44} {it.key.name}" for it in reads]
    return "\n".join([*lines, f"{command}, {scope.value}: {sums(reads)} definitions / files / lines"])


def main(words: list[str]) -> int:
    """Print what is asked for; return the exit status."""
    parser = argparse.ArgumentParser(description=__doc__, formatter_class=argparse.RawDescriptionHelpFormatter)
    parser.add_argument("--scope", type=Scope, default=Scope.CONTRACT)
    parser.add_argument("command", nargs="*")
    for name in ("--totals", "--compare", "--update"):
        parser.add_argument(name, action="store_true")
    asked = parser.parse_args(words)
    house, page = House(TOP), TOP / PAGE
    if unknown := sorted(set(asked.command) - commands(house)):
        parser.error(f"no command: {', '.join(unknown)}; known are {', '.join(sorted(commands(house)))}")
    if asked.totals:
        print(totals(house), end="")
    if asked.update:
        page.write_text(with_numbers(house, page.read_text(encoding="utf-8")), encoding="utf-8")
    for command in asked.command:
        print(listed(house, command, asked.scope))
    old = compared(house, page.read_text(encoding="utf-8")) if asked.compare else []
    if asked.compare:
        print("\n".join(old) or f"{PAGE} has the numbers of today's reading lists")
    return 1 if old else 0


if __name__ == "__main__":
    sys.exit(main(sys.argv[1:]))
