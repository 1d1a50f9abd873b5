"""Tests of the reading lists, with crates made by hand."""

import pathlib
import tempfile
import unittest

import reading_list
from reading_list import House, Key, Scope, lines_by_row, program_of, tokens

TOP = """\
//! The top call.
ghost use Rattle.std.specs.Prelude.{IfSome};
ghost use Rattle.reraid_cli.specs.Answers.{output as answer, Bound};

/// A comment that names Bound.
pub fn reraid<R: Sync>(words: &[Word]) -> u8
    requires fresh { IfSome words }
    // Another comment.
    ensures printed { result ≡ 0 →
        IfSome (answer words) (λ text. text) }
    ensures reads { Bound words }
{
    run(words)
}
"""
ANSWERS = """\
-- What a run answers.
use Rattle.std.specs.Prelude.{ℕ,
  Result}
use Rattle.command_words.specs.declared.command.Command.{Command}
use Rattle.command_words.specs.declared.command.Command.TheVariants.{Write, List as ListCommand}
use Rattle.jobs.specs.Jobs.{Job, listing, volume}
use Rattle.jobs.specs.Kinds.{few}

-- what a run prints
abbrev pub output : Command → Job
output (ListCommand size) = listing size
output (Write set) =
    volume set

pub record Bound (words : ℕ) : Type 0 where
  pub few : few words
"""
COMMAND = """\
//! The commands.
use jobs::Size;

/// A command.
#[derive(Drop)]
pub enum Command {
    /// Pages.
    List(Size),
    Write {
        set: u8,
    },
}

/// The first word.
pub enum Verb {
    List,
    /// A constructor with the name of a type.
    Write(Command),
    Size,
}

pub(crate) const MOST: usize = 3;
"""
JOBS = """\
use Rattle.jobs.specs.Lines.{line, text, size}
use Rattle.command_words.specs.declared.command.TheConstants.{MOST}

pub record Job : Type 0 where
  pub printed : ℕ
  pub early : ℕ

abbrev pub listing : ℕ → Job
listing size = record {
  printed = line size.text;
  early = refusal size;
}

abbrev pub refusal : ℕ → ℕ
refusal n = MOST

abbrev pub volume : ℕ → Job
volume set = listing set
"""
LINES = """\
pub use Rattle.jobs.specs.Kinds.{few, Some}

-- a line, of which nothing is said

abbrev pub line : ℕ → ℕ
line n = few n Some

abbrev pub text : ℕ
text = 1

abbrev pub size : ℕ
size = 2
"""
KINDS = """\
pub data Kind : Type 0 where
  None : Kind
  Some : ℕ → Kind

-- `codes "--"` is no comment
abbrev pub few : ℕ → Kind
few n = codes "-- few" Some   -- but this is one
"""
SIZE = "pub struct Size(pub u64);\n"
FILES = {
    "reraid_cli/src/top.rt": TOP,
    "reraid_cli/specs/Answers.antt": ANSWERS,
    "command_words/src/command.rt": COMMAND,
    "jobs/specs/Jobs.antt": JOBS,
    "jobs/specs/Lines.antt": LINES,
    "jobs/specs/Kinds.antt": KINDS,
    "jobs/src/size.rt": SIZE,
}


class Made(unittest.TestCase):
    """A test over the crates made here."""

    def setUp(self) -> None:
        """Make a folder with the crates."""
        folder = tempfile.TemporaryDirectory()
        self.addCleanup(folder.cleanup)
        self.top = pathlib.Path(folder.name)
        for name, text in FILES.items():
            path = self.top / "crates" / name
            path.parent.mkdir(parents=True, exist_ok=True)
            path.write_text(text, encoding="utf-8")


class Lists(Made):
    """What is followed and counted."""

    def read(self, command: str, scope: Scope = Scope.CONTRACT) -> list[tuple[str, int]]:
        """Return the names and lines of a list, in its order."""
        return [(it.key.name, it.lines) for it in reading_list.reading_list(House(self.top), program_of(command), scope)]

    def test_order_and_lines(self) -> None:
        """Each name is followed at once: types and constants too, renamed names, constructors and names that a file passes on."""
        self.assertEqual(self.read("list"), [("output", 2), ("Command", 2), ("Size", 1), ("Job", 3), ("listing", 4), ("line", 2), ("few", 2),
                                             ("Kind", 3), ("refusal", 2), ("MOST", 1), ("Bound", 2)])

    def test_clauses_of_another_command(self) -> None:
        """A clause of another command is neither followed nor counted, and neither is its constructor."""
        self.assertEqual(self.read("write")[:4], [("output", 3), ("Command", 3), ("Job", 3), ("volume", 2)])

    def test_scopes(self) -> None:
        """A scope leaves out postconditions, or fields of records and what only they name."""
        self.assertEqual(self.read("list", Scope.UNBOUNDED), self.read("list")[:-1])
        printed = [("output", 2), ("Command", 2), ("Size", 1), ("Job", 2), ("listing", 3), ("line", 2), ("few", 2), ("Kind", 3)]
        self.assertEqual(self.read("list", Scope.PRINTED), printed)

    def test_file(self) -> None:
        """A definition stands with the file in which it is, also if another passes its name on."""
        files = {it.key.name: it.key.file for it in reading_list.reading_list(House(self.top), program_of("list"), Scope.PRINTED)}
        self.assertEqual(files["few"], "crates/jobs/specs/Kinds.antt")
        self.assertEqual(files["Size"], "crates/jobs/src/size.rt")

    def test_constructors_of_sources(self) -> None:
        """In a source a constructor's name leads nowhere, but the types in it do."""
        source = House(self.top).source("crates/command_words/src/command.rt")
        self.assertEqual([key.name for key in reading_list.meant(source, source.parts["Verb"][2:3])], ["Command"])
        self.assertEqual([key.name for key in reading_list.meant(source, source.parts["Command"][1:])], ["Size"])

    def test_commands(self) -> None:
        """What can be asked for are the verbs and the server."""
        self.assertEqual(reading_list.commands(House(self.top)), {"list", "write", "size", "server"})

    def test_totals(self) -> None:
        """The sums are definitions, files and lines."""
        reads = reading_list.reading_list(House(self.top), program_of("list"), Scope.CONTRACT)
        self.assertEqual(reading_list.sums(reads), "11 / 6 / 24")


class Names(unittest.TestCase):
    """Which names a text has."""

    def test_tokens(self) -> None:
        """Names that the text binds, fields after a dot, keys and quoted text are none."""
        self.assertEqual(tokens("f (x : Kind) × x"), ("f", "Kind"))
        self.assertEqual(tokens("map (λ a b. g a.h b) xs"), ("map", "g", "xs"))
        self.assertEqual(tokens("  pub key : Kind"), ("Kind",))
        self.assertEqual(tokens("record { key = k; other = o }"), ("record", "k", "o"))
        self.assertEqual(tokens('codes "word" ++ it\'s'), ("codes", "it's"))


class Rows(unittest.TestCase):
    """How lines are divided among the rows of the page."""

    def reads(self) -> list[reading_list.Read]:
        """Return a list in which a leads to b and c, b to d, c to d, and e stands alone."""
        keys = {name: Key("crates/x/specs/X.antt", name) for name in "abcde"}
        leads = {"a": "bc", "b": "d", "c": "d", "d": "", "e": ""}
        return [reading_list.Read(keys[name], 10 ** n, tuple(keys[it] for it in leads[name])) for n, name in enumerate("abcde")]

    def test_lines_by_row(self) -> None:
        """What a term leads to is its row's, but not another row's terms, and nothing counts twice."""
        a, c = (Key("crates/x/specs/X.antt", name) for name in "ac")
        counts, rest = lines_by_row(self.reads(), [[a], [c]])
        self.assertEqual(counts, [1011, 100])
        self.assertEqual([key.name for key in rest], ["e"])

    def test_terms(self) -> None:
        """A row names definitions as on other pages."""
        self.assertEqual(reading_list.terms_of("| 1 | word | `x/X`: `a`, `c`; `y/Y`: `d`"),
                         [Key("crates/x/specs/X.antt", "a"), Key("crates/x/specs/X.antt", "c"), Key("crates/y/specs/Y.antt", "d")])

    def test_rows_of_the_page(self) -> None:
        """A row ends with two numbers or dashes."""
        text = "| 1 | word | `x/X`: `a` | 1,234 | – |\n| a | b | c |\n"
        self.assertEqual(reading_list.ROW.findall(text), [("| 1 | word | `x/X`: `a`", "1,234", "–")])


class Page(Made):
    """The numbers of the page."""

    OLD = "| 1 | answer | `reraid_cli/Answers`: `output` | 1 | 2 |\n| 2 | line | `jobs/Lines`: `line` | – | – |\n\nend\n"
    NEW = "| 1 | answer | `reraid_cli/Answers`: `output` | 10 | 13 |\n| 2 | line | `jobs/Lines`: `line` | 7 | 7 |\n\nend\n"

    def test_numbers(self) -> None:
        """Numbers are written anew, and lines with others are found."""
        house = House(self.top)
        self.assertEqual(reading_list.with_numbers(house, self.OLD), self.NEW)
        self.assertEqual(len(reading_list.compared(house, self.OLD)), 3)
        self.assertEqual(reading_list.compared(house, self.NEW), [])

    def test_missing_row(self) -> None:
        """A definition to which no row leads is an error."""
        with self.assertRaises(SystemExit):
            reading_list.with_numbers(House(self.top), "| 1 | line | `jobs/Lines`: `line` | – | – |\n")


if __name__ == "__main__":
    unittest.main()
