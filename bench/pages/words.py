#!/usr/bin/env python3
"""Count, in all pages and messages, what makes them hard to read.

    bench/pages/words.py [NAME..]           print the counts of all texts, or of those whose names contain a NAME
    bench/pages/words.py --show NAME..      print each place that counts, with a plain word for each private one
    bench/pages/words.py --compare          print the counts; end with status 1 if a text is above its limits
    bench/pages/words.py --limits           print a new table of limits: the counts of the texts above the final limits

The texts are the pages, the manual pages, the help texts, the messages of the Python modules and scripts, and the report page (casefile).
Code does not count. The columns are: words (of pages), sentences, sentences over 25 and over 35 words, sentences that open with a preposition or
a participle, "where", "if", and private words. The final limits: at most 5% of the sentences over 25 words, none over 35, no more "where" than
"if", no private word. bench/pages/word-limits.txt has the limits of the texts that do not meet them yet.
"""

import dataclasses
import functools
import os
import pathlib
import re
import subprocess
import sys
from collections.abc import Callable, Iterator

import prose
from private_words import FIXED, PRIVATE
from texts import as_block
from texts import texts as printed_texts

TOP = pathlib.Path(__file__).resolve().parents[2]
LIMITS = TOP / "bench/pages/word-limits.txt"
LIMITS_HEAD = """\
# The texts that do not meet the final limits of words.py yet, with the counts that they must not exceed. A text that is not here has to meet the
# final limits. `bench/pages/words.py --limits` prints this table anew: counts may fall, and must not rise.
"""
LONG, TOO_LONG = 25, 35
LONG_PERCENT = 5
# Maximum number of words of all pages.
MAX_WORDS = 42_000
HEAD = ("text", "words", "sentences", "over25", "over35", "opening", "where", "if", "private")
# Not for "if": "where" after a place, or after a verb that takes an indirect question.
PLACES = """place places folder folders directory directories line lines row rows sector sectors offset position positions point points machine page
    pages know knows known see sees show shows shown say says tell tells told find finds found of on from exactly just decide decides ask asks records
    depends report reports state states print prints and""".split()
PREPOSITIONS = """about above across after against along among around as at before behind below beside besides between beyond by despite during
    except for from in inside into near of off on onto out outside over past since through throughout toward under until up upon via with within
    without""".split()
NO_PARTICIPLE = ("nothing", "something", "anything", "everything", "during", "string", "rating", "meaning", "need", "speed", "seed", "feed", "red")
# A word in "-ed" opens a sentence as a participle if one of these follows it.
AFTER_PARTICIPLE = (*PREPOSITIONS, "is", "are", "was", "were", "to")


@dataclasses.dataclass(frozen=True)
class Hit:
    """A place that counts: its line, what counts there, and the sentence."""

    line: int
    what: str
    text: str


@dataclasses.dataclass(frozen=True)
class Counts:
    """What was counted in one text; `words` is 0 unless it is a page."""

    words: int
    sentences: int
    over25: int
    over35: int
    opening: int
    where: int
    if_: int
    private: int

    @property
    def limited(self) -> tuple[int, int, int, int]:
        """Return the counts that have limits."""
        return self.over25, self.over35, self.where - self.if_, self.private

    @property
    def final(self) -> tuple[int, int, int, int]:
        """Return the final limits of these."""
        return self.sentences * LONG_PERCENT // 100, 0, 0, 0


def without_code(text: str) -> str:
    """Replace what is typed or printed as it is: options, operands, paths, names in capitals, words with digits or underscores;
    numbers stay."""
    code = r"-\S+|\S*[=_/<>{}|\d]\S*|[A-Z][A-Z_.-]+[a-z]{0,2}"
    return re.sub(rf"(?<!\S)[\"'(\[]*(?![\d,.]+(?:\s|$))(?:{code})(?=[\"')\],.;:]*(?:\s|$))", prose.CODE, text)


def is_opening(text: str) -> bool:
    """A sentence opens with a preposition or a participle."""
    words = re.findall(r"[A-Za-z]+(?:-[A-Za-z]+)*|,", without_code(text))[:2]
    if not words:
        return False
    first, second = words[0].lower(), words[1].lower() if len(words) > 1 else ""
    if first in PREPOSITIONS:
        return True
    if first in NO_PARTICIPLE:
        return False
    return first.endswith("ing") or first.endswith("ed") and (second == "," or second in AFTER_PARTICIPLE)


def conditional_wheres(text: str) -> int:
    """Count each "where" that stands for "if"; not that of "the folder where it lies", and not that of "where CODE is the number of chunks"."""
    found = re.findall(r"(?:([\w'-]+)\s+)?\bwhere\b(?! CODE(?:(?:,| and) CODE)* (?:is|are) (?:the|a|an|its|one)\b)", text, re.I)
    return sum(1 for before in found if before.lower() not in PLACES)


def private_hits(sentence: prose.Sentence) -> Iterator[Hit]:
    """Find the private words of a sentence."""
    text = without_code(sentence.text)
    if any(fixed.search(text) for fixed in FIXED):
        return
    for pattern, plain in PRIVATE:
        for match in pattern.finditer(text):
            yield Hit(sentence.line, f"private: {match[0]} -> {plain}", sentence.text)


def sentence_hits(sentence: prose.Sentence) -> Iterator[Hit]:
    """Find all that counts in a sentence; labels and headings count only for private words."""
    if sentence.kind is prose.Kind.TEXT:
        if sentence.words > LONG:
            yield Hit(sentence.line, f"{sentence.words} words", sentence.text)
        if is_opening(sentence.text):
            yield Hit(sentence.line, "opening", sentence.text)
        for _ in range(conditional_wheres(sentence.text)):
            yield Hit(sentence.line, "where", sentence.text)
    yield from private_hits(sentence)


def count(pieces: list[prose.Piece], words: int = 0) -> Counts:
    """Count in pieces."""
    sentences = prose.sentences(pieces)
    texts = [it for it in sentences if it.kind is prose.Kind.TEXT]
    return Counts(words, len(texts), sum(it.words > LONG for it in texts), sum(it.words > TOO_LONG for it in texts),
                  sum(is_opening(it.text) for it in texts), sum(conditional_wheres(it.text) for it in texts),
                  sum(len(re.findall(r"\bif\b", it.text, re.I)) for it in texts), sum(len(list(private_hits(it))) for it in sentences))


def page_paths() -> list[pathlib.Path]:
    """Return the pages and the manual pages."""
    return [*sorted(TOP.glob("*.md")), *sorted(TOP.glob("docs/*.md")), *sorted(TOP.glob("docs/*.1"))]


def pieces_of(path: pathlib.Path) -> list[prose.Piece]:
    """Take the pieces of a page or a manual page."""
    return (prose.manual if path.suffix == ".1" else prose.markdown)(path.read_text())


def help_pieces(name: str) -> list[prose.Piece]:
    """Take the pieces of what a program of bin prints for --help."""
    done = subprocess.run([TOP / "bin" / name, "--help"], capture_output=True, text=True, check=True, env=os.environ | {"COLUMNS": "1000"})
    return prose.help_text(done.stdout)


def module_pieces(folder: pathlib.Path) -> list[prose.Piece]:
    """Take the messages of the modules of a folder."""
    return [piece for path in sorted(folder.glob("*.py")) for piece in prose.module(path.read_text())]


def gathered() -> dict[str, Callable[[], list[prose.Piece]]]:
    """Return how the pieces of each text are taken, by its name."""
    found: dict[str, Callable[[], list[prose.Piece]]] = {}
    for path in page_paths():
        found[str(path.relative_to(TOP))] = functools.partial(pieces_of, path)
    rattle = prose.texts_of(TOP / "crates/program_texts/src/texts.rt")
    for program, name in (("reraid", "help_text"), ("reraid-nbd", "nbd_help_text")):
        found[f"{program}--help"] = functools.partial(prose.help_text, rattle[name])
    for program in ("reraid-mount", "reraid-ranges", "reraid-try"):
        found[f"{program}--help"] = functools.partial(help_pieces, program)
    for name in ("bin/reraid-mount", "bin/reraid-nbd", "bin/reraid-ranges"):
        found[name] = functools.partial(prose.script, (TOP / name).read_text())
    for package in ("reraid_try", "reraid_nbd", "reraid_words"):
        for folder in sorted({path.parent for path in (TOP / "lib" / package).rglob("*.py")}):
            found[str(folder.relative_to(TOP))] = functools.partial(module_pieces, folder)
    return found


def page_words(text: str) -> int:
    """Return the number of words of a page, with its code. A word has a letter or a digit: bars and rules of tables do not count. The texts of
    `--help` and `--version`, as FORMATS repeats them, do not count: texts.py compares them with their definitions."""
    for printed in printed_texts().values():
        text = text.replace(as_block(printed), "")
    return sum(1 for word in text.split() if any(sign.isalnum() for sign in word))


def counted(names: list[str]) -> dict[str, Counts]:
    """Count in the texts whose names contain one of these names, or in all of them."""
    found = {}
    for text, take in gathered().items():
        if not names or any(name in text for name in names):
            path = TOP / text
            found[text] = count(take(), page_words(path.read_text()) if path in page_paths() else 0)
    return found


def table(rows: list[tuple[object, ...]]) -> str:
    """Lay out rows: the first column to the left, the others to the right."""
    widths = [max(len(str(row[column])) for row in rows) for column in range(len(rows[0]))]
    return "\n".join("  ".join([str(row[0]).ljust(widths[0]), *(str(it).rjust(width) for it, width in zip(row[1:], widths[1:]))]) for row in rows)


def limits() -> dict[str, tuple[int, ...]]:
    """Read the table of limits."""
    rows = [line.split() for line in LIMITS.read_text().splitlines() if line and not line.startswith("#")]
    return {row[0]: tuple(int(it) for it in row[1:]) for row in rows}


def above(found: dict[str, Counts], held: dict[str, tuple[int, ...]]) -> list[str]:
    """Say which texts are above their limits."""
    told = []
    for name, counts in found.items():
        bounds = held.get(name, counts.final)
        told += [f"{name}: {what} {value}, at most {bound} allowed"
                 for what, value, bound in zip(("over25", "over35", "where-if", "private"), counts.limited, bounds) if value > bound]
    words = sum(counts.words for counts in found.values())
    return told + ([f"all pages: {words} words, at most {MAX_WORDS} allowed"] if words > MAX_WORDS else [])


def new_limits(found: dict[str, Counts]) -> str:
    """Return a table of limits: the counts of the texts above the final limits."""
    rows: list[tuple[object, ...]] = [("# text", "over25", "over35", "where-if", "private")]
    for name, counts in found.items():
        if any(value > bound for value, bound in zip(counts.limited, counts.final)):
            rows.append((name, *(max(value, bound) for value, bound in zip(counts.limited, counts.final))))
    return LIMITS_HEAD + table(rows)


def print_counts(found: dict[str, Counts]) -> None:
    """Print the counts of texts and their sums."""
    rows: list[tuple[object, ...]] = [HEAD, *((name, *dataclasses.astuple(counts)) for name, counts in found.items())]
    rows.append(("all", *(sum(column) for column in zip(*(dataclasses.astuple(counts) for counts in found.values())))))
    print(table(rows))


def print_hits(names: list[str]) -> None:
    """Print each place that counts in the texts whose names contain one of these."""
    for text, take in gathered().items():
        if any(name in text for name in names):
            for hit in (hit for sentence in prose.sentences(take()) for hit in sentence_hits(sentence)):
                print(f"{text}:{hit.line}: {hit.what}: {hit.text}")


def main(words: list[str]) -> int:
    """Do what the arguments request; return the exit status."""
    if words[:1] == ["--show"] and words[1:]:
        print_hits(words[1:])
        return 0
    if words == ["--limits"]:
        print(new_limits(counted([])))
        return 0
    if words != ["--compare"] and any(word.startswith("-") for word in words):
        sys.exit(__doc__)
    found = counted([] if words == ["--compare"] else words)
    if not found:
        sys.exit(f"no text with such a name; the names are: {' '.join(gathered())}")
    print_counts(found)
    told = above(found, limits()) if words == ["--compare"] else []
    print("".join(f"ABOVE THE LIMIT {it}\n" for it in told), end="")
    return 1 if told else 0


if __name__ == "__main__":
    sys.exit(main(sys.argv[1:]))
