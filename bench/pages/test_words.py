"""Tests of words.py and prose.py, with examples made by hand."""

import pathlib
import tempfile
import unittest

import prose
import words
from prose import Kind
from texts import as_block
from texts import texts as printed_texts


def texts(pieces: list[prose.Piece]) -> list[str]:
    """Return the texts of pieces."""
    return [piece.text for piece in pieces]


def counts(text: str) -> words.Counts:
    """Count in a page."""
    return words.count(prose.markdown(text))


class Pages(unittest.TestCase):
    """What of a page is prose."""

    def test_words_of_a_page_have_a_letter_or_a_digit(self) -> None:
        page = "# Two words\n\n| a | 1 |\n|---|---|\n| `-v` | - |\n\n- item\n\n    $ code\n"
        self.assertEqual(words.page_words(page), 7)

    def test_paragraph_is_joined(self) -> None:
        page = "One line\nand another.\n\nA second paragraph.\n"
        self.assertEqual(texts(prose.markdown(page)), ["One line and another.", "A second paragraph."])

    def test_quotation(self) -> None:
        self.assertEqual(texts(prose.markdown("> One line\n> and another.\n")), ["One line and another."])

    def test_code_blocks_are_dropped(self) -> None:
        page = "Type this:\n\n    $ make where tied\n    foreign\n\n```\ntied again\n```\n\nThen read.\n"
        self.assertEqual(texts(prose.markdown(page)), ["Type this:", "Then read."])

    def test_code_in_a_list_item_is_dropped(self) -> None:
        page = "1. First:\n\n       cd crates\n       rt check\n\n   Then this.\n2. Second\n   goes on.\n"
        self.assertEqual(texts(prose.markdown(page)), ["First:", "Then this.", "Second goes on."])

    def test_code_span_is_one_word(self) -> None:
        sentence = prose.sentences(prose.markdown("Run `rt check --only PATH` twice.\n"))[0]
        self.assertEqual((sentence.text, sentence.words), ("Run CODE twice.", 3))

    def test_links_and_emphasis(self) -> None:
        self.assertEqual(texts(prose.markdown("See **the** [manual](docs/a.md) for *all*.\n")), ["See the manual for all."])

    def test_list_item_has_a_label(self) -> None:
        found = prose.markdown("- **Name the disk**: it is read.\n- No label here, since this lead-in is too long: it stays.\n")
        self.assertEqual([(it.text, it.kind) for it in found],
                         [("Name the disk", Kind.LABEL), ("it is read.", Kind.TEXT),
                          ("No label here, since this lead-in is too long: it stays.", Kind.TEXT)])

    def test_cells(self) -> None:
        page = "| a | b `x|y` |\n|---|:-:|\n| one cell | another |\n"
        self.assertEqual(texts(prose.markdown(page)), ["a", "b CODE", "one cell", "another"])

    def test_heading_is_a_label(self) -> None:
        found = prose.markdown("# Use it\n\nNow.\n")
        self.assertEqual([(it.line, it.text, it.kind) for it in found], [(1, "Use it", Kind.LABEL), (3, "Now.", Kind.TEXT)])


class Sentences(unittest.TestCase):
    """Where a sentence ends."""

    def test_abbreviations_and_dots(self) -> None:
        self.assertEqual(prose.split("Take E01, E02 .. by name, e.g. CODE. CODE reads it (all of it.) Why? So."),
                         ["Take E01, E02 .. by name, e.g. CODE.", "CODE reads it (all of it.)", "Why?", "So."])

    def test_numbers_are_not_cut(self) -> None:
        self.assertEqual(prose.split("It takes 0.5 s. Then 3 s."), ["It takes 0.5 s.", "Then 3 s."])


class Manuals(unittest.TestCase):
    """What of a manual page is prose."""

    def test_requests_fonts_and_literal_text(self) -> None:
        page = (".TH A 1\n.SH NAME\na \\- b\n.nf\n\\fBtied\\fR\n.fi\nRun \\fBlist\\fR on\n.BR mdadm (8)\nof it.\n.PP\nNew.\n"
                ".TP\n\\fB\\-\\-all\\fR\nread all.\n")
        found = prose.manual(page)
        self.assertEqual([(it.text, it.kind) for it in found],
                         [("NAME", Kind.LABEL), ("a - b", Kind.TEXT), ("Run CODE on CODE of it.", Kind.TEXT), ("New.", Kind.TEXT),
                          ("CODE", Kind.LABEL), ("read all.", Kind.TEXT)])

    def test_a_bold_sentence_is_prose(self) -> None:
        self.assertEqual(prose.plain_roff("\\fBIt looks for partitions\\fR of \\fIDISK\\fR"), "It looks for partitions of CODE")


class Helps(unittest.TestCase):
    """What of a help text is prose."""

    def test_usage_and_examples_are_dropped(self) -> None:
        text = ("usage: a [-x]\n       [IMAGE]\n\nFinds a layout. It only\nreads.\n\n  -x FILE   write a page\n"
                "            to FILE\n  -y        be quiet\n      reraid list -- *.img\n")
        self.assertEqual(texts(prose.help_text(text)), ["Finds a layout. It only reads.", "write a page to FILE", "be quiet"])

    def test_texts_of_a_source(self) -> None:
        source = 'pub fn one() -> &str\n{\n    "a"\n}\n\npub fn two() -> &str\n{\n    "\\\nusage: b\n\nDoes it."\n}\n'
        with tempfile.TemporaryDirectory() as folder:
            path = pathlib.Path(folder) / "a.rt"
            path.write_text(source)
            self.assertEqual(prose.texts_of(path), {"two": "usage: b\n\nDoes it."})


class Messages(unittest.TestCase):
    """What of a module or a script is a message."""

    def test_module(self) -> None:
        source = ('"""A docstring of several words."""\nA = "key"\nB = "p { color: red; } of it all"\n'
                  'def f(n):\n    """Another docstring of words."""\n    return f"found {n} disks of this" + f"{len(\'a b c d\')}"\n')
        self.assertEqual([(it.line, it.text) for it in prose.module(source)], [(6, "found CODE disks of this"), (6, "a b c d")])

    def test_tags_and_lines(self) -> None:
        found = list(prose.message_pieces(1, "<b>It reads the image.</b>\n  next line is indented\nand goes on"))
        self.assertEqual(texts(found), ["It reads the image.", "next line is indented and goes on"])

    def test_script(self) -> None:
        source = ('# echo "no comment of this kind"\nrefuse "$1 is no folder of disks"\nx="not printed at all"\n'
                  '    echo "waits for ${a% *}, $((t / 10)) s of it"\n')
        self.assertEqual(texts(prose.script(source)), ["CODE is no folder of disks", "waits for CODE, CODE s of it"])


class Counting(unittest.TestCase):
    """What counts."""

    def test_lengths(self) -> None:
        page = "\n\n".join(" ".join(["word"] * length) + "." for length in (25, 26, 35, 36))
        found = counts(page.replace("word", "disk"))
        self.assertEqual((found.sentences, found.over25, found.over35), (4, 3, 1))

    def test_headings_have_no_length(self) -> None:
        self.assertEqual(counts("# " + "disk " * 40 + "\n").sentences, 0)

    def test_where_and_if(self) -> None:
        found = counts("Where it fails, stop if you can. Open the folder where it lies. It depends on where it is.\n"
                       "Nothing, where none is. The row is `r`, where `r` is the number of the row. Stop where `r` is missing.\n")
        self.assertEqual((found.where, found.if_), (3, 1))

    def test_openings(self) -> None:
        for text, wanted in (("With one disk it works.", True), ("Reading takes long.", True), ("Passed over is the rest.", True),
                             ("Looked at, it fails.", True), ("Damaged disks are read.", False), ("Nothing is read.", False),
                             ("The disk is read.", False), ("To read it, run this.", False), ("CODE reads it.", False), ("", False),
                             ("USING, a page.", False)):
            self.assertEqual(words.is_opening(text), wanted, text)

    def test_private_words(self) -> None:
        for text, wanted in (("The disks are tied by parity.", ["tied"]), ("A parameter set passes.", ["parameter set"]),
                             ("Sets that pass.", ["Sets"]), ("The option sets the size.", []), ("A set of disks.", []),
                             ("A volume group and a landmark group.", []), ("A group.", ["group"]),
                             ("It fits in memory.", []), ("It fits.", ["fits"]), ("A question mark.", []), ("Search behind a write blocker.", []),
                             ("It lies behind it.", ["behind"]), ("In other words.", []), ("A word is wrong.", ["word"]),
                             ("At most 25 words.", []), ("Windows made it.", []),
                             ("The source code.", []), ("A default.", []), ("A mark.", ["mark"])):
            found = [hit.what.split(": ")[1].split(" -> ")[0] for hit in words.private_hits(prose.Sentence(1, text, Kind.TEXT))]
            self.assertEqual([it.removeprefix("A ") for it in found], wanted, text)

    def test_code_is_not_private(self) -> None:
        for text in ("Type `tied`.", "Give set=SET and --room.", "Open WRONG-BODIES.md and crates/walk.", "CODE origin CODE fits CODE misfits CODE"):
            self.assertEqual(counts(text).private, 0, text)

    def test_labels_count_for_private_words_only(self) -> None:
        found = counts("# Where the gate is\n")
        self.assertEqual((found.where, found.private), (0, 1))


class Words(unittest.TestCase):
    """How many words a page has."""

    def test_help_texts_do_not_count(self) -> None:
        help_text = next(it for it in printed_texts().values() if it.startswith("usage:"))
        self.assertEqual(words.page_words(f"Two words.\n\n{as_block(help_text)}\n"), 2)


class Limits(unittest.TestCase):
    """What is above its limits."""

    FOUND = words.Counts(words=10, sentences=40, over25=3, over35=1, opening=9, where=2, if_=1, private=4)

    def test_final_limits(self) -> None:
        self.assertEqual(words.above({"a": self.FOUND}, {}),
                         ["a: over25 3, at most 2 allowed", "a: over35 1, at most 0 allowed", "a: where-if 1, at most 0 allowed",
                          "a: private 4, at most 0 allowed"])

    def test_own_limits(self) -> None:
        self.assertEqual(words.above({"a": self.FOUND}, {"a": (3, 1, 1, 3)}), ["a: private 4, at most 3 allowed"])

    def test_all_words(self) -> None:
        clear = words.Counts(words.MAX_WORDS, 1, 0, 0, 0, 0, 0, 0)
        self.assertEqual(words.above({"a": clear}, {}), [])
        self.assertEqual(len(words.above({"a": clear, "b": words.Counts(1, 1, 0, 0, 0, 0, 0, 0)}, {})), 1)

    def test_new_limits_name_what_is_above(self) -> None:
        clear = words.Counts(10, 40, 2, 0, 0, 1, 1, 0)
        rows = [row for row in words.new_limits({"a": self.FOUND, "b": clear}).splitlines() if not row.startswith("#")]
        self.assertEqual([row.split() for row in rows], [["a", "3", "1", "1", "4"]])

    def test_each_text_of_the_table_is_there(self) -> None:
        self.assertEqual(set(words.limits()) - set(words.gathered()), set())


if __name__ == "__main__":
    unittest.main()
