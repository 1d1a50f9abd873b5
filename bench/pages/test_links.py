"""Tests of links.py, with pages made by hand."""

import pathlib
import tempfile
import unittest

import links


class Links(unittest.TestCase):
    """Which links lead nowhere."""

    def setUp(self) -> None:
        """Make a folder with two pages."""
        folder = tempfile.TemporaryDirectory()
        self.addCleanup(folder.cleanup)
        self.top = pathlib.Path(folder.name)
        (self.top / "docs").mkdir()
        self.write("docs/ONE.md", "# One\n\n## `list` and more\n\n```\n# no heading\n```\n\n## Twice\n\n## Twice\n")

    def write(self, name: str, text: str) -> None:
        """Write a file of the folder."""
        (self.top / name).write_text(text)

    def faults_of(self, text: str) -> list[str]:
        """Return what is wrong with a README of this text."""
        self.write("README.md", text)
        return links.faults(self.top)

    def test_good_links(self) -> None:
        text = "# Read\n[a](docs/ONE.md) [b](docs/ONE.md#list-and-more) [c](#read) [d](docs/ONE.md#twice-1) [e](https://example.org/none)\n"
        self.assertEqual(self.faults_of(text), [])

    def test_missing_file(self) -> None:
        self.assertEqual(self.faults_of("[a](docs/TWO.md)\n"), ["README.md: docs/TWO.md: no such file", "README.md: docs/TWO.md: no such page"])

    def test_missing_heading(self) -> None:
        self.assertEqual(self.faults_of("[a](docs/ONE.md#no-heading)\n"), ["README.md: docs/ONE.md#no-heading: no such heading"])

    def test_link_in_fenced_code_is_no_link(self) -> None:
        self.assertEqual(self.faults_of("```\n[a](none)\n```\n"), [])

    def test_links_of_a_page_in_docs_start_there(self) -> None:
        self.write("docs/TWO.md", "[a](ONE.md#twice) [b](../README.md) [c](README.md)\n")
        self.assertEqual(self.faults_of("text\n"), ["docs/TWO.md: README.md: no such file"])

    def test_page_that_a_script_names(self) -> None:
        (self.top / "bench").mkdir()
        self.write("bench/run.sh", "# docs/ONE.md and docs/GONE.md\n")
        self.assertEqual(self.faults_of("text\n"), ["bench/run.sh: docs/GONE.md: no such page"])


if __name__ == "__main__":
    unittest.main()
