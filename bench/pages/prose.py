"""Take the prose out of pages, manual pages, help texts, Python modules and shell scripts.

Code (code blocks, code spans, commands, values put into a message) is not prose: each code span becomes the token CODE, which counts as one word.
"""

import ast
import dataclasses
import enum
import pathlib
import re
from collections.abc import Iterator

CODE = "CODE"
# A lead-in of at most this many words before a colon, at the start of a list item, is a label.
LABEL_WORDS = 6
# A string with fewer plain words is no message.
LEAST_PLAIN = 3
ABBREVIATIONS = ("e.g.", "i.e.", "etc.", "vs.", "cf.", "approx.")
END_OF_SENTENCE = re.compile(r"(?<=[.!?])[\"')\]]*\s+")
ITEM = re.compile(r"\s*(?:[-*+]|\d+\.)\s+")
PLAIN_WORD = re.compile(r"[A-Za-z][a-z'-]*[,.;:?]?")


class Kind(enum.Enum):
    """What a piece of prose is."""

    TEXT = "text"
    LABEL = "label"


@dataclasses.dataclass(frozen=True)
class Piece:
    """A paragraph, a list item, a table cell, a heading or a message, with the line on which it begins."""

    line: int
    text: str
    kind: Kind = Kind.TEXT


@dataclasses.dataclass(frozen=True)
class Sentence:
    """One sentence of a piece."""

    line: int
    text: str
    kind: Kind

    @property
    def words(self) -> int:
        """Return the number of words; code counts as one."""
        return sum(1 for word in self.text.split() if any(sign.isalnum() for sign in word))


def sentences(pieces: list[Piece]) -> list[Sentence]:
    """Split pieces into sentences."""
    return [Sentence(piece.line, text, piece.kind) for piece in pieces for text in split(piece.text)]


def split(text: str) -> list[str]:
    """Split a text after full stops, question marks and exclamation marks, but not after abbreviations and "..".

    >>> split("Use a tool, e.g. CODE. It reads E01, E02 .. by name.")
    ['Use a tool, e.g. CODE.', 'It reads E01, E02 .. by name.']
    """
    found, begin = [], 0
    for match in END_OF_SENTENCE.finditer(text):
        before = text[begin:match.start()]
        if before.endswith(("..", *ABBREVIATIONS)):
            continue
        found.append(text[begin:match.end()].strip())
        begin = match.end()
    return [it for it in (*found, text[begin:].strip()) if it]


class Gatherer:
    """Join lines to pieces."""

    def __init__(self) -> None:
        self.pieces: list[Piece] = []
        self.lines: list[str] = []
        self.begin = 0
        self.is_item = False

    def add(self, number: int, line: str) -> None:
        """Add a line to the open piece."""
        if not self.lines:
            self.begin = number
        self.lines.append(line.strip())

    def label(self, number: int, text: str) -> None:
        """Close the open piece and add a label."""
        self.close()
        if plain := inline(text):
            self.pieces.append(Piece(number, plain, Kind.LABEL))

    def open(self, number: int, line: str, is_item: bool) -> None:
        """Close the open piece and begin another one."""
        self.close()
        self.is_item = is_item
        self.add(number, line)

    def close(self) -> None:
        """Close the open piece."""
        text = inline(" ".join(self.lines))
        if self.is_item and (match := re.match(rf"((?:\S+\s+){{0,{LABEL_WORDS - 1}}}\S+):\s+", text)):
            self.pieces.append(Piece(self.begin, match[1], Kind.LABEL))
            text = text[match.end():]
        if text:
            self.pieces.append(Piece(self.begin, text))
        self.lines, self.is_item = [], False


def inline(text: str) -> str:
    """Replace code spans by CODE and links by their text, and drop the signs of emphasis."""
    text = re.sub(r"`+[^`]+`+", CODE, text)
    text = re.sub(r"!\[[^\]]*\]\([^)]*\)", "", text)
    text = re.sub(r"\[([^\]]*)\]\([^)]*\)", r"\1", text)
    text = re.sub(r"\*\*?([^*\s][^*]*)\*\*?", r"\1", text)
    return re.sub(r"\s+", " ", text).strip()


def markdown(text: str) -> list[Piece]:
    """Take the pieces of a page in Markdown."""
    gathered, fenced, after_blank, indent = Gatherer(), False, True, 0
    for number, line in enumerate(text.splitlines(), 1):
        line = line.removeprefix("> ")
        deep = len(line) - len(line.lstrip())
        if line.lstrip().startswith("```"):
            gathered.close()
            fenced = not fenced
        elif fenced:
            continue
        elif not line.strip():
            gathered.close()
            after_blank = True
            continue
        elif after_blank and deep >= 4 and (deep >= indent + 4 or deep < indent):
            continue
        elif line.startswith("#"):
            gathered.label(number, line.lstrip("# "))
        elif line.startswith("|"):
            gathered.close()
            gathered.pieces += cells(number, line)
        elif match := ITEM.match(line):
            indent = match.end()
            gathered.open(number, line[indent:], True)
        else:
            indent = indent if deep else 0
            gathered.add(number, line)
        after_blank = False
    gathered.close()
    return gathered.pieces


def cells(number: int, row: str) -> list[Piece]:
    """Take the cells of a row of a table; the rule below its head has none."""
    texts = [inline(cell) for cell in re.sub(r"`[^`]*`", CODE, row).strip().strip("|").split("|")]
    return [Piece(number, text) for text in texts if text and not re.fullmatch(r":?-+:?", text)]


def plain_roff(line: str) -> str:
    """Turn the fonts of a line of a manual page into code, and its escapes into what they stand for.

    Bold text of three plain words and more is a heading in the text, and stays.
    """
    line = re.sub(r"\\\(bu|\\&|\\\||\\c", "", line.replace(r"\-", "-").replace(r"\(aq", "'").replace(r"\e", "\\"))
    return re.sub(r"\\f[BI](.*?)\\f[RP]", lambda found: found[1] if plain_words(found[1]) >= LEAST_PLAIN else CODE, line)


def plain_words(text: str) -> int:
    """Count the words of letters only."""
    return sum(1 for word in text.split() if PLAIN_WORD.fullmatch(word))


def manual(text: str) -> list[Piece]:
    """Take the pieces of a manual page in roff."""
    gathered, literal, tagged = Gatherer(), False, False
    for number, line in enumerate(text.splitlines(), 1):
        request, _, rest = line.partition(" ")
        if request in (".nf", ".EX", ".fi", ".EE"):
            gathered.close()
            literal = request in (".nf", ".EX")
        elif literal or request == ".TH" or line.startswith((".\\\"", "'\\\"")):
            continue
        elif request in (".SH", ".SS"):
            gathered.label(number, plain_roff(rest).strip('"'))
        elif tagged:
            gathered.label(number, CODE if line.startswith(".") else plain_roff(line))
            tagged = False
        elif request in (".B", ".I", ".BR", ".IR", ".BI", ".RB", ".RI", ".IB"):
            gathered.add(number, CODE)
        elif line.startswith("."):
            gathered.close()
            tagged = request == ".TP"
        else:
            gathered.add(number, plain_roff(line))
    gathered.close()
    return gathered.pieces


def help_text(text: str) -> list[Piece]:
    """Take the pieces of what a program prints for --help: not the usage lines, and not the commands of examples."""
    gathered, usage, depth = Gatherer(), False, 0
    for number, line in enumerate(text.splitlines(), 1):
        deep = len(line) - len(line.lstrip())
        usage = bool(line.strip()) and (usage or line.startswith("usage:"))
        if usage or not line.strip() or " -- " in line or re.match(r"\s+(\[|reraid\S* )", line):
            gathered.close()
        elif match := re.match(r"\s+\S+(?: \S+){0,2}\s{2,}(?=\S)", line):
            gathered.open(number, line[match.end():], False)
            depth = match.end()
        elif gathered.lines and deep == depth:
            gathered.add(number, line)
        else:
            gathered.open(number, line, False)
            depth = deep
    gathered.close()
    return gathered.pieces


def is_message(text: str) -> bool:
    """A string is a message if it has enough plain words and is no pattern, no style sheet and no path."""
    return plain_words(text) >= LEAST_PLAIN and not re.search(r"[{}\\]|\(\?|;\s*$", text)


def message_pieces(line: int, text: str) -> Iterator[Piece]:
    """Take the pieces of a message: it is cut at line ends that end a sentence or begin an indented line."""
    text = re.sub(r"<[^<>]*>", " ", text)
    for part in re.split(r"(?<=[.:;!?])\n|\n\s*\n|\n(?=[ \t])", text):
        plain = re.sub(r"\s+", " ", part).strip()
        if is_message(plain):
            yield Piece(line, plain)


def literal(node: ast.JoinedStr) -> str:
    """Return the text of a formatted string, with CODE for each value."""
    return "".join(str(part.value) if isinstance(part, ast.Constant) else CODE for part in node.values)


def docstrings(tree: ast.AST) -> set[ast.AST]:
    """Return the nodes of the docstrings of a module."""
    return {node.body[0].value for node in ast.walk(tree)
            if isinstance(node, (ast.Module, ast.ClassDef, ast.FunctionDef, ast.AsyncFunctionDef))
            and node.body and isinstance(node.body[0], ast.Expr)}


def module(text: str) -> list[Piece]:
    """Take the messages of a Python module: its strings that are prose, but no docstrings."""
    tree = ast.parse(text)
    skipped: set[ast.AST] = docstrings(tree)
    found: list[Piece] = []
    for node in ast.walk(tree):
        if isinstance(node, ast.JoinedStr):
            skipped |= {part for part in node.values if isinstance(part, ast.Constant)}
            found += message_pieces(node.lineno, literal(node))
        elif isinstance(node, ast.Constant) and isinstance(node.value, str) and node not in skipped:
            found += message_pieces(node.lineno, node.value)
    return sorted(found, key=lambda piece: piece.line)


def script(text: str) -> list[Piece]:
    """Take the messages of a shell script: what it prints with echo, refuse or print of awk."""
    found: list[Piece] = []
    for number, line in enumerate(text.splitlines(), 1):
        if re.search(r"\b(?:echo|refuse|print)\b", line) and not line.lstrip().startswith("#"):
            for quoted in re.findall(r'"((?:[^"\\]|\\.)*)"', re.sub(r"\$\(\(.*?\)\)|\$\([^()]*\)|\$\{[^}]*\}|\$\w+", CODE, line)):
                found += message_pieces(number, quoted)
    return found


def texts_of(path: pathlib.Path) -> dict[str, str]:
    """Return the texts that a source in Rattle prints, by the names of the functions that return them."""
    return dict(re.findall(r"^pub fn (\w+)(?:(?!^pub fn ).)*?\"\\\n(.*?)\"$", path.read_text(), re.M | re.S))
