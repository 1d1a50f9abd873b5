"""Small parts of the page: texts, tables, lists and legends, as HTML."""

import html
from collections.abc import Iterable, Sequence

from ..units import GIB, KIB, MIB, TIB

UNITS = ((TIB, "TiB"), (GIB, "GiB"), (MIB, "MiB"), (KIB, "KiB"))
# What stands for a color in a legend: a box of this size, in the units of its drawing.
BOX = 'viewBox="0 0 22 14" preserveAspectRatio="none" aria-hidden="true"'


def text(it: object) -> str:
    """Return a text in HTML."""
    return html.escape(str(it))


def code(it: object) -> str:
    """A text as it is typed or printed."""
    return f"<code>{text(it)}</code>"


def size(count: int) -> str:
    """So many bytes, in the largest unit of which there is one at least."""
    for unit, name in UNITS:
        if count >= unit:
            return f"{count / unit:.3g} {name}" if count < 1000 * unit else f"{count // unit:,} {name}"
    return f"{count} bytes"


def runs(numbers: Iterable[int]) -> str:
    """Numbers in order, those that follow one another as one: 0 to 3, 7."""
    found: list[list[int]] = []
    for number in sorted(set(numbers)):
        if found and found[-1][1] == number - 1:
            found[-1][1] = number
        else:
            found.append([number, number])
    return ", ".join(str(first) if first == last else f"{first}, {last}" if last == first + 1 else f"{first} to {last}" for first, last in found)


def soft(told: str) -> str:
    """Return a paragraph beside what matters; it is HTML already."""
    return f'<p class="soft">{told}</p>'


def bullets(rows: Iterable[object]) -> str:
    """Texts below one another; nothing where there is none."""
    made = "".join(f"<li>{text(row)}</li>" for row in rows)
    return f'<ul class="plain">{made}</ul>' if made else ""


def section(title: str, *parts: str) -> str:
    """Return a part of the page, with its title."""
    return "\n".join([f"<h2>{text(title)}</h2>", *filter(None, parts)])


def listed(pairs: Iterable[tuple[str, str]]) -> str:
    """Names with what they are, of which those that are nothing are left out; these are HTML."""
    return "<dl>" + "".join(f"<dt>{text(name)}</dt><dd>{told}</dd>" for name, told in pairs if told) + "</dl>"


def cell(name: str, made: str, is_number: bool) -> str:
    """Return a cell of a table, with the name of its column for narrow pages."""
    kinds = " ".join((["n"] if is_number else []) + ([] if made else ["empty"]))
    return f'<td data-name="{text(name)}"' + (f' class="{kinds}"' if kinds else "") + f"><div>{made}</div></td>"


def table(heads: Sequence[tuple[str, bool]], rows: Sequence[Sequence[str]]) -> str:
    """Return a table of rows that are HTML; of each column its head, and whether it has numbers. A column without anything is left out."""
    used = [k for k in range(len(heads)) if any(row[k] for row in rows)]
    head = "".join(f'<th{" class=n" if heads[k][1] else ""}>{text(heads[k][0])}</th>' for k in used)
    made = "".join("<tr>" + "".join(cell(heads[k][0], row[k], heads[k][1]) for k in used) + "</tr>" for row in rows)
    return f"<table><thead><tr>{head}</tr></thead><tbody>{made}</tbody></table>"


def box(kind: str, shape: str) -> str:
    """Return a box of a legend: a shape of a class, over the ground."""
    return f'<svg {BOX}><path class="ground" d="M0 0h22v14h-22z"/><path class="{kind}" d="{shape}"/></svg>'


def legend(items: Sequence[tuple[str, str]]) -> str:
    """Return a legend of boxes with what they are."""
    return '<ul class="legend">' + "".join(f"<li>{drawn}<span>{text(told)}</span></li>" for drawn, told in items) + "</ul>"
