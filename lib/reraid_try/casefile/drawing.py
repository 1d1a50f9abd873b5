"""Strips as inline SVG: lanes of one scale, of bars and ticks alone. All text stands beside them in HTML, so that none is stretched or overlaps."""

import dataclasses
import html
from collections.abc import Iterable, Sequence

# The units of a lane's width and height.
WIDTH, HEIGHT = 1000, 100


@dataclasses.dataclass(frozen=True)
class Bar:
    """A part of a lane: from which place to which, in units of what the lane shows, how high of 100 and from what height on, and its class."""

    first: float
    last: float
    kind: str
    height: int = HEIGHT
    bottom: int = 0


@dataclasses.dataclass(frozen=True)
class Lane:
    """A lane: what stands before it, what it shows in words, for those who do not see it, its bars, and places with a tick."""

    label: str
    told: str
    bars: tuple[Bar, ...] = ()
    ticks: tuple[int, ...] = ()
    kind: str = ""


def joined(bars: Iterable[Bar]) -> list[Bar]:
    """Neighbouring bars that look alike as one."""
    found: list[Bar] = []
    for bar in bars:
        if found and found[-1].last == bar.first and dataclasses.replace(found[-1], first=0, last=0) == dataclasses.replace(bar, first=0, last=0):
            found[-1] = dataclasses.replace(found[-1], last=bar.last)
        else:
            found.append(bar)
    return found


def number(value: float) -> str:
    """Return a number in a path, as short as it is exact enough."""
    return f"{value:.1f}".rstrip("0").rstrip(".")


def rectangles(bars: Sequence[Bar], scale: float) -> str:
    """Return the bars, those of a class as one path."""
    paths: dict[str, list[str]] = {}
    for bar in joined(bars):
        left, width = bar.first * scale, max((bar.last - bar.first) * scale, 1.0)
        top = HEIGHT - bar.bottom - bar.height
        paths.setdefault(bar.kind, []).append(f"M{number(left)} {top}h{number(width)}v{bar.height}h-{number(width)}z")
    return "".join(f'<path class="{kind}" d="{"".join(parts)}"/>' for kind, parts in paths.items())


def lane(it: Lane, length: int, extent: int) -> str:
    """Return a lane of what is so long, on a scale that ends at this extent."""
    scale = WIDTH / max(1, extent)
    ticks = "".join(f"M{number(place * scale)} 0V{HEIGHT}" for place in dict.fromkeys(it.ticks))
    drawn = f'<path class="ground" d="M0 0h{number(length * scale)}v{HEIGHT}h-{number(length * scale)}z"/>' + rectangles(it.bars, scale)
    drawn += f'<path class="tick {it.kind}" d="{ticks}"/>' if ticks else ""
    return (f'<div class="lane"><span>{html.escape(it.label)}</span><svg viewBox="0 0 {WIDTH} {HEIGHT}" preserveAspectRatio="none" role="img" '
            f'aria-label="{html.escape(it.told)}">{drawn}</svg></div>')


def axis(told: Sequence[str]) -> str:
    """Return the scale below lanes: texts at even distances from its start to its end."""
    return '<div class="lane axis"><span></span><div>' + "".join(f"<i>{html.escape(text)}</i>" for text in told) + "</div></div>"
