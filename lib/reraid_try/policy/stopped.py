"""What is tried where the imaging of some disks stopped: the array without them, whole, in place of one that ends where they do."""

from collections.abc import Iterable, Sequence

from ..calls.sets import LEVELS
from ..evidence.images import Image
from ..evidence.ties import Told
from ..options import Options
from . import plain
from .plain import Target, Span
from .shapes import Shape


def line(image: Image, others: Iterable[Image]) -> str:
    """What is said of an image whose imaging may have stopped."""
    return (f"image {image.number} {image.called} ends at sector {image.sectors}, {100 * image.sectors // max(it.sectors for it in others)}% of the "
            "longest: others hold data after it, so its imaging may have stopped")


def targets(short: Sequence[Image], told: Told, span: Span, images: Sequence[Image], options: Options) -> list[Target]:
    """What is tried first: of images that parity ties those without the ones that end early, if the level bears so many missing disks."""
    out = {image.number for image in short}
    found = []
    for known in told.known:
        group, level = known.group, known.group.level or ""
        rest = tuple(number for number in group.current if number not in out)
        gone = len(group.current) - len(rest)
        if not gone or level not in LEVELS or group.lost is None or group.lost + gone > LEVELS[level].parity:
            continue
        shape = Shape(level, len(group.current) + group.lost, group.lost + gone)
        shapes = plain.allowed([shape], options)
        end = span.end if span.partition else min(image.sectors for image in images if image.number in rest)
        why = "without images that end early, which the level tolerates, so that the volume is whole"
        if shapes:
            found.append(Target(rest, Span(span.first, end, span.partition), why, shapes, plain.chunks(known.chunk), tied=True, begin=known.begin,
                                by_thousands=() if shape.parity else shapes))
    return found
