"""What was found in volumes, kept from one run over the same images to the next."""

import dataclasses
import hashlib
from collections.abc import Collection, Mapping, Sequence
from typing import Any

from ..calls.memory import Fields, Memory
from ..calls.sets import Word
from .joints import Joints
from .lvm import Physical, Piece
from .verdicts import Finding, Verdict
from .wholes import Wholes


def fields_of(verdict: Verdict) -> Fields:
    """A verdict as an object."""
    return dataclasses.asdict(verdict)


def having(it: Mapping[str, Any], **values: Any) -> Fields:
    """The fields of an object, with other values."""
    return {**it, **values}


def wholes_of(it: Mapping[str, Any]) -> Wholes:
    """The files of an object."""
    return Wholes(**having(it, long=wholes_of(it["long"]) if it["long"] else None))


def finding_of(it: Mapping[str, Any]) -> Finding:
    """The region of an object."""
    return Finding(**having(it, pieces=tuple(Piece(**piece) for piece in it["pieces"]), apart=tuple(it.get("apart", ())),
                            thin=tuple(it.get("thin", ())), beside=tuple(Physical(**one) for one in it.get("beside", ()))))


def verdict_of(it: Mapping[str, Any]) -> Verdict:
    """The verdict of an object."""
    joints = Joints(**it["joints"]) if it.get("joints") else None
    return Verdict(**having(it, findings=list(map(finding_of, it["findings"])), files=wholes_of(it["files"]), joints=joints))


class Looks:
    """What was found in the volumes of some images, with these maps and tools, where a step has so many seconds and so many bytes of each image are
    read: another run finds what this one did only where all that is the same."""

    def __init__(self, memory: Memory | None, maps: str | None, tools: Collection[str], seconds: float, first: int) -> None:
        self.memory = memory
        self.common = {"maps": hashlib.sha256((maps or "").encode(errors="surrogateescape")).hexdigest() if maps else "", "tools": sorted(tools),
                       "seconds": seconds, "first": first}

    def key(self, word: Word, origins: Sequence[int], files: bool) -> Fields:
        """What is asked of a volume: its set, where file systems begin in it, and whether files are looked for."""
        return {"set": word.text, "origins": sorted(set(origins)), "files": files, **self.common}

    def known(self, word: Word, origins: Sequence[int], files: bool) -> Verdict | None:
        """What was found in a volume before; None where that is not kept."""
        found = self.memory.look(self.key(word, origins, files)) if self.memory else None
        return verdict_of(found) if found else None

    def keep(self, word: Word, origins: Sequence[int], files: bool, verdict: Verdict) -> None:
        """Keeps what was found in a volume, where that is all that is to be found in it."""
        if self.memory and not verdict.lacked_room:
            self.memory.keep_look(self.key(word, origins, files), fields_of(verdict))
