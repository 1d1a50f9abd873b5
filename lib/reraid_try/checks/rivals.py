"""Volumes of the same images with the highest score that contradict each other: at most one of them keeps it. The files that both volumes have
decide, and the bytes of both volumes, as two sets may name one volume in different words."""

from .candidates import Candidate
from .joints import Duel, duel
from .verdicts import Score


def are_highest(one: Candidate, other: Candidate) -> bool:
    """Two candidates have the highest score."""
    return one is not other and one.score is Score.WHOLE and other.score is Score.WHOLE


def fought(it: Candidate, other: Candidate) -> Duel:
    """Compare the files of two candidates."""
    return duel(it.found.joints, other.found.joints)


def beaten(it: Candidate, other: Candidate) -> str:
    """Return why files speak for another candidate with the highest score, and not for this one; nothing if they do not."""
    told = fought(it, other)
    if not told.second_wins:
        return ""
    back = f", and {told.first} the other way round" if told.first else ""
    files = "1 file is" if told.second == 1 else f"{told.second} files are"
    return f"{files} broken in it and intact in {other.word.text}{back}"


def unsettled(it: Candidate, other: Candidate) -> str:
    """Return why a candidate and another one that contradicts it both lose the highest score; nothing if files or bytes tell."""
    if fought(it, other).first_wins or it.volume is not None and it.volume == other.volume:
        return ""
    return f"{other.word.text} contradicts it and is supported as well: at most one of the two is right"


def is_open(one: Candidate, other: Candidate) -> bool:
    """Files do not tell which of two volumes is better."""
    told = fought(one, other)
    return not told.first_wins and not told.second_wins
