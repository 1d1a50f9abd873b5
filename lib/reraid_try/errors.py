"""What ends a run before its time."""


class OutsideError(Exception):
    """Something outside of the run is wrong: an image that cannot be read, a map that is none, a survey that was refused, a log or a room that cannot
    be written. Its text says what, for people."""


class Refused(OutsideError):
    """`reraid` refused what it was asked, by a status that no step expects; the text is its line."""


class Stopped(Exception):
    """The run was told to end: no command begins any more."""


def said(error: OSError) -> str:
    """Return what the system says of a failure, without its number."""
    return error.strerror or str(error)


def said_of(error: OSError) -> str:
    """Return what the system says of a failure, with the file that it is about, where that is known."""
    return f"{error.filename}: {said(error)}" if error.filename else said(error)
