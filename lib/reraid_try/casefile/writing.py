"""The file of the report. It is written beside its name and then renamed, so that no one ever finds it empty or half written."""

import contextlib
import os

from ..errors import OutsideError, said

# A page of this program has these bytes near its beginning.
MARK, BEGINNING = b"<title>reraid-try", 4096


def is_page(name: str) -> bool:
    """A file is a report of this program, or has nothing in it."""
    try:
        with open(name, "rb") as file:
            begin = file.read(BEGINNING)
    except OSError:
        return False
    return not begin or MARK in begin


def goes_on(resume: str | None) -> bool:
    """The file of --resume has something that a run can go on with."""
    try:
        return bool(resume) and os.path.getsize(resume or "") > 0
    except OSError:
        return False


def not_written_over(report: str | None, resume: str | None) -> str:
    """Return why a report that is there already is not replaced; nothing if none is, or if a run goes on that made it."""
    if not report or not os.path.lexists(report):
        return ""
    if goes_on(resume) and is_page(report):
        return ""
    return f"--report {report} exists already: name another file" + (" (it is not a report of reraid-try)" if goes_on(resume) else "")


class PageFile:
    """Where the page of a run is put. That it can be written is known before the run begins its work."""

    def __init__(self, name: str) -> None:
        self.name, self.part = name, f"{name}.{os.getpid()}.part"
        self.replaces = os.path.lexists(name)
        try:
            with open(self.part, "x", encoding="utf-8"):
                pass
            os.remove(self.part)
        except OSError as error:
            raise self.failed(error) from error

    def failed(self, error: OSError) -> OutsideError:
        """Return what is raised where the page cannot be written."""
        return OutsideError(f"--report {self.name} cannot be written: {said(error)}")

    def write(self, text: str) -> None:
        """Write the page whole, and give it its name."""
        try:
            with open(self.part, "x", encoding="utf-8", errors="surrogateescape") as file:
                file.write(text)
                file.flush()
                os.fsync(file.fileno())
        except OSError as error:
            with contextlib.suppress(OSError):
                os.remove(self.part)
            raise self.failed(error) from error
        if os.path.lexists(self.name) and not self.replaces:
            raise OutsideError(f"--report {self.name} was made by another program meanwhile: the report is {self.part}")
        try:
            os.replace(self.part, self.name)
        except OSError as error:
            raise OutsideError(f"--report {self.name} cannot be written: {said(error)}. The report is {self.part}") from error
