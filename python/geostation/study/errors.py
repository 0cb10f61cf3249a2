"""The exception and the warning of studies."""

from __future__ import annotations


class StudyError(Exception):
    """A study, a table or a figure can't be made. `str()` gives a message.

    Attributes:
        status: Exit status of the command line: 1 for an invalid input file, 2 for arguments, 3 for
            the system.
    """

    def __init__(self, text: str, status: int = 2):
        super().__init__(text)
        self.status = status


class StudyWarning(UserWarning):
    """Results are used whose runs the program had warnings for."""


def cannot(do: str, path: object, error: OSError) -> StudyError:
    """Returns the error of a file that can't be read or written, with the system's reason."""
    return StudyError(f"cannot {do} {path} ({(error.strerror or str(error)).lower()})", 3)
