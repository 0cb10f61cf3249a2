"""Sources that a check reads as text, and mistakes that it plants into copies of them."""

import functools
import sys
import types
from typing import NamedTuple

from program import TOP


@functools.lru_cache(maxsize=None)
def read(path):
    """The text of a source as it is."""
    return (TOP / path).read_text()


@functools.lru_cache(maxsize=None)
def find(pattern):
    """The sources of a pattern, by their paths."""
    return sorted(str(path.relative_to(TOP)) for path in TOP.glob(pattern))


class Sources:
    """The sources, of which some may have a mistake planted in them."""

    def __init__(self, planted=None):
        self.planted = planted or {}

    def text(self, path):
        return self.planted.get(path) or read(path)

    def module(self, path):
        """A source in Python as a module of its own."""
        name = path.rpartition("/")[2].removesuffix(".py")
        made = types.ModuleType(f"planted_{name}")
        made.__file__ = str(TOP / path)
        sys.modules[made.__name__] = made
        exec(compile(self.text(path), made.__file__, "exec"), made.__dict__)
        return made


class Mistake(NamedTuple):
    """A text of a source, what it is changed to, and what a complaint about it says."""

    path: str
    old: str
    new: str
    named: str


def swapped(path, first, second, named):
    """Two neighbouring texts in the other order."""
    return Mistake(path, f"{first}{second}", f"{second}{first}", named)


def unnamed(mistakes, complaints):
    """The mistakes that no complaint names. `complaints` returns what is wrong in sources."""
    wrong = []
    for path, old, new, named in mistakes:
        if old not in read(path):
            wrong.append(f"{path}: there is no {old!r} to plant a mistake in")
            continue
        planted = read(path).replace(old, new, 1)
        if not any(named in line for line in complaints(Sources({path: planted}))):
            wrong.append(f"{path}: nobody names {new!r} in place of {old!r}")
    return wrong
