"""Tables of a TOML file whose keys are taken one by one, so that a wrong one is refused by name."""

from __future__ import annotations

import tomllib
from collections.abc import Callable
from pathlib import Path


class BadFile(ValueError):
    """A file is not a test purpose, or not a station file."""


class Table:
    """A table of which each key is taken once. `where` is what a message begins with."""

    def __init__(self, where: str, values: dict):
        self.where, self.values = where, dict(values)

    def wrong(self, why: str) -> BadFile:
        return BadFile(f"{self.where}: {why}")

    def take(self, key: str, kind: type, default=None):
        value = self.values.pop(key, default)
        if value is None:
            raise self.wrong(f"{key} is missing")
        if not isinstance(value, kind) or (kind is int and isinstance(value, bool)):
            raise self.wrong(f"{key} is not {kind.__name__}")
        return value

    def whole(self, key: str, least: int, most: int, default: int | None = None) -> int:
        value = self.take(key, int, default)
        if not least <= value <= most:
            raise self.wrong(f"{key} is not from {least} to {most}")
        return value

    def optional(self, key: str, least: int, most: int) -> int | None:
        return self.whole(key, least, most) if key in self.values else None

    def one_of(self, key: str, words: tuple[str, ...], default: str | None = None) -> str:
        value = self.take(key, str, default)
        if value not in words:
            raise self.wrong(f"{key} is not one of {', '.join(words)}")
        return value

    def octets(self, key: str, default: str | None = None) -> bytes:
        try:
            return bytes.fromhex(self.take(key, str, default))
        except ValueError:
            raise self.wrong(f"{key} is not hexadecimal") from None

    def mac(self, key: str, default: str | None = None) -> bytes:
        mac = self.octets(key, default)
        if len(mac) != 6 or mac[0] & 1:
            raise self.wrong(f"{key} is not the MAC of a station")
        return mac

    def table(self, key: str) -> Table | None:
        """An inner table, or None if the key is missing."""
        if key not in self.values:
            return None
        return Table(f"{self.where}: {key}", self.take(key, dict))

    def all_of(self, key: str, read: Callable, *more) -> tuple:
        """The tables of an array, each read to its end."""
        found = []
        for k, values in enumerate(self.take(key, list, [])):
            if not isinstance(values, dict):
                raise self.wrong(f"{key} is not an array of tables")
            t = Table(f"{self.where}: {key} {k}", values)
            found.append(read(t, *more))
            t.end()
        return tuple(found)

    def end(self) -> None:
        """No key may be left."""
        if self.values:
            raise self.wrong(f"unknown key {next(iter(self.values))}")


def read_file(path: Path) -> Table:
    try:
        return Table(path.name, tomllib.loads(path.read_text(encoding="utf-8")))
    except (tomllib.TOMLDecodeError, UnicodeDecodeError) as why:
        raise BadFile(f"{path.name}: {why}") from None
