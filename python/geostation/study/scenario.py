"""A scenario of the program: a TOML document, and copies of it with other values."""

from __future__ import annotations

import datetime
import difflib
import json
import re
import sys
from pathlib import Path
from typing import Any, Dict, Iterator, List, Mapping, Optional, Tuple

from .errors import StudyError, cannot
from .parameters import Value

_BARE = re.compile(r"[A-Za-z0-9_-]+")
# Tables that the program checks key by key, so that a new key can't be overlooked.
_CHECKED = ("moves",)
# A part of a path that stands for each entry of an array.
_EACH = "*"


def loads(text: str) -> Dict[str, Any]:
    """Reads a TOML document.

    Raises `StudyError` if it is not TOML, or if this Python has no reader for TOML.
    """
    if sys.version_info >= (3, 11):
        import tomllib as reader
    else:
        try:
            import tomli as reader
        except ImportError:
            raise StudyError(
                "penetration and keys of the scenario need Python 3.11, or the package tomli", 3
            ) from None
    try:
        document: Dict[str, Any] = reader.loads(text)
        return document
    except reader.TOMLDecodeError as error:
        raise StudyError(f"not TOML ({error})") from None


def _key(name: str) -> str:
    return name if _BARE.fullmatch(name) else _text(name)


def _text(value: str) -> str:
    # JSON's escapes are TOML's, but for the delete character, which TOML wants escaped.
    return json.dumps(value, ensure_ascii=False).replace("\x7f", "\\u007f")


def _inline(value: Any) -> str:
    if isinstance(value, bool):
        return "true" if value else "false"
    if isinstance(value, str):
        return _text(value)
    if isinstance(value, (datetime.date, datetime.time)):
        return value.isoformat()
    if isinstance(value, list):
        return f"[{', '.join(map(_inline, value))}]"
    if isinstance(value, dict):
        pairs = (f"{_key(name)} = {_inline(inner)}" for name, inner in value.items())
        return f"{{{', '.join(pairs)}}}"
    return repr(value)


def _is_array_of_tables(value: Any) -> bool:
    return isinstance(value, list) and bool(value) and all(isinstance(v, dict) for v in value)


def dumps(document: Mapping[str, Any]) -> str:
    """Writes a document as TOML: keys first, then a section for each table."""
    lines: List[str] = []
    sections: List[Tuple[str, Dict[str, Any]]] = []
    for name, value in document.items():
        if isinstance(value, dict):
            sections.append((f"[{_key(name)}]", value))
        elif _is_array_of_tables(value):
            sections += [(f"[[{_key(name)}]]", table) for table in value]
        else:
            lines.append(f"{_key(name)} = {_inline(value)}")
    for head, table in sections:
        lines += ["", head] if lines else [head]
        lines += [f"{_key(name)} = {_inline(value)}" for name, value in table.items()]
    return "".join(line + "\n" for line in lines)


def _key_of(path: str, place: Any, part: str) -> Any:
    """Returns the key or index that a part of a path names.

    Raises `StudyError` if it isn't there.
    """
    if isinstance(place, list):
        if not (part.isascii() and part.isdigit()) or int(part) >= len(place):
            raise StudyError(f"{path}: {part} is not a number from 0 to {len(place) - 1}")
        return int(part)
    if not isinstance(place, dict) or part not in place:
        keys = list(place) if isinstance(place, dict) else []
        near = difflib.get_close_matches(part, keys, 1)
        meant = f" (did you mean {near[0]}?)" if near else ""
        raise StudyError(f"{path}: the scenario has no {part} there{meant}: write it there first")
    return part


def _places(path: str, place: Any, parts: List[str]) -> Iterator[Tuple[Any, Any]]:
    """Yields each place to which a path leads, as a table or array and a key of it. `*` stands for
    all entries that have the rest of the path.

    Raises `StudyError` if the path leads nowhere.
    """
    part, *rest = parts
    if part == _EACH and isinstance(place, list) and rest:
        yield from _places_in_each(path, place, rest)
        return
    key = _key_of(path, place, part)
    if rest:
        yield from _places(path, place[key], rest)
    else:
        yield place, key


def _places_in_each(path: str, entries: List[Any], rest: List[str]) -> Iterator[Tuple[Any, Any]]:
    found, fault = 0, StudyError(f"{path}: the scenario has no entry there")
    for entry in entries:
        try:
            for place in _places(path, entry, rest):
                found += 1
                yield place
        except StudyError as error:
            fault = error
    if not found:
        raise fault


def value_at(document: Mapping[str, Any], path: str) -> Any:
    """Returns the value at a path such as `event.0.hops`, for `event.*.hops` that of the first
    event that has one. Raises `StudyError` if it isn't there."""
    place, key = next(_places(path, document, path.split(".")))
    return place[key]


def _set(document: Dict[str, Any], path: str, value: Value) -> None:
    parts = path.split(".")
    if len(parts) == 2 and parts[0] in _CHECKED:
        document.setdefault(parts[0], {})[parts[1]] = value
        return
    for place, key in list(_places(path, document, parts)):
        place[key] = value


class Scenario:
    """A scenario file, read once."""

    def __init__(self, path: Path):
        """Reads a file. Raises `StudyError` with status 3 if it can't be read."""
        self.path = path
        try:
            self.octets = path.read_bytes()
        except OSError as error:
            raise cannot("read", path, error) from None
        self._document: Optional[Dict[str, Any]] = None

    def document(self) -> Dict[str, Any]:
        """Returns the document. Raises `StudyError` if it is not TOML, or can't be read here."""
        if self._document is None:
            try:
                self._document = loads(self.octets.decode("utf-8-sig"))
            except UnicodeDecodeError:
                raise StudyError(f"{self.path}: not TOML (not UTF-8)") from None
            except StudyError as error:
                raise StudyError(f"{self.path}: {error}", error.status) from None
        return self._document

    def with_values(self, changes: Mapping[str, Value]) -> bytes:
        """Returns the scenario with other values at some paths, or as it is without `changes`.

        A key has to be in the scenario already, except the keys of `[moves]`, which the program
        checks. Raises `StudyError` for a path that leads nowhere.
        """
        if not changes:
            return self.octets
        # A copy, with the writer that is checked below.
        changed = loads(dumps(self.document()))
        for path, value in changes.items():
            _set(changed, path, value)
        text = dumps(changed)
        if loads(text) != changed:
            raise StudyError(f"{self.path}: the scenario can't be written with {dict(changes)}")
        return text.encode()

    def air(self) -> Dict[str, Any]:
        """Returns the keys of `[air]` as the scenario has them."""
        air = self.document().get("air")
        return dict(air) if isinstance(air, dict) else {}

    def senders(self) -> Tuple[str, ...]:
        """Returns the ids of vehicles that events name."""
        events = self.document().get("event")
        if not isinstance(events, list):
            return ()
        ids = (event.get("id") for event in events if isinstance(event, dict))
        return tuple(dict.fromkeys(name for name in ids if isinstance(name, str)))
