"""What is sent when: the actions of a purpose, one after the other."""

from __future__ import annotations

from collections.abc import Iterator
from dataclasses import replace
from typing import NamedTuple

from .actions import UPPER, Action
from .purposes import Purpose


class Step(NamedTuple):
    """At `at` ms after the start, a neighbour does this, or the upper tester is asked for it.
    `index` is that of the action."""

    at: int
    index: int
    name: str
    action: Action

    def comment(self) -> str:
        called = f" ({self.action.name})" if self.action.name else ""
        return f"play {self.index}{called}: {self.action.do} from {self.name}"


def names_of(action: Action) -> tuple[str, ...]:
    return (UPPER,) if action.do == UPPER else action.names


def at_port(action: Action, count: int) -> Action:
    """The action as it is done after so many times."""
    return replace(action, port=action.port + count % action.ports)


def times(action: Action) -> Iterator[int]:
    yield action.at
    at = action.at + action.every
    while action.every and at <= action.until:
        yield at
        at += action.every


def steps(purpose: Purpose) -> list[Step]:
    """In the order of their times, and of the file for equal ones."""
    found = [
        Step(at, index, name, at_port(action, count))
        for index, action in enumerate(purpose.actions)
        for count, at in enumerate(times(action))
        for name in names_of(action)
    ]
    return sorted(found, key=lambda step: (step.at, step.index))
