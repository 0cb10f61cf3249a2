"""The page of all purposes."""

from __future__ import annotations

from collections import Counter

from .actions import UNSIGNED
from .expected import (
    Asked,
    Deliveries,
    Expectation,
    Numbered,
    Numbers,
    Position,
    Quiet,
    Relays,
    Secured,
    Silence,
)
from .keys import table as key_table
from .play import steps
from .purposes import Purpose

HEAD = (
    "| Purpose | Group | Clause | PICS | What | Frames | Expected | s | By the verdict"
    " | By the tester |\n"
    "|---|---|---|---|---|---|---|---|---|---|\n"
)
TOP = """# Test purposes

<!-- Written by checks/docs --write from the purposes in tester/suite. -->

After this page you know which purposes [the tester](TESTER.md) has. [EVIDENCE.md](EVIDENCE.md) has
the results. *Group* is the nearest one of TS 102 871-2, from memory. *PICS*: the items of
[PROFILE.md](PROFILE.md) that are tested. *Frames*: what the tester sends. *s*: how long it takes at
most, in seconds, with the wait for a first beacon. *By the verdict*: the duties that `geostation
verdict` has to pass. *By the tester*: the duties for which the tester compares frames with what is
expected. These are checked, not proved. A purpose that is *reported* never fails by what the tester
compares.

"""


KEYS = """
## Keys

A purpose is a TOML file in `tester/suite`. An unknown key is rejected.

"""


def seconds(purpose: Purpose) -> int:
    """How long it takes, with the wait of the preamble for a beacon."""
    return round((purpose.length() + purpose.settle) / 1000) + 4


def frames(purpose: Purpose) -> str:
    """How many frames of each kind are sent."""
    counts = Counter(step.action.do for step in steps(purpose))
    return ", ".join(f"{count} {kind}" for kind, count in counts.items())


def aims(e: Expectation) -> str:
    """The duties for which an expectation compares."""
    match e:
        case Relays():
            return e.duty + (" D19" if e.to else "") + (" D22" if e.after or e.before is not None else "")
        case Silence():
            return "D11"
        case Deliveries():
            return "delivery"
        case Asked():
            return "request D12" if e.to else "request"
        case Numbers() | Numbered():
            return "D6"
        case Quiet():
            return "D10"
        case Position():
            return "D9"
        case Secured():
            return "secured"


def has_message(purpose: Purpose, e: Expectation) -> bool:
    """Whether a forwarded message is compared octet by octet."""
    signed = {a.name for a in purpose.actions if a.fields.signed != UNSIGNED}
    return isinstance(e, Relays) and e.times > 0 and e.of in signed


def by_the_tester(purpose: Purpose) -> str:
    aimed = [aims(e) for e in purpose.expectations]
    aimed += ["D13" for e in purpose.expectations if has_message(purpose, e)]
    return " ".join(dict.fromkeys(" ".join(aimed).split()))


def row(p: Purpose) -> str:
    verdict = "reported" if p.report else " ".join(p.duties)
    cells = [p.name, p.group, p.clause, " ".join(p.pics), p.title, frames(p), p.expected]
    cells += [str(seconds(p)), verdict]
    return "| " + " | ".join([*cells, by_the_tester(p)]) + " |\n"


def table(purposes: list[Purpose]) -> str:
    return HEAD + "".join(map(row, purposes))


def page(purposes: list[Purpose]) -> str:
    return TOP + table(purposes) + KEYS + key_table()
