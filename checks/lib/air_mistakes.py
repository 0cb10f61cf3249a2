"""Mistakes of contention that checks/air puts into checks/lib/air.py on purpose.

    python3 checks/lib/air_mistakes.py FOLDER

Each is an edit of air.py: its runs of the scenarios contend-*.toml in FOLDER have to differ from those of
air.py in some scenario. So a program with the same mistake would differ from air.py there. This prints
the mistakes that no scenario shows, and ends with status 1 if there are any.
"""

from __future__ import annotations

import sys
import tomllib
from pathlib import Path
from types import ModuleType

SOURCE = (Path(__file__).parent / "air.py").read_text()
# The name of a mistake, what stands in air.py and what is put there.
MISTAKES = [
    ("any duplicate cancels", "same = self._replace(sender=held.sender) == held",
     "same = self.packet == held.packet"),
    ("a copy to one station cancels", "return same and self.to == BROADCAST and",
     "return self._replace(sender=0, to=0) == held._replace(sender=0, to=0) and"),
    ("a sender counts twice", "held.senders.add(heard.sender)",
     "held.senders.add(len(held.senders))"),
    ("the own link address counts", " and self.sender != own", ""),
    ("any hops cancel", "same = self._replace(sender=held.sender) == held",
     "same = self._replace(sender=held.sender, hops=held.hops) == held"),
    ("the wait is rounded down", "span**2 * square)", "span**2 * square) - 1"),
    ("the wait grows", "return self.longest - max(", "return self.shortest + max("),
    ("the wait by the place of the source", "if s.vector.mid == frame.sender]",
     "if s.vector.mid == packet.source.mid]"),
    ("PAI is not looked at", "is_known = known and known[0].pai", "is_known = bool(known)"),
    ("without a place the greatest wait", "return self.longest - tie % (quot(span, 2) + 1)",
     "return self.longest"),
    ("a GAC is held", 'packet.kind != "gbc" or not packet.area.holds(own)',
     "packet.area is None or not packet.area.holds(own) and packet.kind == 'gbc'"),
    ("a GBC outside is held", " or not packet.area.holds(own):", ":"),
    ("63 places", "MOST_HELD = 64", "MOST_HELD = 63"),
    ("65 places", "MOST_HELD = 64", "MOST_HELD = 65"),
    ("a restart keeps held frames", "self.held = [held for held in self.held if held.station != number]",
     "pass"),
    ("released before deliveries", "EVENTS, OWNS, RELEASES = range(5)",
     "EVENTS, RELEASES, OWNS = range(5)"),
    ("released before everything", "ROWS, LEAVES, EVENTS, OWNS, RELEASES = range(5)",
     "RELEASES, ROWS, LEAVES, EVENTS, OWNS = range(5)"),
    ("of a tie the last is released", "held = min(self.held, key=lambda held: held.due, default=None)",
     "held = min(reversed(self.held), key=lambda held: held.due, default=None)"),
    ("draws when a frame is held", "        elif entry.frame is not None and len(own) < MOST_HELD:",
     "        elif entry.frame is not None and len(own) < MOST_HELD:\n            self.draws.draw(100)"),
    ("a cancelled frame goes out",
     "self.held = [held for held in self.held if held.number not in entry.cancels]", "pass"),
    ("an absent station sends", "        if station not in self.world.present:\n            return\n        at = now",
     "        at = now"),
    ("one copy more cancels", "len(h.senders) >= self.rule.copies", "len(h.senders) > self.rule.copies"),
    ("released one ms early", "moments.append((held.due, RELEASES))",
     "moments.append((held.due - 1, RELEASES))"),
    ("stations of rows contend by the air", "contends=self.rows_contend)",
     "contends=self.air.get('contention', False))"),
]


def module_of(source: str) -> ModuleType:
    module = ModuleType("opinion")
    sys.modules["opinion"] = module
    exec(compile(source, "air.py", "exec"), module.__dict__)
    return module


def lines_of(module: ModuleType, file: Path) -> list[str]:
    moves = file.with_suffix(".csv")
    rows = moves.read_bytes() if moves.exists() else None
    lines = []
    try:
        world = module.World(tomllib.loads(file.read_text()), rows)
        for line in module.lines(world.run(), world, True):
            lines.append(line)
    except module.BadRow:
        lines.append("a bad row")
    return lines


def main(folder: Path) -> int:
    files = sorted(folder.glob("contend-*.toml"))
    right = {file: lines_of(module_of(SOURCE), file) for file in files}
    unseen = 0
    for name, old, new in MISTAKES:
        if SOURCE.count(old) != 1:
            print(f"{name}: {SOURCE.count(old)} places in air.py")
            unseen += 1
            continue
        module = module_of(SOURCE.replace(old, new))
        if all(lines_of(module, file) == right[file] for file in files):
            print(f"in no scenario: {name}")
            unseen += 1
    return int(unseen > 0)


if __name__ == "__main__":
    sys.exit(main(Path(sys.argv[1])))
