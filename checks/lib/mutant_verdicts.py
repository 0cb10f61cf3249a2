"""What the prover says of a crate with mutants in it, and the verdict on each mutant.

- GOAL, refused: a goal of the mutant's own function is open, or the prover names values at which a
  step of its answer is false.
- ANSWER, not decided: what `proofs/` has for the function no longer fits. That says nothing of its
  contract: the change may be right, and proved as soon as the proof is written for it. Nor does an
  open goal, if there was an answer for the same clause whose goal has another name now, or if the
  invariants of the function's loops no longer fit.
- MISSED, not refused: nothing of the function is open, or the prover can't read what was changed.
- WAITS: the function only waits for another one that isn't proved.

`mutant_outputs/` has outputs of the prover, each with the verdict that it deserves.
"""

import re
from pathlib import Path

from mutant_files import Mutant

OUTPUTS = Path(__file__).resolve().parent / "mutant_outputs"
GOAL, ANSWER, MISSED, WAITS = "refused", "NOT DECIDED", "NOT REFUSED", "waits"

# What a check says: of an item; of a proof file; of a goal; of a text that it can't read.
TOLD = re.compile(r"(?:fn|impl|struct|enum|trait|type) (\S+?): "
                  r"(proved|not proved|no proof|could not tell|assumed)\b(.*)")
PROOF = re.compile(r"(?:note: )?(?:\./)?proofs/(.+?)/[^/]*\.antt(?::\d+:\d+)?: (.*)")
OPEN = re.compile(r"note: src/.*(it is not proved that|`search` found no proof)")
UNREAD = re.compile(r"(\./)?(src|specs)/\S+: error|\S*error\[[\w-]+\]:")
# Why a proof fails that says nothing of a contract.
UNCOVERED = "does not cover"
GONE = re.compile(r"has no field|is not in scope|has no `|was not admitted")
# What fails in a proof so that an open goal may be one that it would have closed: answers whose goals
# have other names, or that depend on such a name; invariants, which stand for any goal.
RENAMED = re.compile(r"error: `([\w-]+)`: .*\.Goals` has no `|(?:was|were) not checked: (.*)")
INVARIANTS = re.compile(r"proofs/.*/Invariants\.antt")
NAME_OF_OPEN = re.compile(r" \(`([\w-]+)`\)")
# Why an answer fails whose goal is false, of which it tells the values.
FALSE = "the goal fails, at"
CALLEE = re.compile(r"(?:it (?:calls|passes|waits for)|not made yet: a call of) .*")


class Said:
    """What a check said: of each item its state, its open goals and its false ones, answers that no
    longer fit, the goals of those that aren't used, what says nothing of a contract, and what it waits
    for."""

    def __init__(self, crate: str, lines: list):
        self.state, self.goals, self.false, self.waits = {}, {}, {}, {}
        self.answers, self.unused, self.empty = {}, {}, {}
        self.last = next((line for line in reversed(lines) if line.strip()), "nothing said")
        self.verdict = next((line for line in lines if re.match("logic=|only=", line)), "")
        self.is_proved = bool(re.match(r"logic=proved\b|only=(\d+) proved=\1$", self.verdict))
        self.error, goals = "", []
        for line in lines:
            told, proof = TOLD.match(line), PROOF.match(line)
            if UNREAD.match(line):
                self.error = self.error or line
            elif proof and self.tell_proof(proof[1].replace("/", "::"), line, proof[2]):
                continue
            elif OPEN.match(line):
                goals.append(line)
            elif told:
                self.tell(crate, told, goals)
                goals = []

    def tell_proof(self, name: str, line: str, text: str):
        """Notes the line of a function's proof. Whether it is an error."""
        if "error" in text:
            self.unused.setdefault(name, set()).update(names_of_unused(line))
        if GONE.search(text):
            kind = self.empty
        elif FALSE in text:
            kind = self.false
        elif text.startswith("error"):
            kind = self.answers
        else:
            return False
        kind.setdefault(name, line)
        return True

    def tell(self, crate: str, told, goals: list):
        """Notes the line of an item, before which its goals stand."""
        name, self.state[name] = told[1].removeprefix(f"{crate}::"), told[2]
        if told[2] in ("proved", "assumed"):
            return
        if UNCOVERED in told[3]:
            self.empty[name] = told[0]
        elif goals:
            self.goals[name] = goals
        callee = CALLEE.search(told[3])
        names = re.findall(r"`([^`]*)`", callee[0]) if callee else []
        self.waits[name] = {it.removeprefix(f"{crate}::") if "::" in it else f"{name}::{it}"
                            for it in names}

    def whole(self, function: str):
        """A function with its closures, whose names are module::fn::rest::closure."""
        parts = function.split("::")
        inner = tuple("::".join([*parts[:at], "fn", *parts[at:], ""]) for at in range(len(parts)))
        every = {*self.state, *self.goals, *self.false, *self.answers, *self.empty}
        return {it for it in every if it == function or it.startswith(inner)}

    def waited_for(self, function: str):
        """All that a function waits for: what it calls that isn't proved, what that waits for .."""
        own = self.whole(function)
        seen, left = set(), own
        while left:
            seen |= left
            left = {it for name in left for it in self.waits.get(name, ())} - seen
        return seen - own

    def trouble(self, mutants: list):
        """Why this check can't be believed of these mutants, if it can't."""
        if self.error or not self.verdict:
            return self.error or self.last
        alone = (it for it in self.waits if not self.waits[it])
        unproved = {*self.goals, *self.false, *self.answers, *alone}
        strays = unproved.difference(*(self.whole(it.function) for it in mutants))
        return f"open, and no mutant's: {', '.join(sorted(strays))}" if strays else ""

    def judge(self, mutant: Mutant):
        """What a mutant came to, and the line that says so."""
        own = sorted(self.whole(mutant.function))
        uncovered = {it: line for it, line in self.empty.items() if UNCOVERED in line}
        unused = set().union(*(self.unused.get(it, ()) for it in own))
        is_open = {it: [line for line in lines if not is_answered(line, unused)]
                   for it, lines in self.goals.items()}
        counted = {it: lines[0] for it, lines in is_open.items() if lines}
        explained = {it: lines[0] for it, lines in self.goals.items()}
        for kind, lines in ((MISSED, uncovered), (GOAL, self.false), (GOAL, counted),
                            (ANSWER, explained), (MISSED, self.empty), (ANSWER, self.answers)):
            for name in own:
                if name in lines:
                    return kind, lines[name]
        waits = self.waited_for(mutant.function)
        if waits:
            return WAITS, f"it waits for {', '.join(sorted(waits))}"
        return MISSED, "no goal of its own is open"


def names_of_unused(line: str):
    """The goals whose answers aren't used because of this error: all, as an empty name, if it is in
    the invariants."""
    if INVARIANTS.search(line):
        return {""}
    found = RENAMED.search(line)
    return set((found[1] or found[2]).split(", ")) if found else set()


def is_answered(line: str, unused: set):
    """Whether an open goal may be one of these, or the same clause of the function under a new name."""
    found = NAME_OF_OPEN.search(line)
    name = found[1] if found else ""
    clause = name.rpartition("clause-")[2]
    same = (it.rpartition("clause-")[2] == clause for it in unused if "clause-" in name)
    return any(same) or any(name.startswith(it) for it in unused)


def wrong_verdicts():
    """What is judged otherwise of the outputs in `mutant_outputs/`, and how many there are. The first
    lines of an output say what was changed, then `CRATE FUNCTION: VERDICT`."""
    wrong, paths = [], sorted(OUTPUTS.glob("*.txt"))
    for path in paths:
        lines = path.read_text(encoding="utf-8").split("\n")
        head = next(line for line in lines if not line.startswith("# "))
        crate, function, wanted = re.fullmatch(r"(\w+) (\S+): (.*)", head).groups()
        said = Said(crate, lines)
        mutant = Mutant(path.stem, "", {}, function)
        trouble = said.trouble([mutant])
        found, why = (MISSED, trouble) if trouble else said.judge(mutant)
        if found != wanted:
            wrong.append(f"{path.name}: has to be '{wanted}', and is '{found}': {why}")
    return wrong, len(paths)
