"""The mutants of a crate: crates/CRATE/mutants.txt.

    # a comment
    name_of_the_mistake
      src/x.rt: Type::function
    - old text
    + new text

A mutant is a name, the file that it changes, the function whose contract has to refuse it, and one
pair of texts or more, one line each. The old text occurs once in the body of that function, or is
the whole of one line of it.
"""

import re
from pathlib import Path
from typing import NamedTuple

from program import TOP

# A function's first line, and that of what it stands in, as `rt fmt` lays them out.
HEAD = re.compile(r'( *)(?:pub(?:\([^)]*\))? |const |unsafe |extern "C" )*fn (\w+)')
SCOPE = re.compile(r"( *)(?:pub(?:\([^)]*\))? )?(?:unsafe )?(mod|trait|impl)\b(.*)")


class Edit(NamedTuple):
    """A mutant as its file has it."""

    name: str
    path: str
    function: str
    pairs: tuple


class Mutant(NamedTuple):
    """A mutant with the lines that it changes, by their index, and its function with its module."""

    name: str
    path: str
    lines: dict
    function: str


def file_of(crate):
    return TOP / "crates" / crate / "mutants.txt"


def read_edits(crate):
    """The mutants of a crate, by their names. Raises ValueError if its file is not in the
    format."""
    path, found = file_of(crate), []
    lines = path.read_text(encoding="utf-8").split("\n") if path.exists() else []
    for number, line in enumerate(lines, 1):
        where = re.fullmatch(r"  (src/\S+\.rt): (\S+)", line)
        if re.fullmatch(r"\w+", line):
            found.append([line, "", "", []])
        elif where and found and not found[-1][1]:
            found[-1][1:3] = where.groups()
        elif line.startswith("- ") and found and found[-1][1]:
            found[-1][3].append([line[2:], None])
        elif line[:2] in ("+ ", "+") and found and found[-1][3] and found[-1][3][-1][1] is None:
            found[-1][3][-1][1] = line[2:]
        elif line and not line.startswith("# "):
            raise ValueError(f"{path.relative_to(TOP)}:{number}: not in the format: {line}")
    for name, _, _, pairs in found:
        if not pairs or any(new is None for _, new in pairs):
            raise ValueError(f"{path.relative_to(TOP)}: {name} has no pair of texts")
    edits = {it[0]: Edit(*it[:3], tuple(map(tuple, it[3]))) for it in found}
    if len(edits) != len(found):
        raise ValueError(f"{path.relative_to(TOP)}: a name occurs twice")
    return edits


def place(crate, edit):
    """The lines that a mutant changes. Raises ValueError if it does not change the body of its
    function, and only that."""
    source = TOP / "crates" / crate / edit.path
    if not source.exists():
        raise ValueError(f"there is no {edit.path}")
    lines = source.read_text(encoding="utf-8").split("\n")
    whole = "::".join((*module_of(edit.path), edit.function))
    bodies, changed = list(functions(edit.path, lines)), {}
    for old, new in edit.pairs:
        # (a text may be put behind the brace that opens the body)
        opens = old.endswith("{") and new.startswith(old)
        found = []
        for at, line in enumerate(lines):
            # (of functions in one another the inner one comes last)
            around = [it for it, begin, end in bodies if begin + (not opens) <= at < end]
            if old in line and around and around[-1] == whole:
                found.append(at)
        found = [at for at in found if lines[at] == old] if len(found) > 1 else found
        if len(found) != 1 or lines[found[0]].count(old) != 1 or old == new or found[0] in changed:
            raise ValueError(f"its text is in {edit.function} {len(found)} times: {old}")
        changed[found[0]] = lines[found[0]].replace(old, new)
    return Mutant(edit.name, edit.path, changed, whole)


def bodies_that_must_fail(crate):
    """The names of the edits of code that `rt ci` tries."""
    edits = sorted((TOP / "crates" / crate / "must-fail").glob("*.edit"))
    return [it.stem for it in edits if it.read_text(encoding="utf-8").startswith("file: src/")]


def faults(crates):
    """What is wrong with the mutants of these crates, without trying them."""
    wrong, names = [], {}
    for crate in crates:
        try:
            edits = read_edits(crate)
        except ValueError as error:
            wrong.append(str(error))
            continue
        for edit in edits.values():
            try:
                place(crate, edit)
            except ValueError as error:
                wrong.append(f"{crate}: {edit.name}: a bad edit: {error}")
            names.setdefault(edit.name, []).append(crate)
        for name in bodies_that_must_fail(crate):
            names.setdefault(name, []).append(f"{crate}/must-fail")
    wrong += [f"{name} is in {' and '.join(it)}" for name, it in names.items() if len(it) > 1]
    return wrong


def functions(path, lines):
    """Yields the functions of a file: the name below the crate, and the first and last line of the
    body. The layout is `rt fmt`'s: a body begins and ends at the indentation of its function."""
    scopes = [(-1, [*module_of(path)])]
    for at, line in enumerate(lines):
        scope, head = SCOPE.match(line), HEAD.match(line)
        if not (scope or head):
            continue
        depth = len((scope or head)[1])
        while scopes[-1][0] >= depth:
            scopes.pop()
        if scope:
            is_impl, first = scope[2] == "impl", re.match(r" *(\w*)", scope[3])[1]
            scopes.append((depth, [*scopes[-1][1], implemented(scope[3]) if is_impl else first]))
            continue
        below = range(at, len(lines))
        begin = next((it for it in below if opens_body(lines[it], depth)), at)
        end = next((it for it in below if it >= begin and lines[it] == " " * depth + "}"), begin)
        yield "::".join([*scopes[-1][1], head[2]]), begin, end


def module_of(path):
    """The names of the module that a file of src/ has, none for the crate's root."""
    names = Path(path).with_suffix("").parts[1:]
    return tuple(it for it in names if it not in ("lib", "main", "mod"))


def opens_body(line, depth):
    """Whether a line at this indentation opens a body, or ends a function that has none."""
    return len(line) - len(line.lstrip()) == depth and line.endswith(("{", ";"))


def implemented(head):
    """The name that rattle gives an impl: its type's, its trait's, and that of its trait's type. The
    types that it is for have a `+`: `PacketView+BasicHeader`."""
    alone = re.fullmatch(r"(?:<(.*?)>)? (\w+)<([^<>]*)> \{", head)
    if alone:
        free, name, given = alone.groups("")
        types = [it for it in given.split(", ") if not it.startswith("'")]
        return "+".join([name, *(it for it in types if it not in re.findall(r"\w+", free))])
    of = re.search(r"\w<(\w+)> for ", head)
    while re.search(r"<[^<>]*>", head):
        head = re.sub(r"<[^<>]*>", "", head)
    words = re.split(r"\bwhere\b", head.rstrip("{ "))[0].split(" for ")
    named = [re.sub(r".*::|[&\s]|\bmut\b", "", it) for it in reversed(words)]
    return "".join([*named, of[1] if of else ""])
