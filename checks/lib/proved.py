"""The pages docs/proof/NAME.md, one for each crate: what is proved of it, and what is only tested.

A page is written from the sources of the crate, and from nothing else:

- what `//!` of `src/lib.rt` says first (of a program, `src/main.rt`), and its sections: `What is
  proved` for what holds by a type or of several functions, `Only tested`, `By review` and so on
- functions whose `///` has words for their clauses: lines as ``- `fault`: the first fault.``
- all other public functions with a contract, with their `///` and the names of their clauses

Contracts are found by the layout that `rt fmt` gives every source, so nothing is parsed but the
beginnings of lines.
"""

import os
import re
import textwrap
from typing import NamedTuple

from program import TOP, crate_names

# What a page begins with after its title: no page that is written by hand has it.
MARK = "<!-- Written by checks/docs --write from the sources of this crate. -->"
# The sections of `//!` that a page has, as they are called there.
SECTIONS = (
    "What is proved",
    "Only tested",
    "By review",
    "Neither proved nor tested",
    "Not promised",
    "Trusted",
)

# Each public function of these crates has a contract.
STACK = (
    "its_gnvalue its_geometry its_faults its_model its_formats its_headers its_linkframe"
    " its_outside cap_linklayers cap_records::messages cap_pcap its_duplicates its_loctable"
    " its_forwarding its_btp its_duties its_station its_contention its_governor its_unit"
    " its_lines its_world its_c"
).split()
# The top of an impl or trait, and the type that a row is named for.
OWNER = re.compile(r"^(?:pub )?(?:impl|trait)\b(?:<.*?>)? ?(?:(\S.*) for )?([A-Za-z]\w*).* \{$")
# A function: what it is public by, and its name.
FUNCTION = re.compile(r'^( *)(pub )?(extern "C" )?fn (\w+)')
CLAUSE = re.compile(r"^ *(ensures|requires)(?: (\w+))? \{")
# A clause that one of std's traits leaves to its implementation.
GIVEN = re.compile(r"^    ghost (from_gives|next_gives|eq) = ")
STD = {
    "From": "What `from`, and therefore `?`, makes of it.",
    "PartialEq": "When two are equal.",
    "Iterator": "What `next` returns, and what is left then.",
}


def sources(crate):
    """The source files of a crate but its own tests, the top first."""
    folder = TOP / "crates" / crate / "src"
    files = [path for path in folder.rglob("*.rt") if "tests" not in path.with_suffix("").parts]
    return sorted(files, key=lambda path: (path.name not in ("lib.rt", "main.rt"), path))


def shown_names(files):
    """The names that the crate shows: what a file re-exports, and what stands in a public module.
    Gives the names, and the stems of the public modules."""
    names, modules = set(), {"lib"}
    for path in files:
        text = path.read_text()
        for used in re.findall(r"^pub use ([^;]+);", text, re.MULTILINE):
            names.update(re.findall(r"\w+", used))
        modules.update(re.findall(r"^pub mod (\w+);", text, re.MULTILINE))
    return names, modules


def comment_above(lines, at):
    """The lines of the `///` above a line; attributes may stand between, each on a line or more."""
    comment, inside = [], False
    for line in reversed(lines[:at]):
        text = line.strip()
        if text.startswith("///"):
            comment.insert(0, text[3:].removeprefix(" "))
            continue
        inside = (inside or text.endswith("]")) and not text.startswith("#[")
        if not inside and not text.startswith("#["):
            break
    return comment


def contract(lines, at, indent):
    """The names of the clauses and of the conditions of a function, None for each unnamed one."""
    names = {"ensures": [], "requires": []}
    for line in lines[at:]:
        clause = CLAUSE.match(line)
        if clause:
            names[clause.group(1)].append(clause.group(2))
        body = line.startswith(indent + "{")
        plain = not any(names.values()) and line.endswith((" {", " {}"))
        if body or plain or line.endswith(";"):
            break
    return names["ensures"], names["requires"]


class Shown(NamedTuple):
    """A function that a crate shows, or another one whose `///` has words for its clauses: its
    name, its trait, its line, its comment, and the names of its clauses and conditions."""

    name: str
    trait: str
    line: int
    about: list
    ensures: list
    requires: list


# What a line of `///` begins with that has words for clauses: their names, those of fields of a
# clause, or `its clause`.
WORDS = re.compile(
    r"- ((?:(?:fields? )?`\w+`|its (?:clause|invariant)|its fields on the log)"
    r"(?:, (?:fields? )?`\w+`|, its fields on the log)*(?: \([^)]*\))?): "
)
DECLARED = re.compile(r"^(?:pub(?:\(crate\))? )?(?:struct|enum|trait) (\w+)")


def words_in(about):
    """The lines of a comment up to its words for clauses, and these, each in one line."""
    at = next((at for at, line in enumerate(about) if WORDS.match(line)), len(about))
    items = []
    for line in about[at:]:
        if line.startswith("- "):
            items.append(line)
        elif line.strip():
            items[-1] += " " + line.strip()
    return about[:at], items


def without_example(about):
    """The lines of a comment up to its first example."""
    fence = next((at for at, line in enumerate(about) if line.startswith("```")), len(about))
    return about[:fence]


def shown_functions(path, names, modules):
    """The functions of a file that its crate shows, by these names and public modules."""
    lines = path.read_text().split("\n")
    public, owner, trait, declared = path.stem in modules, None, None, False
    for at, line in enumerate(lines):
        top = OWNER.match(line)
        if top:
            trait, owner = top.groups()
            declared = line.startswith("pub trait")
        elif line.startswith("}"):
            trait = owner = None
        shown, given = public or owner in names, GIVEN.match(line)
        std = trait and trait.split("<")[0]
        if given and shown and std in STD:
            yield Shown(f"{trait} for {owner}", trait, at + 1, [STD[std]], [given.group(1)], [])
        function = FUNCTION.match(line)
        if not function:
            continue
        indent, is_public, exported, name = function.groups()
        of_owner = shown and (is_public or declared or trait) if indent else False
        of_crate = not indent and is_public and (public or name in names or exported)
        if of_owner or of_crate:
            about = without_example(comment_above(lines, at))
            shown_name = f"{owner}::{name}" if indent else name
            yield Shown(shown_name, trait, at + 1, about, *contract(lines, at, indent))


def worded(path):
    """The functions and types of a file whose `///` has words for clauses."""
    lines, owner = path.read_text().split("\n"), None
    for at, line in enumerate(lines):
        if top := OWNER.match(line):
            owner = top.group(2)
        elif line.startswith("}"):
            owner = None
        function, declared = FUNCTION.match(line), DECLARED.match(line)
        if function or declared:
            name = function.group(4) if function else declared.group(1)
            indent = function.group(1) if function else ""
            about = without_example(comment_above(lines, at))
            if words_in(about)[1]:
                clauses = contract(lines, at, indent) if function else ([], [])
                yield Shown(f"{owner}::{name}" if indent else name, None, at + 1, about, *clauses)


def named(names, lone, many):
    """Clauses in words."""
    words = [f"`{name}`" for name in names if name]
    unnamed = names.count(None)
    if unnamed:
        words.append(lone if unnamed == 1 else f"{unnamed} {many}")
    return ", ".join(words)


def cell(lines):
    """A comment as a cell of a table."""
    return " ".join(" ".join(lines).split()).replace("|", "\\|")


def row(link, it):
    """The row of a function."""
    clauses = named(it.ensures, "its clause", "unnamed clauses")
    if it.requires:
        clauses += f"; under {named(it.requires, 'one condition', 'conditions')}"
    about = cell(it.about) or f"`{it.name.rpartition('::')[2]}` of `{it.trait}`."
    return f"| [`{it.name}`]({link}) | {about} | {clauses} |"


def entry(link, it):
    """A function with words for its clauses: its comment, the words, and the names that no words
    are for."""
    about, items = words_in(it.about)
    said = {name for item in items for name in re.findall(r"`(\w+)`", WORDS.match(item)[1])}
    rest = [name for name in it.ensures if name and name not in said]
    lines = [f"### [`{it.name}`]({link})", "", *about]
    while not lines[-1].strip():
        lines.pop()
    lines += ["", *[line for item in items for line in filled(item, "  ")]]
    more = [f"Also {named(rest, '', '')}."] if rest else []
    more += [f"Under {named(it.requires, 'one condition', 'conditions')}."] if it.requires else []
    return [*lines, *(["", " ".join(more)] if more else [])]


def filled(text, indent=""):
    """A text in lines of a page."""
    return textwrap.wrap(text, 100, subsequent_indent=indent, break_long_words=False,
                         break_on_hyphens=False)  # fmt: skip


def refilled(text):
    """Paragraphs and lists of a text, in lines of a page."""
    lines = []
    for block in text.split("\n\n"):
        lines += [""] if lines else []
        for item in re.split(r"\n(?=- )", block):
            words = " ".join(item.split())
            lines += filled(words, "  " if words.startswith("- ") else "")
    return lines


def description(lines):
    """What `//!` says first, and its sections by their names."""
    text = [line[3:].removeprefix(" ") for line in lines if line.startswith("//!")]
    first, sections, name = [], {}, None
    for line in text:
        if line.startswith("# "):
            name = line[2:]
            sections[name] = []
        elif name:
            sections[name].append(line)
        else:
            first.append(line)
    end = next((at for at, it in enumerate(first) if it.startswith(("```", "- "))), len(first))
    first = first[:end]
    # What leads to an example has no place without it.
    while first and (not first[-1].strip() or first[-1].endswith(":")):
        first.pop()
    return first, sections


class Page:
    """The page of a crate, with its links from a folder, and what is wrong in the sources."""

    def __init__(self, crate, folder):
        self.crate, self.folder, self.wrong = crate, folder, []
        self.files = sources(crate)
        about, sections = description(self.files[0].read_text().split("\n"))
        if not about:
            self.wrong.append(f"{crate}: src/lib.rt has no subject (`//!`)")
        shown, entries = self.functions_of(*shown_names(self.files))
        self.functions = len([it for _, it in shown + entries if it.ensures])
        self.is_empty = not shown and not entries and not sections
        # What rustdoc makes a link of is none here.
        about = [re.sub(r"\[(`[^`]+`)\](?!\()", r"\1", line) for line in about]
        lines = [f"# `{crate}`", "", MARK, "", *about]
        for name in SECTIONS[:1]:
            lines += self.section(name, sections)
        if entries:
            lines += ["", "## Clauses in words"]
            lines += [line for link, it in entries for line in ["", *entry(link, it)]]
        if shown:
            head = "## Other public functions" if entries else "## Public functions"
            lines += ["", head, "", "| Function | What it does | Clauses |", "|---|---|---|"]
            lines += [row(link, it) for link, it in shown]
        for name in SECTIONS[1:]:
            lines += self.section(name, sections)
        self.text = "\n".join(lines).rstrip("\n") + "\n"

    def section(self, name, sections):
        """A section of `//!`, with links to the pages that it names."""
        if name not in sections:
            return []
        crates = crate_names()
        text = "\n".join(sections[name]).strip("\n")
        text = re.sub(r"docs/proof/(\w+\.md)", r"[\1](\1)", text)
        text = re.sub(
            r"`(\w+)`",
            lambda it: f"[{it[0]}]({it[1]}.md)"
            if it[1] in crates and it[1] != self.crate and not it[1].startswith("test_")
            else it[0],
            text,
        )
        return ["", f"## {name}", "", *refilled(text)]

    def functions_of(self, names, modules):
        """The public functions with a contract, and those with words for their clauses, each with a
        link to its source."""
        shown, entries, bare = [], [], []
        for path in self.files:
            link = os.path.relpath(path, self.folder)
            found = list(worded(path))
            entries += [(link, it) for it in found]
            taken = {it.line for it in found}
            for it in shown_functions(path, names, modules):
                if not it.about and not it.trait:
                    where = f"{path.relative_to(TOP)}:{it.line}"
                    self.wrong.append(f"{where}: {it.name} has no comment")
                if it.ensures and it.line not in taken:
                    shown.append((link, it))
                elif not it.ensures and not it.trait:
                    bare.append(it.name)
            self.wrong += unknown_words(path, found)
        if self.crate in STACK:
            self.wrong += [f"{self.crate}: {name} has no contract" for name in bare]
        return shown, entries


def unknown_words(path, found):
    """Words for clauses that their function doesn't have. A field is one of a definition."""
    wrong = []
    for it in found:
        for item in words_in(it.about)[1]:
            label = re.sub(r"\([^)]*\)", "", WORDS.match(item)[1])
            for name in re.findall(r"(?<!field )(?<!fields )`(\w+)`", label.partition("field")[0]):
                if it.ensures and name not in it.ensures:
                    where = f"{path.relative_to(TOP)}:{it.line}"
                    wrong.append(f"{where}: {it.name} has no clause {name}")
    return wrong
