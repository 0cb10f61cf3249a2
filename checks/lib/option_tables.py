"""The options of both programs, and the keys of `show`, wherever a source has a list of them.

Nothing is built: the help of `geostation-link` is a text of its source, and that of `geostation` is
what `install/texts` put into install/geostation.options. Each function returns what is wrong, as
lines.
"""

import re

import options
from c_layout import header_constants
from planting import Mistake, Sources, unnamed

HEADER = "c/geostation.h"
HELP = "c/link/arguments.c"
SETTINGS = "c/link/settings.c"
PAGE = "docs/LINK.md"
COMMANDS = "docs/commands"
FIELD = "crates/cmd_captures/src/field.rt"
FORMS = "crates/cmd_arguments/src/forms.rt"
JSON = "docs/formats/json.md"
TABLE = "install/geostation.options"
CODE = re.compile(r"`([^`]+)`")
# The first cell of a row of a table.
HEAD = re.compile(r"^\| ([^|]+) \|", re.M)
ROW = re.compile(r"^\| `(--[a-z-]+)(?: ([^`]+))?` \| ([^|]*)\| ([^|]*)\|", re.M)


def daemon_help(sources):
    """The options of the daemon's help, each with its text."""
    text = options.help_in_source(sources.text(HELP))
    listed = "\n\n".join(text.split("\n\n")[2:])
    items = re.findall(r"^  (--[a-z-]+(?: [^ ]+)?)\s(.*?)(?=^  --|^\S|^$)", listed, re.M | re.S)
    return {item.strip(): " ".join(said.split()) for item, said in items}


def daemon_ranges(sources):
    """The least and the greatest value of each number that the daemon reads, by its option, and the
    options whose row has other words for them."""
    named = {f"GEOSTATION_{it}": n for it, n in header_constants(sources.text(HEADER)).items()}
    named |= dict(re.findall(r"\b(VERIFIES_ASKED) = (\d+)", sources.text("c/link/security.h")))
    text = re.sub(r"\w+", lambda it: str(named.get(it[0], it[0])), sources.text(SETTINGS))
    numbers = re.findall(r'NUMBER\("([a-z-]+)", \w+, [^,]+, (\d+), (\d+), \d+\)', text)
    rows = {f"--{name}": (least, most) for name, least, most in numbers}
    most = str(named["GEOSTATION_RATE_MAX"])
    rows |= {f"--{name}": ("0", most) for name in re.findall(r'LIMIT\("([a-z-]+)"', text)}
    listed = re.findall(r'^    NUMBER\("([a-z-]+)"', text, re.M)
    return rows, [name for name in listed if f"--{name}" not in rows]


def check_daemon_page(sources):
    """The daemon's page has each option of its help, in that order, with the range of the source
    and the default of the help."""
    in_help, wrong = daemon_help(sources), []
    wanted = [item for item in in_help if item not in ("--version", "--help")]
    rows = {" ".join(filter(None, row[:2])): row[2:] for row in ROW.findall(sources.text(PAGE))}
    if list(rows) != wanted:
        differ = sorted({*rows} ^ {*wanted}) or ["the order"]
        wrong.append(f"{PAGE}: the options are not those of the help: {', '.join(differ)}")
    ranges, unread = daemon_ranges(sources)
    wrong += [f"{SETTINGS}: the range of {name} is not two numbers" for name in unread]
    for item in filter(rows.get, wanted):
        limits, usual = (cell.strip() for cell in rows[item])
        default = re.search(r"\[default: ([^\]]+)\]", in_help[item])
        if default and default[1] != usual:
            wrong.append(f"{PAGE}: the default of {item} is {usual}, but {default[1]} in the help")
        least, most = ranges.get(item.split()[0], ("", ""))
        names = (f"{least} to {most}", f"{least} or {most}")
        if least and not limits.startswith(names):
            wrong.append(f"{PAGE}: the range of {item} is {limits}, but {names[0]} in {SETTINGS}")
    return wrong


def check_daemon_files(sources):
    """The manual page of the daemon and its completions have each option of its help."""
    in_help, wrong = {item.split()[0] for item in daemon_help(sources)}, []
    for path in ("install/geostation-link.options", "install/geostation-link.1"):
        text = sources.text(path).replace(".It Fl -", "-  --")
        found = set(re.findall(r"^-  (--[a-z-]+)", text, re.M))
        wrong += [f"{path}: {item}, which the help lacks" for item in sorted(found - in_help)]
        wrong += [f"{path}: no {item}, which the help has" for item in sorted(in_help - found)]
    return wrong


def check_forms(sources):
    """The table of completions has the options of the source of the help, each with its text."""
    texts = {}
    for call in re.findall(r"Argument::\w+\((.*?)\)[,;]", sources.text(FORMS), re.S):
        strings = re.findall(r'"((?:[^"\\]|\\.)*)"', call)
        if strings and re.fullmatch(r"[a-z-]+", strings[0]):
            texts.setdefault(strings[0], set()).add(strings[-1])
    wrong, found = [], set()
    for line in sources.text(TABLE).splitlines():
        cells = re.split("  +", line)
        name = re.search(r"--([a-z-]+)", cells[1] if len(cells) == 5 else "")
        if name and name[1] not in ("help", "version"):
            found.add(name[1])
            if cells[4] not in texts.get(name[1], ()):
                wrong.append(f"{TABLE}: {FORMS} has another text of --{name[1]}: {cells[4]}")
    return wrong + [f"{TABLE}: no --{name}, which {FORMS} has" for name in sorted({*texts} - found)]


def check_program(sources):
    """The page of a command, or one of those that have what is common, has each of its options."""
    table = options.read_table(sources.text(TABLE))
    common = sources.text(f"{COMMANDS}/README.md") + sources.text(f"{COMMANDS}/filters.md")
    wrong = []
    for command, (listed, _, _) in table.items():
        if command in ("-", "help"):
            continue
        path = "docs/STATION.md" if command == "station" else f"{COMMANDS}/{command}.md"
        cells = HEAD.findall(sources.text(path) + common)
        words = {word for cell in cells for text in CODE.findall(cell) for word in text.split()}
        for option in sorted(listed):
            name = re.search(r"--[a-z-]+", option)[0]
            if name not in ("--help", "--version") and name not in words:
                wrong.append(f"{path}: no {option}")
    return wrong


def check_keys(sources):
    """The keys of `show`: those of the source are in the help, and in the pages."""
    keys = re.findall(r'^ +Field::\w+ => "(\w+)",$', sources.text(FIELD), re.M)
    listed = re.search(r"Keys of --fields: (.*?)\n\n", sources.text(FORMS), re.S)[1]
    found = re.findall(r"\w+", re.sub(r"with --[a-z-]+", "", listed))
    wrong = [f"{FORMS}: the help and {FIELD} differ in the key {it}" for it in {*keys} ^ {*found}]
    cells = HEAD.findall(sources.text(f"{COMMANDS}/show.md"))
    cells += re.findall(r"^The keys are those of the.*?\n\n", sources.text(JSON), re.M | re.S)
    words = {word for cell in cells for text in CODE.findall(cell) for word in text.split()}
    return wrong + [f"{COMMANDS}/show.md: no key `{key}`" for key in keys if key not in words]


MISTAKES = [
    Mistake(PAGE, "| `--own-rate N` |", "| `--own-rates N` |", "own-rates N"),
    Mistake(PAGE, "0 to 255 | 10 | don't", "0 to 255 | 9 | don't", "hop-cap"),
    Mistake(SETTINGS, "FIELD(gps_timeout), 1, 3600", "FIELD(gps_timeout), 1, 600", "gps-timeout"),
    Mistake(HELP, "1 to 4096 [default: 4096]", "1 to 4096 [default: 64]", "capacity"),
    Mistake("c/link/security.h", "VERIFIES_ASKED = 12", "VERIFIES_ASKED = 16", "security-workers"),
    Mistake("install/geostation-link.options", "-  --audit ", "-  --audits ", "--audits"),
    Mistake("install/geostation-link.1", ".It Fl -metrics", ".It Fl -metric", "--metrics"),
    Mistake(SETTINGS, "FIELD(client_timeout), 0, 86400", "FIELD(client_timeout), 0, DAY", "range"),
    Mistake(FORMS, '"partial",', '"brief",', "no --brief"),
    Mistake(FORMS, '"Select refused records"', '"Select records"', "another text of --refused"),
    Mistake("docs/commands/show.md", "`--partial`", "`--cut`", "--partial"),
    Mistake("docs/STATION.md", "| `--remember N` |", "| `--numbers N` |", "--remember"),
    Mistake(FIELD, '=> "vlan"', '=> "tag"', "differ in the key tag"),
    Mistake(FORMS, "interface, length, vlan", "interface, vlan", "differ in the key length"),
    Mistake("docs/commands/show.md", "| `rssi` |", "| `signal` |", "no key `rssi`"),
]


def complaints(sources):
    """All that is wrong."""
    checks = (check_daemon_page, check_daemon_files, check_forms, check_program, check_keys)
    return [line for one in checks for line in one(sources)]


def check():
    """What is wrong, or which planted mistakes nothing names."""
    return complaints(Sources()) or unnamed(MISTAKES, complaints)
