"""What other sources say of the library for C besides structs and numbers: which of its functions
each has, the codes and messages of statuses and faults, and the defaults of a station. Each
function returns what is wrong, as lines.
"""

import ast
import re

import c_layout as layout
import c_twins as twins
from c_compare import HEADER, LIBRARY, PYTHON, RUST, structs_of

TEXT = "c/text.c"
# The functions of the header that a source does without: those for which its language has something
# else (docs/CALLS.md).
WITHOUT = {
    f"{RUST}/ffi.rs": {"code", "new", "next_beacon", "send_shb_with_lifetime", "version"},
    f"{PYTHON}/library.py": {
        "abi", "code", "new", "next_beacon", "send_shb_with_lifetime", "version"
    },
    "c/geostation.hpp": {"abi", "code", "fault_text", "new", "version"},
    "c/test.c": set(),
    "docs/CALLS.md": {"config_init"},
}
CALLED = {
    "c/geostation.hpp": r"\bgeostation_(\w+)\(",
    "c/test.c": r"\bgeostation_(\w+)\(",
    # A call that has one name in each language is in a list there, without `geostation_`.
    "docs/CALLS.md": r"`(?:geostation_(?=\w+`)|(?=\w+`\s\())(\w+)`",
}
# Codes that Rust does not make of the number of the status.
OF_RUST = re.compile(r'^ *Code::OfCall\(Error::(\w+)\) => f\.write_str\("([^"]+)"\)', re.M)


def functions_in(path, text):
    """The functions of the header that a source has, without `geostation_`."""
    if path in CALLED:
        return set(re.findall(CALLED[path], text))
    is_python = path.endswith(".py")
    return set(twins.Python(text).functions() if is_python else twins.rust_functions(text))


def check_bindings(sources):
    """Each language has each function, but those it does without. So has the test, and the page of
    all calls."""
    wanted, wrong = layout.header_functions(sources.text(HEADER)), []
    for path, without in WITHOUT.items():
        found = functions_in(path, sources.text(path))
        lost = [name for name in wanted if name not in found and name not in without]
        wrong += [f"{path}: no {name}, which {HEADER} has" for name in lost]
        wrong += [f"{path}: has {name}, which it should do without" for name in without & found]
    return wrong


def check_sums(sources):
    """Each count is added in ns-3, for a station that was replaced, and the daemon has each one in an
    answer and in its metrics."""
    path = "ns3/geostation-ns3.hpp"
    body = re.search(r"void AddCounts\(.*?\n    \}", sources.text(path), re.S)[0]
    found = re.findall(r"sum\.([\w.]+) \+= more\.([\w.]+);", body)
    names = [it.named() for it in layout.leaves("counts", structs_of(sources))]
    wrong = [f"{path}: {one} is added to {other}" for one, other in found if one != other]
    lost = [name for name in names if (name, name) not in found]
    wrong += [f"{path}: AddCounts lacks {name}" for name in lost]
    path = "c/link/counts.c"
    used = re.findall(r"\b(?:c->|counts\.)([\w.]+)", sources.text(path))
    return wrong + [f"{path}: {name} is not there twice" for name in names if used.count(name) < 2]


def cases_in(text, function):
    """The texts that a function of C returns for each status."""
    body = re.search(rf"\b{function}\(int status\) \{{\n(.*?)^\}}", text, re.M | re.S)[1]
    return dict(re.findall(r'case GEOSTATION_(\w+): return "([^"]*)";', body))


def dict_in(path, sources, name):
    """A dictionary of a source in Python: by the last part of its keys."""
    rows = twins.Python(sources.text(path)).values[name]
    keys = [key.attr if isinstance(key, ast.Attribute) else key.value for key in rows.keys]
    return dict(zip(keys, [value.value for value in rows.values]))


def differences(path, what, wanted, found):
    """A line for each name of which a source says something else than another."""
    return [
        f"{path}: {what} of {name} is {found.get(name)!r}, not {wanted.get(name)!r}"
        for name in sorted({*wanted, *found}, key=str)
        if wanted.get(name) != found.get(name)
    ]


def rust_codes(text, numbers):
    """The codes of the package for Rust: S and the number, but those that it spells out and the
    errors that have none."""
    special = {twins.snake(name): code for name, code in OF_RUST.findall(text)}
    nothing = re.search(r"Code::OfCall\(([^()]*(?:\(_\))?[^()]*)\) => Ok\(\(\)\)", text)[1]
    without = {twins.snake(name) for name in re.findall(r"Error::(\w+)", nothing)}
    usual = {name: f"S{number}" for name, number in numbers.items() if number != 0}
    return {name: code for name, code in (usual | special).items() if name not in without}


def check_codes(sources):
    """The code of each status: in a comment of the header, in C, in Python and in Rust."""
    text = sources.text(HEADER)
    said = re.findall(r"\((S\d(?: B\d)?)\)(?:(?!\*/).)*?\*/\s+GEOSTATION_(\w+) =", text, re.S)
    wanted = {name: code for code, name in said}
    wrong = differences(TEXT, "the code", wanted, cases_in(sources.text(TEXT), "status_code"))
    path = f"{PYTHON}/errors.py"
    wrong += differences(path, "the code", wanted, dict_in(path, sources, "CODES"))
    path = f"{RUST}/error.rs"
    numbers = layout.header_enums(text)["status"]
    return wrong + differences(path, "the code", wanted, rust_codes(sources.text(path), numbers))


def check_texts(sources):
    """The messages of statuses and faults, which Python has for a machine without the library."""
    text, path = sources.text(TEXT), f"{PYTHON}/errors.py"
    statuses = cases_in(text, "geostation_status_text")
    del statuses["OK"]
    wrong = differences(path, "the message", statuses, dict_in(path, sources, "TEXTS"))
    listed = re.search(r"const texts\[\] = \{(.*?)\};", text, re.S)[1]
    packets = dict(enumerate(re.findall(r'"([^"]*)"', listed), 1))
    wrong += differences(path, "the message", packets, dict_in(path, sources, "PACKET_TEXTS"))
    body = re.search(r"geostation_fault_text\(.*?\{(.*?)^\}", text, re.M | re.S)[1]
    frames = {int(number): said for number, said in re.findall(r'case (\d): return "(.*?)"', body)}
    del frames[0]
    return wrong + differences(path, "the message", frames, dict_in(path, sources, "FAULT_TEXTS"))


def python_defaults(text, name):
    """The defaults of a class in the package for Python."""
    classes = {it.name: it for it in ast.parse(text).body if isinstance(it, ast.ClassDef)}
    rows = [it for it in classes[name].body if isinstance(it, ast.AnnAssign)]
    return {it.target.id: int(it.value.value) for it in rows}


def daemon_limits(text):
    """The defaults of the limits and of contention in the help of the daemon."""
    found = re.findall(r"^ *\"  --([a-z-]+) (?:N|MS|M)\b.*?\[default: (\d+)\]", text, re.M | re.S)
    return {name.replace("-", "_"): int(number) for name, number in found}


def contention_defaults(sources):
    """The defaults of contention in the packages and in the help of the daemon, by source."""
    path = f"{RUST}/station.rs"
    made = re.search(r"Contention \{ (min: .*?) \}", sources.text(path))[1]
    yield path, {name: int(number) for name, number in re.findall(r"(\w+): (\d+)", made)}
    path = f"{PYTHON}/values.py"
    yield path, python_defaults(sources.text(path), "Contention")
    path = "c/link/arguments.c"
    found = daemon_limits(sources.text(path))
    names = ("max", "min", "range", "copies")
    yield path, {name: found.get(f"contention_{name}") for name in names}


def check_defaults(sources):
    """The default of each field of a config: in a comment of the header, in the definition of the
    proved library, and of limits and contention in the packages and in the daemon's help. What a source has
    besides is its own."""
    text = sources.text(HEADER)
    body = re.search(r"^struct geostation_config \{(.*?)^\};", text, re.M | re.S)[1]
    inside = r"(?:(?!\*/).)*?"
    before = re.findall(rf"/\*\*{inside}default (\d+)[:)]{inside}\*/\s+\w+ (\w+);", body)
    after = re.findall(r"^ *\w+ (\w+);\s*/\*\*.*?\(default (\d+)\) \*/", body, re.M)
    wanted = {name: int(number) for number, name in before}
    wanted |= {name: int(number) for name, number in after}
    lost = [it.name for it in structs_of(sources)["config"] if it.name not in wanted]
    wrong = [f"{HEADER}: no default of {name}" for name in lost if name != "size"]
    limits = [it.name for it in structs_of(sources)["config"]][8:16]
    path = f"{LIBRARY}/specs/Configs.antt"
    usual = re.search(r"^usual_config =\n(.*?)\}", sources.text(path), re.M | re.S)[1]
    found = {name: int(number) for name, number in re.findall(r"(\w+) = (?:pos )?(\d+)", usual)}
    del found["size"]
    wrong += differences(path, "the default", wanted, found)
    path = f"{RUST}/station.rs"
    made = re.search(r"fn default\(\) -> Limits \{(.*?)^    \}", sources.text(path), re.M | re.S)[1]
    rows = re.findall(r"(\w+): (\d+|true|false)", made)
    of_rust = {name: {"true": 1, "false": 0}.get(word) or int(word) for name, word in rows}
    of_python = python_defaults(sources.text(f"{PYTHON}/values.py"), "Limits")
    of_daemon = daemon_limits(sources.text("c/link/arguments.c"))
    of_limits = {name: wanted.get(name) for name in limits}
    for where, found in (
        (path, of_rust),
        (f"{PYTHON}/values.py", of_python),
        ("c/link/arguments.c", {name: of_daemon.get(name) for name in limits}),
    ):
        wrong += differences(where, "the default", of_limits, found)
    prefix = "contention_"
    rule = {it.removeprefix(prefix): wanted[it] for it in wanted if it.startswith(prefix)}
    for where, found in contention_defaults(sources):
        wrong += differences(where, "the default", rule, found)
    return wrong
