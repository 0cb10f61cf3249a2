"""Compares what other sources say of the library for C with c/geostation.h, which is the one table:
structs field by field, functions argument by argument, and numbers by name. Each function returns
what is wrong, as lines.
"""

import re

import c_layout as layout
import c_twins as twins
from planting import find

HEADER = "c/geostation.h"
LIBRARY = "crates/its_c"
LIBRARY_SOURCES = f"{LIBRARY}/src/**/*.rt"
LIBRARY_SPECS = f"{LIBRARY}/specs/**/*.antt"
RUST = "rust/geostation/src"
PYTHON = "python/geostation"
# Names of cases elsewhere, and those of the header.
ALIASES = {
    "FRAME": "BAD_FRAME",
    "SECURED": "BAD_FRAME",
    "PORT_FULL": "PORTS_FULL",
    "SINGLE_HOP": "SHB",
    "GEOBROADCAST": "GBC",
    "GEOANYCAST": "GAC",
}
# The part of the proved library's counts that the header has without a name.
UNNAMED = "told"


def structs_of(sources):
    """The structs of the header."""
    return layout.header_structs(sources.text(HEADER))


def same_place(one, other):
    """Whether two paths of names are those of one integer. An array may stand for a struct without
    a name."""
    one, other = ([it for it in path if it != UNNAMED] for path in (one, other))
    if len(one) != len(other):
        return one[-1] == other[-1]
    mixed = isinstance(one[-1], int) != isinstance(other[-1], int)
    return one[:-1] == other[:-1] if mixed else one == other


def compare_leaves(where, wanted, found):
    """The first integer that is another than in the header, or is there in one of the two only."""
    for ours, theirs in zip(wanted, found):
        if ours[:2] != theirs[:2] or not same_place(ours.path, theirs.path):
            said = f"{theirs.type} {theirs.named()} at {theirs.at}"
            return [f"{where}: {said}, but {HEADER} has {ours.type} {ours.named()} at {ours.at}"]
    for it in wanted[len(found) :]:
        return [f"{where}: no {it.named()}, which {HEADER} has at {it.at}"]
    for it in found[len(wanted) :]:
        return [f"{where}: {it.named()} at {it.at}, which {HEADER} does not have"]
    return []


def compare_structs(sources, path, structs, names):
    """The structs of a source, by their names in the header."""
    wrong = [f"{path}: no struct {name}" for name in structs_of(sources) if name not in names]
    for name, twin in names.items():
        if name not in structs_of(sources):
            wrong.append(f"{path}: {HEADER} has no struct geostation_{name}")
            continue
        wanted = list(layout.leaves(name, structs_of(sources)))
        try:
            wrong += compare_leaves(f"{path}: {twin}", wanted, list(layout.leaves(twin, structs)))
        except KeyError as kind:
            wrong.append(f"{path}: {twin}: {kind} is no integer, and no struct with C's layout")
    return wrong


def check_header(sources):
    """The header asserts the size of each struct and the offset of each field but the first."""
    sizes, offsets = layout.header_asserts(sources.text(HEADER))
    wanted_sizes, wanted = {}, {}
    for name, fields in structs_of(sources).items():
        wanted_sizes[name] = layout.measure(name, structs_of(sources))[0]
        for at, field in layout.starts(fields, structs_of(sources)):
            inner = field.type if isinstance(field.type, list) else []
            for more, it in layout.starts(inner, structs_of(sources)):
                wanted[name, f"{field.name}.{it.name}"] = at + more
            if not inner:
                wanted[name, field.name] = at
    wrong = [
        f"{HEADER}: GEOSTATION_SIZE({name}, ..) is {sizes.get(name)}, and the struct has {size}"
        for name, size in wanted_sizes.items()
        if sizes.get(name) != size
    ]
    for (name, field), at in wanted.items():
        if at and offsets.get((name, field)) != at:
            said = offsets.get((name, field), "missing")
            macro = f"GEOSTATION_AT({name}, {field}, ..)"
            wrong.append(f"{HEADER}: {macro} is {said}, and the field is at {at}")
    lost = offsets.keys() - wanted.keys()
    return wrong + [f"{HEADER}: no field {field} in {name}" for name, field in sorted(lost)]


def check_library_structs(sources):
    """The structs of the proved library."""
    structs, names, paths = {}, {}, set()
    for path in find(LIBRARY_SOURCES):
        more, named = twins.rust_structs(sources.text(path))
        structs.update(more)
        names.update(named)
        paths.update([path] if named else [])
    return compare_structs(sources, " ".join(sorted(paths)), structs, names)


def check_rust_structs(sources):
    """The structs of the package for Rust, the sizes that it asserts, and its order of counts."""
    path = f"{RUST}/ffi.rs"
    structs, names = twins.rust_structs(sources.text(path))
    wrong = compare_structs(sources, path, structs, names)
    of_twin = {twin: name for name, twin in names.items()}
    for twin, size in re.findall(r"size_of::<(\w+)>\(\) == (\d+)", sources.text(path)):
        if layout.measure(of_twin[twin], structs_of(sources))[0] != int(size):
            wrong.append(f"{path}: the size of {twin} isn't {size} in {HEADER}")
    groups = {it.name: it.type for it in structs_of(sources)["counts"] if isinstance(it.type, list)}
    path = f"{RUST}/station.rs"
    named = re.findall(r"let \[([\w, ]+)\] = \w+\.(\w+);", sources.text(path))
    listed = {group: row.split(", ") for row, group in named}
    for group, fields in groups.items():
        if listed.get(group) != (wanted := [it.name for it in fields]):
            wrong.append(f"{path}: {group} is {listed.get(group)}, but {wanted} in {HEADER}")
    return wrong


def check_python_structs(sources):
    """The structs of the package for Python, and the sizes that it compares."""
    path = f"{PYTHON}/library.py"
    module = twins.Python(sources.text(path))
    names = {twins.snake(twin).lower(): twin for twin in module.structs}
    wrong = compare_structs(sources, path, module.structs, names)
    sizes = module.values["SIZES"]
    for key, size in zip(sizes.keys, sizes.values):
        if layout.measure(twins.snake(key.id).lower(), structs_of(sources))[0] != size.value:
            wrong.append(f"{path}: the size of {key.id} isn't {size.value} in {HEADER}")
    return wrong


def spelled(argument):
    """An argument, or the result, as a complaint has it."""
    return f"{argument[1]} {argument[0]}".strip() if argument else "no further argument"


def compare_functions(path, wanted, found, change, names_count):
    """The functions of a source: the result and the arguments of each, after `change` of both
    types, and the names of the arguments of which `names_count` holds."""
    wrong = []
    for name, (result, arguments) in found.items():
        if name not in wanted:
            wrong.append(f"{path}: {HEADER} has no geostation_{name}")
            continue
        ours = [("result", change(wanted[name][0]))]
        ours += [(it.name, change(it.type)) for it in wanted[name][1]]
        theirs = [("result", change(result))]
        theirs += [(it.name, change(it.type)) for it in arguments]
        for number in range(max(len(ours), len(theirs))):
            one, other = (row[number] if number < len(row) else None for row in (ours, theirs))
            differ = one is None or other is None or one[1] != other[1]
            if differ or names_count(*other) and one[0] != other[0]:
                said = f"{spelled(other)}, but {spelled(one)} in {HEADER}"
                wrong.append(f"{path}: geostation_{name}: {said}")
                break
    return wrong


def check_library_functions(sources):
    """The functions of the header, each in the proved library or in C."""
    wanted, seen, wrong = layout.header_functions(sources.text(HEADER)), set(), []
    named = {}
    for path in find(LIBRARY_SOURCES):
        named.update({twin: it for it, twin in twins.rust_structs(sources.text(path))[1].items()})
    named["Geostation"] = "handle"

    def change(kind):
        plain = re.sub(r"\w+$", lambda it: named.get(it[0], it[0]), kind)
        return "*handle" if plain == "*const handle" else plain

    for path in find(LIBRARY_SOURCES):
        found = twins.rattle_functions(sources.text(path))
        seen.update(found)
        wrong += compare_functions(
            path, wanted, found, change, lambda name, kind: "*" not in kind and name != ""
        )
    for path in ("c/text.c", "c/heap.c"):
        text = layout.plain(sources.text(path))
        seen.update(re.findall(r"^\w[\w *]*\bgeostation_(\w+)\([^;{]*\{", text, re.M))
    lost = wanted.keys() - seen
    return wrong + [f"{LIBRARY} and c/text.c have no geostation_{name}" for name in sorted(lost)]


def check_wrapper_functions(sources):
    """The proved functions that c/octets.c declares, because it calls them by another name."""
    path = "c/octets.c"
    wanted = layout.header_functions(sources.text(HEADER))
    found = layout.header_functions(sources.text(path).replace("proved_geostation_", "geostation_"))
    return compare_functions(path, wanted, found, str, lambda name, kind: True)


def check_rust_functions(sources):
    """The functions that the package for Rust declares."""
    path = f"{RUST}/ffi.rs"
    text = sources.text(path)
    named = {twin: name for name, twin in twins.rust_structs(text)[1].items()}

    def change(kind):
        return re.sub(r"\w+$", lambda it: named.get(it[0], it[0]), kind)

    wanted, found = layout.header_functions(sources.text(HEADER)), twins.rust_functions(text)
    return compare_functions(path, wanted, found, change, lambda name, kind: True)


def check_python_functions(sources):
    """Python does not say the names of arguments, nor which pointers are constant."""
    path = f"{PYTHON}/library.py"

    def change(kind):
        kind = kind.replace("const ", "")
        kind = re.sub(r"^\*(u8|char)$", "*octets", kind)
        return re.sub(r"[A-Z]\w+$", lambda it: twins.snake(it[0]).lower(), kind)

    found = {
        name: (result, [layout.Field("", kind) for kind in arguments])
        for name, (result, arguments) in twins.Python(sources.text(path)).functions().items()
    }
    wanted = layout.header_functions(sources.text(HEADER))
    return compare_functions(path, wanted, found, change, lambda name, kind: False)


def compare_numbers(path, enum, wanted, found, without=()):
    """The numbers of an enum. Each name is there but those of `without`."""
    wrong, seen = [], set()
    for name, number in found:
        name = ALIASES.get(name, name)
        seen.add(name)
        if wanted.get(name) != number:
            header = f"{wanted.get(name)} in {enum} of {HEADER}"
            wrong.append(f"{path}: {name} is {number}, but {header}")
    lost = [name for name in wanted if name not in seen and name not in without]
    return wrong + [f"{path}: no {name}, which {enum} of {HEADER} has" for name in lost]


def numbers_in(sources, pattern, read_numbers, *arguments):
    """The numbers that the sources of a pattern give to the cases of an enum."""
    texts = (sources.text(path) for path in find(pattern))
    return [pair for text in texts for pair in read_numbers(text, *arguments)]


def check_library_numbers(sources):
    """The numbers of the proved library, in its code and in its definitions."""
    enums = layout.header_enums(sources.text(HEADER))
    texts = [sources.text(path) for path in find(LIBRARY_SOURCES)]
    constants = [pair for text in texts for pair in twins.rust_constants(text).items()]
    statuses = [pair for pair in constants if pair[0] in enums["status"]]
    repeated = [pair for pair in constants if pair[0] == "REPEATED"]
    wrong = []
    for enum, owner, more in (
        ("status", "Refused", statuses),
        ("why", "Why", repeated),
        ("kind", "Kind", []),
        ("shape", "Shape", []),
    ):
        found = numbers_in(sources, LIBRARY_SOURCES, twins.rust_numbers, owner) + more
        wrong += compare_numbers(f"{LIBRARY}/src", enum, enums[enum], found)
    arguments = ("OK", "BAD_ARGUMENT", "NO_ROOM", "OVER_RATE")
    for enum, definition, without in (
        ("status", "status_of", arguments),
        ("why", "number_of", ("REPEATED",)),
        ("kind", "kind_number", ()),
        ("shape", "number_of_shape", ()),
    ):
        found = numbers_in(sources, LIBRARY_SPECS, twins.definition_numbers, definition)
        wrong += compare_numbers(f"{LIBRARY}/specs", enum, enums[enum], found, without)
    return wrong


def check_package_numbers(sources):
    """The numbers of the packages for Rust, Python and C++."""
    enums = layout.header_enums(sources.text(HEADER))
    wrong = []
    for file, enum, owner, without in (
        ("error.rs", "status", "Error", ("OK",)),
        ("station.rs", "why", "IgnoreReason", ("REPEATED",)),
        ("frame.rs", "kind", "Content", ("GAC",)),
        ("frame.rs", "shape", "Shape", ()),
    ):
        path = f"{RUST}/{file}"
        found = twins.rust_numbers(sources.text(path), owner)
        wrong += compare_numbers(path, enum, enums[enum], found, without)
    path = f"{RUST}/station.rs"
    kinds = twins.rust_constants(sources.text(path)).items()
    wrong += compare_numbers(path, "kind", enums["kind"], kinds, ("BEACON",))
    for file, enum, name in (
        ("errors.py", "status", "Status"),
        ("values.py", "why", "IgnoreReason"),
        ("values.py", "kind", "Kind"),
        ("values.py", "shape", "Shape"),
    ):
        path = f"{PYTHON}/{file}"
        found = twins.Python(sources.text(path)).enums[name].items()
        wrong += compare_numbers(path, enum, enums[enum], found)
    path = "c/geostation.hpp"
    pairs = re.findall(r"^    (\w+) = GEOSTATION_(\w+)\b", sources.text(path), re.M)
    found = [(twins.snake(name), enums["status"].get(word)) for name, word in pairs]
    return wrong + compare_numbers(path, "status", enums["status"], found)


def check_constants(sources, named, of_c):
    """The constants of the header. `named` has the name of each in the proved crates, but those
    of C: some crate has it. A package has those that it has under the header's name."""
    wanted = layout.header_constants(sources.text(HEADER))
    crates = {
        pair
        for path in find("crates/*/src/**/*.rt")
        for pair in twins.rust_constants(sources.text(path)).items()
    }
    wrong = [
        f"no crate has the constant {it} of {wanted.get(name)}, as {name} is in {HEADER}"
        for name, it in named.items()
        if (it, wanted.get(name)) not in crates
    ]
    lost = [name for name in wanted if name not in named and name not in of_c]
    wrong += [f"{HEADER}: nothing is compared with {name}" for name in lost]
    for path in find(f"{RUST}/*.rs") + find(f"{PYTHON}/*.py"):
        text = sources.text(path)
        is_python = path.endswith(".py")
        found = twins.Python(text).numbers() if is_python else twins.rust_constants(text)
        wrong += [
            f"{path}: {name} is {number}, but {wanted[name]} in {HEADER}"
            for name, number in found.items()
            if wanted.get(name, number) != number
        ]
    return wrong
