"""The structs of c/geostation.h, and their layout: each field with its type and its offset.

A type is that of Rust: `u8`, `u64`, `usize`, `u8[6]` for an array, `vector` for a struct of the
header, or a list of fields for a struct without a name. The layout is that of a 64-bit target, in
which each field is aligned to its size.
"""

import functools
import re
from typing import NamedTuple

# The types of C that the header has, as Rust names them.
OF_C = {
    "uint8_t": "u8",
    "uint16_t": "u16",
    "uint32_t": "u32",
    "uint64_t": "u64",
    "int16_t": "i16",
    "int32_t": "i32",
    "size_t": "usize",
    "int": "int",
    "char": "char",
    "void": "void",
}
SIZES = {"u8": 1, "u16": 2, "u32": 4, "u64": 8, "usize": 8, "i16": 2, "i32": 4}
ARRAY = re.compile(r"(\w+)\[(\d+)\]$")


class Field(NamedTuple):
    """A field of a struct: its name and its type."""

    name: str
    type: object


class Leaf(NamedTuple):
    """An integer of a struct: its offset, its type and its path of names. A number in the path is
    an index."""

    at: int
    type: str
    path: tuple

    def named(self):
        """The path as C spells it."""
        text = "".join(f"[{it}]" if isinstance(it, int) else f".{it}" for it in self.path)
        return text.removeprefix(".")


def measure(kind, structs):
    """The size and the alignment of a type."""
    array = ARRAY.match(kind) if isinstance(kind, str) else None
    if array:
        size, aligned = measure(array[1], structs)
        return size * int(array[2]), aligned
    if isinstance(kind, str) and kind in SIZES:
        return SIZES[kind], SIZES[kind]
    fields = structs[kind] if isinstance(kind, str) else kind
    end, most = 0, 1
    for field in fields:
        size, aligned = measure(field.type, structs)
        end = -(-end // aligned) * aligned + size
        most = max(most, aligned)
    return -(-end // most) * most, most


def starts(fields, structs):
    """The fields with their offsets."""
    end = 0
    for field in fields:
        size, aligned = measure(field.type, structs)
        start = -(-end // aligned) * aligned
        yield start, field
        end = start + size


def leaves(kind, structs, at=0, path=()):
    """The integers of a type, in order."""
    array = ARRAY.match(kind) if isinstance(kind, str) else None
    if array:
        size, _ = measure(array[1], structs)
        for index in range(int(array[2])):
            yield from leaves(array[1], structs, at + index * size, (*path, index))
    elif isinstance(kind, str) and kind in SIZES:
        yield Leaf(at, kind, path)
    else:
        fields = structs[kind] if isinstance(kind, str) else kind
        for start, field in starts(fields, structs):
            yield from leaves(field.type, structs, at + start, (*path, field.name))


def plain(text):
    """A source of C without its comments."""
    return re.sub(r"/\*.*?\*/", " ", text, flags=re.S)


def c_fields(words):
    """The fields of a struct, from its words up to the brace that ends it."""
    fields = []
    while (word := words.pop(0)) != "}":
        if word == "struct" and words[0] == "{":
            words.pop(0)
            kind = c_fields(words)
        elif word == "struct":
            kind = words.pop(0).removeprefix("geostation_")
        else:
            kind = OF_C[word]
        name = words.pop(0)
        if words[0] == "[":
            kind = f"{kind}[{words[1]}]"
            del words[:3]
        assert words.pop(0) == ";", name
        fields.append(Field(name, kind))
    return fields


@functools.lru_cache(maxsize=None)
def header_structs(text):
    """The structs of the header, by their names without `geostation_`."""
    found = re.finditer(r"^struct geostation_(\w+) \{(.*?^\});", plain(text), re.M | re.S)
    return {it[1]: c_fields(re.findall(r"\w+|[{}\[\];]", it[2])) for it in found}


@functools.lru_cache(maxsize=None)
def header_asserts(text):
    """The sizes and the offsets that the header asserts, by struct, and by struct and field."""
    sizes = re.findall(r"^GEOSTATION_SIZE\((\w+), (\d+)\);", text, re.M)
    offsets = re.findall(r"^GEOSTATION_AT\((\w+), ([\w.]+), (\d+)\);", text, re.M)
    return (
        {name: int(size) for name, size in sizes},
        {(name, field): int(at) for name, field, at in offsets},
    )


@functools.lru_cache(maxsize=None)
def header_enums(text):
    """The enums of the header: their names without the prefix, by number."""
    found = re.finditer(r"^enum geostation_(\w+) \{(.*?)^\};", plain(text), re.M | re.S)
    rows = {it[1]: re.findall(r"GEOSTATION_(\w+) = (\d+)", it[2]) for it in found}
    return {name: {word: int(number) for word, number in row} for name, row in rows.items()}


@functools.lru_cache(maxsize=None)
def header_constants(text):
    """The numbers that the header defines, by their names without the prefix."""
    found = re.findall(r"^#define GEOSTATION_(\w+) (.+)$", plain(text), re.M)
    numbers = ((name, re.sub(r"UINT64_C\((\d+)\)", r"\1", value.strip())) for name, value in found)
    return {name: number_of(value) for name, value in numbers if number_of(value) is not None}


def number_of(text):
    """The number that a text of C, Rust or Python spells, or None."""
    found = re.fullmatch(r"\(?([\d_]+)(?: << (\d+))?\)?", text)
    return int(found[1].replace("_", "")) << int(found[2] or 0) if found else None


def c_type(words):
    """A type of C: a star for each pointer, and `const` where what it points to is constant."""
    stars = words.count("*")
    base = next(word for word in words if word not in ("const", "struct", "*"))
    kind = OF_C.get(base) or base.removeprefix("geostation_")
    return "*" * stars + ("const " if "const" in words and stars else "") + kind


@functools.lru_cache(maxsize=None)
def header_functions(text):
    """The functions of the header, by their names without the prefix: the type of the result, and
    the arguments by name."""
    found = re.finditer(
        r"^((?:const )?\w+ \*?)geostation_(\w+)\(([^)]*)\)\s*(?:GEOSTATION_NODISCARD)?;",
        plain(text),
        re.M,
    )
    functions = {}
    for it in found:
        rows = [re.findall(r"\w+|\*", row) for row in it[3].split(",")]
        arguments = [Field(row[-1], c_type(row[:-1])) for row in rows if row != ["void"]]
        functions[it[2]] = (c_type(re.findall(r"\w+|\*", it[1])), arguments)
    return functions
