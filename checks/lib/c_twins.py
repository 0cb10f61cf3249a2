"""What other sources say of the structs, functions and numbers of c/geostation.h: the proved
library (crates/its_c), and the packages for Rust and Python. In the notation of c_layout.py.
"""

import ast
import functools
import re

from c_layout import Field, number_of

# The structs of Rust that C passes.
STRUCT = re.compile(
    r"((?:^ *///[^\n]*\n)*)((?:^ *#\[[^\n]*\]\n)*)"
    r"^(?:pub(?:\(crate\))? )?struct (\w+) \{\n(.*?)^\}",
    re.M | re.S,
)
FIELD = re.compile(r"^ *(?:pub(?:\(crate\))? )?(\w+): ([^,]+),", re.M)
OF_PYTHON = {
    "c_uint8": "u8",
    "c_uint16": "u16",
    "c_uint32": "u32",
    "c_uint64": "u64",
    "c_int16": "i16",
    "c_int32": "i32",
    "c_size_t": "usize",
    "c_int": "int",
    "c_void_p": "*handle",
    "c_char_p": "*octets",
}


def snake(name):
    """A name of a type or a case, as a constant of C."""
    return re.sub(r"(?<=[a-z])(?=[A-Z])", "_", name).upper()


def rust_type(text):
    """A type of Rust: an integer, an array of them or the name of a struct."""
    array = re.fullmatch(r"\[(\w+); (\d+)\]", text)
    return f"{array[1]}[{array[2]}]" if array else text


@functools.lru_cache(maxsize=None)
def rust_structs(text):
    """The structs that are `repr(C)`, and the name in the header of each that says so: its comment
    names `struct geostation_NAME`, as a whole and not as a part of it."""
    structs, names = {}, {}
    for comment, attributes, name, body in STRUCT.findall(text):
        if "#[repr(C)]" not in attributes:
            continue
        structs[name] = [Field(field, rust_type(kind)) for field, kind in FIELD.findall(body)]
        said = " ".join(line.strip("/ ") for line in comment.splitlines())
        found = re.search(r"(?<!part of )`struct geostation_(\w+)`", said)
        if found:
            names[found[1]] = name
    return structs, names


@functools.lru_cache(maxsize=None)
def rust_numbers(text, owner):
    """The numbers of the cases of an enum, where a match has either first. A case that holds one of
    another enum is named by both."""
    pairs = []
    for left, right in re.findall(r"^ *(\S.*?) => (.+)$", text, re.M):
        number = re.match(r"\(?(\d+)\b", right)
        if left.isdigit() and re.search(rf"\b{owner}::", right):
            pairs.append((right, int(left)))
        elif number and re.search(rf"\b{owner}::", left):
            pairs += [(case, int(number[1])) for case in left.split("|")]
    named = ((re.findall(r"::(\w+)", case), number) for case, number in pairs)
    return [("_".join(map(snake, names)), number) for names, number in named]


@functools.lru_cache(maxsize=None)
def rust_constants(text):
    """The constants that are numbers."""
    found = re.findall(r"^ *(?:pub(?:\(crate\))? )?const (\w+): \w+ = ([^;]+);", text, re.M)
    return {name: number_of(value) for name, value in found if number_of(value) is not None}


def rust_pointer(text):
    """A type of an argument of a function in `extern "C"`."""
    kind = text.replace("*const ", "*const\0").replace("*mut ", "*")
    kind = kind.replace("c_int", "int").replace("c_char", "char").replace("\0", " ")
    return kind.replace("Opaque", "handle")


def rust_functions(text):
    """The functions that `extern "C"` declares, by their names without the prefix."""
    block = re.search(r'^extern "C" \{\n(.*?)^\}', text, re.M | re.S)[1]
    functions = {}
    for name, row, result in re.findall(r"fn geostation_(\w+)\(([^)]*)\)(?: -> ([^;]+))?;", block):
        arguments = re.findall(r"(\w+): ([^,]+?)\s*(?:,|$)", row)
        fields = [Field(it, rust_pointer(kind)) for it, kind in arguments]
        functions[name] = (rust_pointer(result or "void"), fields)
    return functions


def rattle_argument(name, kind):
    """The arguments of C that an argument of an export stands for."""
    const = "" if kind.startswith("&mut ") else "const "
    inner = kind.removeprefix("&mut ").removeprefix("&")
    if kind == "Global":
        return []
    if inner == "[u8]":
        return [Field(name, f"*{const}u8"), Field("", "usize")]
    if inner == "HandleOut":
        return [Field(name, "**handle")]
    if kind.startswith("&"):
        return [Field(name, f"*{const}{inner}")]
    return [Field(name, kind)]


@functools.lru_cache(maxsize=None)
def rattle_functions(text):
    """The exports of a source of the proved library, by their names without the prefix."""
    functions = {}
    for name, row, result in re.findall(
        r'^pub extern "C" fn geostation_(\w+)\(([^)]*)\)(?: -> (\w+))?', text, re.M
    ):
        pairs = re.findall(r"(\w+): ([^,]+?)\s*(?:,|$)", row)
        arguments = [field for it, kind in pairs for field in rattle_argument(it, kind)]
        functions[name] = ((result or "void").replace("i32", "int"), arguments)
    return functions


@functools.lru_cache(maxsize=None)
def definition_numbers(text, name):
    """The numbers that a definition of specs/ gives to the cases of an enum. A case that holds one
    of another enum is named by both."""
    pairs = re.findall(rf"^{name} \(?([\w. ]+?)\)? = (?:pos )?(\d+)$", text, re.M)
    named = ((re.findall(r"\b[A-Z]\w*", words), int(number)) for words, number in pairs)
    return [("_".join(map(snake, names)), number) for names, number in named]


class Python:
    """A source in Python that has structs of ctypes, tables of functions and enums."""

    def __init__(self, text):
        self.values, self.structs, self.enums = {}, {}, {}
        for node in ast.parse(text).body:
            if isinstance(node, ast.Assign) and isinstance(node.targets[0], ast.Name):
                self.values[node.targets[0].id] = node.value
            elif isinstance(node, ast.ClassDef):
                self.add_class(node)

    def add_class(self, node):
        assigned = [it for it in node.body if isinstance(it, ast.Assign)]
        members = {it.targets[0].id: it.value for it in assigned}
        if "_fields_" in members:
            rows = members["_fields_"].elts
            self.structs[node.name] = [
                Field(row.elts[0].value, self.field_type(row.elts[1])) for row in rows
            ]
        elif [ast.unparse(base) for base in node.bases] == ["IntEnum"]:
            self.enums[node.name] = {name: it.value for name, it in members.items()}

    def field_type(self, node):
        """The type of a field: an integer, an array, a struct, or counters with these names."""
        if isinstance(node, ast.BinOp):
            return f"{self.field_type(node.left)}[{node.right.value}]"
        if isinstance(node, ast.Call):
            return [Field(it.value, "u64") for it in node.args]
        return OF_PYTHON[node.attr] if isinstance(node, ast.Attribute) else node.id

    def argument_types(self, node):
        """The types of an argument, or of those that a name with a star stands for."""
        if isinstance(node, ast.Starred):
            parts = self.values[node.value.id].elts
            return [kind for it in parts for kind in self.argument_types(it)]
        if isinstance(node, ast.Call):
            return ["*" + kind for kind in self.argument_types(node.args[0])]
        if isinstance(node, ast.Constant):
            return ["void"]
        return [OF_PYTHON[node.attr] if isinstance(node, ast.Attribute) else node.id]

    def functions(self):
        """The table of functions: the type of the result, and those of the arguments."""
        table = {}
        for key, row in zip(self.values["CALLS"].keys, self.values["CALLS"].values):
            result, *arguments = [kind for it in row.elts for kind in self.argument_types(it)]
            table[key.value] = (result, arguments)
        return table

    def numbers(self):
        """The values that are numbers."""
        found = {name: number_of(ast.unparse(node)) for name, node in self.values.items()}
        return {name: number for name, number in found.items() if number is not None}
