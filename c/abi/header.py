"""Reads is_ice.h by clang: its numbers, its structs with sizes and offsets, and its calls, in the order of the header."""
import dataclasses
import json
import pathlib
import re
import subprocess

HEADER = pathlib.Path(__file__).resolve().parents[1] / "is_ice.h"
# The types of numbers, with their sizes in bytes. Each number is at a multiple of its size, as the C conventions of all 64-bit targets say.
SIZES = {"bool": 1, "uint8_t": 1, "uint16_t": 2, "uint32_t": 4, "int32_t": 4, "uint64_t": 8, "int64_t": 8, "size_t": 8}
POINTER = 8


class Unknown(Exception):
    """The header has something that no front end is made of."""


@dataclasses.dataclass(frozen=True)
class Type:
    """A number, 'void', or a struct by its name in C. `pointer` is '', 'const' or 'mutable', `count` the length of an array, or 0."""
    name: str
    pointer: str = ""
    count: int = 0

    @property
    def is_struct(self):
        return self.name.startswith("is_ice_")


@dataclasses.dataclass(frozen=True)
class Field:
    name: str
    type: Type
    offset: int
    comment: str


@dataclasses.dataclass(frozen=True)
class Struct:
    name: str
    fields: list
    size: int
    align: int
    comment: str

    @property
    def is_opaque(self):
        """Whether only the library reads and writes it: it has a pointer."""
        return any(field.type.pointer for field in self.fields)


@dataclasses.dataclass(frozen=True)
class Call:
    name: str
    result: Type
    arguments: list  # of (name, Type)

    def grouped(self):
        """The arguments, of which pointer and length of bytes are one: (name, Type, name of the length or None)."""
        found, left = [], list(self.arguments)
        while left:
            name, kind = left.pop(0)
            length = None
            if kind.pointer and kind.name == "uint8_t":
                if not left or left[0][1] != Type("size_t"):
                    raise Unknown(f"{self.name}: {name} has no length")
                length = left.pop(0)[0]
            found.append((name, kind, length))
        return found


@dataclasses.dataclass(frozen=True)
class Header:
    version: int
    enums: list    # of dicts from a name, without IS_ICE_, to its number
    texts: dict    # from the name of a code to its text
    structs: list
    calls: list


def type_of(written, structs=None):
    """The type that clang prints, as 'const uint8_t *' or 'uint8_t[16]'. `structs` has those that may be used as values."""
    found = re.fullmatch(r"(const )?(?:struct )?(\w+) ?(\*)?(?:\[(\d+)\])?", written)
    if found is None:
        raise Unknown(f"type {written}")
    const, name, star, count = found.groups()
    kind = Type(name.replace("_Bool", "bool"), (("const" if const else "mutable") if star else ""), int(count or 0))
    if not star and kind.name not in SIZES and (structs is None or kind.name not in structs):
        raise Unknown(f"type {written}")
    return kind


def walk(node, kind):
    """All parts of this kind, in order."""
    for part in node.get("inner", ()):
        if part.get("kind") == kind:
            yield part
        yield from walk(part, kind)


def comment_of(declaration):
    """The comment above a declaration, or after it in its line."""
    whole = next((part for part in declaration.get("inner", ()) if part.get("kind") == "FullComment"), {})
    return " ".join(" ".join(text["text"] for text in walk(whole, "TextComment")).split())


def numbers(enum):
    """The names and numbers of an enum."""
    found, number = {}, -1
    for part in walk(enum, "EnumConstantDecl"):
        given = next(walk(part, "ConstantExpr"), None)
        number = int(given["value"]) if given else number + 1
        found[part["name"].removeprefix("IS_ICE_")] = number
    return found


def code_texts(function, enums):
    """The text that is_ice_code_text returns for each code."""
    texts = {}
    for case in walk(function, "CaseStmt"):
        code, text = next(walk(case, "DeclRefExpr")), next(walk(case, "StringLiteral"))
        texts[code["referencedDecl"]["name"].removeprefix("IS_ICE_")] = json.loads(text["value"])
    if set(texts) != set(enums[0]):
        raise Unknown(f"the codes without a text: {sorted(set(enums[0]) ^ set(texts))}")
    return texts


def measured(kind, structs):
    """The size and the alignment of a field."""
    if kind.pointer:
        size, align = POINTER, POINTER
    elif kind.is_struct:
        size, align = structs[kind.name].size, structs[kind.name].align
    else:
        size = align = SIZES[kind.name]
    return size * (kind.count or 1), align


def struct_of(record, structs):
    """A struct, with the offsets that a compiler for a 64-bit target gives its fields."""
    fields, end, widest = [], 0, 1
    if record["tagUsed"] != "struct" or any(part["kind"].endswith("Attr") or part.get("isBitfield") for part in record["inner"]):
        raise Unknown(f"{record['name']}: a union, a bit field or an attribute")
    for part in record["inner"]:
        if part["kind"] != "FieldDecl":
            continue
        kind = type_of(part["type"]["qualType"], structs)
        size, align = measured(kind, structs)
        offset = -(-end // align) * align
        fields.append(Field(part["name"], kind, offset, comment_of(part)))
        end, widest = offset + size, max(widest, align)
    return Struct(record["name"], fields, -(-end // widest) * widest, widest, comment_of(record))


def call_of(function):
    if function.get("variadic"):
        raise Unknown(f"{function['name']}: any number of arguments")
    result = function["type"]["qualType"].split(" (")[0]
    arguments = [(part["name"], type_of(part["type"]["qualType"])) for part in function.get("inner", ()) if part["kind"] == "ParmVarDecl"]
    return Call(function["name"], Type("void") if result == "void" else type_of(result), arguments)


def clang(*options):
    command = ["clang", "--target=x86_64-linux-gnu", "-std=c11", "-ffreestanding", "-Werror", *options, "-x", "c", str(HEADER)]
    return subprocess.run(command, check=True, capture_output=True, text=True).stdout


def read():
    """The header. CalledProcessError if it does not compile, FileNotFoundError without clang."""
    tree = json.loads(clang("-fsyntax-only", "-fparse-all-comments", "-Xclang", "-ast-dump=json"))
    version = re.search(r"^#define IS_ICE_VERSION (\d+)$", clang("-E", "-dM"), re.M)
    enums, structs, calls, texts = [], {}, [], {}
    for part in tree["inner"]:
        name = part.get("name", "")
        if part["kind"] == "EnumDecl" and next(walk(part, "EnumConstantDecl"))["name"].startswith("IS_ICE_"):
            enums.append(numbers(part))
        elif part["kind"] == "RecordDecl" and name.startswith("is_ice_"):
            structs[name] = struct_of(part, structs)
        elif part["kind"] == "FunctionDecl" and name == "is_ice_code_text":
            texts = code_texts(part, enums)
        elif part["kind"] == "FunctionDecl" and name.startswith("is_ice_"):
            calls.append(call_of(part))
    return Header(int(version[1]), enums, texts, list(structs.values()), calls)
