"""What is_ice.h declares, for Python's ctypes."""
from naming import short, wrapped

CTYPES = {"bool": "c_bool", "uint8_t": "c_uint8", "uint16_t": "c_uint16", "uint32_t": "c_uint32", "int32_t": "c_int32",
          "uint64_t": "c_uint64", "int64_t": "c_int64", "size_t": "c_size_t", "void": "None"}
WIDTH = 140


def value(kind):
    """The type of a field, or of an argument that is no pointer."""
    name = short(kind.name) if kind.is_struct else CTYPES[kind.name]
    return "c_void_p" if kind.pointer else f"{name} * {kind.count}" if kind.count else name


def argument(kind):
    """The type of an argument: bytes that a call reads may be of `bytes`, and those that it writes of any buffer."""
    if kind.pointer and kind.name == "uint8_t":
        return "c_char_p" if kind.pointer == "const" else "c_void_p"
    return f"POINTER({short(kind.name) if kind.is_struct else CTYPES[kind.name]})" if kind.pointer else value(kind)


def struct(it):
    doc = it.comment if it.is_opaque else f"{it.name}."
    fields = [f'("{field.name}", {value(field.type)})' for field in it.fields]
    return f'\n\nclass {short(it.name)}(ctypes.Structure):\n    """{doc}"""\n\n' + wrapped("    _fields_ = [", fields, "]", WIDTH)


def prototype(call):
    return wrapped(f'    "{call.name}": [', [argument(kind) for _, kind in call.arguments], "],", WIDTH)


def lines(header):
    declared = "".join([*map(prototype, header.calls), *map(struct, header.structs)])
    names = ["POINTER", *sorted(name for name in {*CTYPES.values(), "c_char_p", "c_void_p"} if name in declared)]
    yield "import ctypes"
    yield f"from ctypes import {', '.join(names)}"
    yield f"\nVERSION = {header.version}"
    for enum in header.enums:
        yield ""
        yield from (f"{name} = {number}" for name, number in enum.items())
    yield "\n# The text of each code."
    yield "TEXTS = {"
    yield from (f'    {name}: "{text}",' for name, text in header.texts.items())
    yield "}"
    yield from (struct(it) for it in header.structs)
    yield "\n\n# The size that the header asserts of each struct."
    yield wrapped("SIZES: dict[type[ctypes.Structure], int] = {", [f"{short(it.name)}: {it.size}" for it in header.structs], "}", WIDTH)
    yield "\n# The arguments of each call that returns a code."
    yield "PROTOTYPES: dict[str, list[object]] = {"
    yield from (prototype(call) for call in header.calls if call.result.name == "int32_t")
    yield "}"


def made(header, first):
    return f'# {first}\n"""The C interface (c/is_ice.h) for ctypes: numbers, structs and prototypes."""\n\n' \
        + "\n".join(["from __future__ import annotations\n", *lines(header)]) + "\n"
