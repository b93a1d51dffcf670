"""What is_ice.h declares, for JavaScript over the library as a module of WebAssembly, whose pointers and sizes have 64 bits; and for
TypeScript the struct of settings, whose fields programs set by name. Room for later versions is left out: it is zero."""
import json
import textwrap

from header import Type
from naming import camel, lower_camel, short, wrapped

SHORT = {"bool": "bool", "uint8_t": "u8", "uint16_t": "u16", "uint32_t": "u32", "int32_t": "i32", "uint64_t": "u64", "int64_t": "i64",
         "size_t": "u64"}


def kind_of(kind):
    """A field: `u64`, `Address`, `u8[16]`; a pointer is `u64`."""
    name = "u64" if kind.pointer else short(kind.name) if kind.is_struct else SHORT[kind.name]
    return f"{name}[{kind.count}]" if kind.count else name


def argument(kind):
    """An argument: a number as a field, and a pointer as `in:Address`, which the call reads, or `out:u64`, which it may write."""
    if not kind.pointer:
        return kind_of(kind)
    return ("in:" if kind.pointer == "const" else "out:") + kind_of(Type(kind.name))


def named(struct):
    """The fields that have a meaning."""
    return [field for field in struct.fields if field.name != "room"]


def structs(header):
    for struct in header.structs:
        fields = [f'["{lower_camel(field.name)}", {field.offset}, "{kind_of(field.type)}"]' for field in named(struct)]
        yield wrapped(f"  {short(struct.name)}: [", [str(struct.size), *fields], "],", 140, indent="  ")


def lines(header):
    yield f"export const VERSION = {header.version};"
    yield "\n// name: [size, [field, offset, type] ..]"
    yield "export const STRUCTS = {"
    yield from structs(header)
    yield "};\n\n// code: [name, text]"
    yield "export const CODES = {"
    for name, text in header.texts.items():
        yield f'  "{header.enums[0][name]}": ["{camel(name)}", {json.dumps(text)}],'
    yield "};\n\n// The numbers that are no codes."
    yield "export const NUMBERS = {"
    for enum in header.enums[1:]:
        for name, number in enum.items():
            yield f"  {name}: {number},"
    yield "};\n\n// call: its arguments. `in:` and `out:` are pointers: the call only reads what is there, or may write it."
    yield "export const CALLS = {"
    for call in header.calls:
        yield wrapped(f"  {call.name}: [", [f'"{argument(kind)}"' for _, kind in call.arguments], "],", 140, indent="  ")
    yield "};"


def made(header, first):
    return f"// {first}\n\n" + "\n".join(lines(header)) + "\n"


def settings(header):
    """The struct that is_ice_set_settings takes. Each field is a field of an object in JavaScript; times are milliseconds there."""
    call = next(call for call in header.calls if call.name == "is_ice_set_settings")
    name = next(kind.name for _, kind in call.arguments if kind.pointer == "const")
    return next(struct for struct in header.structs if struct.name == name)


def documented(text, indent=""):
    """The lines of a comment."""
    lines = textwrap.wrap(f"/** {text} */" if text else "", 140 - len(indent) - 3)
    return [f"{indent}{' * ' if number else ''}{line}" for number, line in enumerate(lines)]


def declared(header, first):
    struct = settings(header)
    fields = []
    for field in named(struct):
        fields += documented(field.comment, "  ")
        fields.append(f"  {lower_camel(field.name)}: {'boolean' if field.type.name == 'bool' else 'number'};")
    head = [f"// {first}", "", *documented(f"{struct.comment} Durations are milliseconds."), f"export interface {short(struct.name)} {{"]
    return "\n".join([*head, *fields, "}"]) + "\n"
