"""The layout that the other languages have, for a C program: sizes, offsets, and whether two structs are equal, field by field."""
from naming import wrapped


def equal(field):
    a, b = f"a->{field.name}", f"b->{field.name}"
    if field.type.count:
        return f"memcmp({a}, {b}, sizeof {a}) == 0"
    return f"same_{field.type.name.removeprefix('is_ice_')}(&{a}, &{b})" if field.type.is_struct else f"{a} == {b}"


def comparison(struct):
    name = struct.name.removeprefix("is_ice_")
    head = f"static inline bool same_{name}("
    yield ""
    yield wrapped(head, [f"const {struct.name} *a", f"const {struct.name} *b"], ")", 140)
    yield "{\n    return " + "\n        && ".join(equal(field) for field in struct.fields) + ";\n}"


def lines(header):
    yield "#ifndef IS_ICE_LAYOUT_H\n#define IS_ICE_LAYOUT_H\n"
    yield '#include "is_ice.h"\n#include <string.h>\n'
    yield "/* Returns the struct or the field that has another size or offset than on 64-bit targets, or NULL. */"
    yield "static inline const char *other_layout(void)\n{"
    yield "    if (sizeof(void *) != 8) return NULL;"
    for struct in header.structs:
        yield f'    if (sizeof({struct.name}) != {struct.size}) return "{struct.name}";'
        for field in struct.fields:
            yield f'    if (offsetof({struct.name}, {field.name}) != {field.offset}) return "{struct.name}.{field.name}";'
    yield "    return NULL;\n}"
    for struct in header.structs:
        if not struct.is_opaque:
            yield from comparison(struct)
    yield "\n#endif"


def made(header, first):
    return f"/* {first} */\n" + "\n".join(lines(header)) + "\n"
