"""Names in other languages."""


def camel(name):
    """`agent_status` as `AgentStatus`."""
    return "".join(part.capitalize() for part in name.lower().split("_"))


def short(struct):
    """The name of a struct of C, as `Address`."""
    return camel(struct.removeprefix("is_ice_"))


def lower_camel(name):
    """`has_rtt` as `hasRtt`."""
    joined = camel(name)
    return joined[:1].lower() + joined[1:]


def wrapped(head, parts, tail, most, indent="    ", comma=","):
    """The parts between head and tail in one line, if it is not longer than `most`, else one part a line."""
    line = f"{head}{', '.join(parts)}{tail}"
    if len(line) <= most:
        return line
    start = head[: len(head) - len(head.lstrip())]
    return "\n".join([head, *(f"{start}{indent}{part}{comma}" for part in parts), f"{start}{tail}"])
