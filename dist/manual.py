"""The man page of the C interface: a template, with the first sentence of the header's comment on each call."""
import pathlib
import re
import textwrap

c = pathlib.Path(__file__).resolve().parent.parent / "c"


def sections():
    """The calls of the header, by the section in which they are: a heading, and pairs of names and what the calls do."""
    header = (c / "is_ice.h").read_text()
    for part in re.split(r"(?m)^/\* ---- ", header)[1:]:
        calls = re.findall(r"(?s)/\* (is_ice_\w+(?:, is_ice_\w+)*) - (.*?)\*/", part)
        if calls:
            yield re.match(r"[\w ,]+", part)[0].strip(), [(names, first_sentence(text)) for names, text in calls]


def first_sentence(comment):
    paragraph = re.sub(r"(?m)\n \* ?", "\n", comment).split("\n\n")[0]
    return re.match(r"(.*?)[.:;](?= |$)", " ".join(paragraph.split()))[1]


def escaped(text):
    return text.replace("\\", r"\e").replace("-", r"\-")


def calls():
    """The section of calls: man's commands."""
    lines = []
    for heading, found in sections():
        lines.append(f".SS {escaped(heading[0].upper() + heading[1:])}")
        for names, text in found:
            lines += [".TP", f".B {escaped(names)}", *map(escaped, textwrap.wrap(text, 120))]
    return "\n".join(lines)


def is_ice(version, date):
    """The page is_ice.3; `date` is YYYY-MM-DD."""
    template = (c / "is_ice.3.in").read_text()
    return template.replace("@DATE@", date).replace("@VERSION@", version).replace("@CALLS@", calls()).encode()
