"""The results as tables in Markdown: a row for each case, a column for each pair of stacks. Their medians are the limits of later runs."""
import json
import math
import re
import statistics
from dataclasses import dataclass, field

CELL = re.compile(r"\d+ of \d+, ([\d.]+) s(?: \(.*)?")


@dataclass
class Played:
    """The sessions of a case: how many were good, and the seconds of these until both had a path, and until media could flow."""

    case: object
    good: int
    sessions: int
    times: list = field(default_factory=list)
    media: list = field(default_factory=list)

    def median(self):
        return statistics.median(self.times) if self.times else None


def spread(times):
    """The median, the 95th percentile and the greatest of some times."""
    times = sorted(times)
    return f"{statistics.median(times):.3f} s ({times[math.ceil(0.95 * len(times)) - 1]:.3f}, {times[-1]:.3f})"


# ---- cells

def far_section(case):
    """The heading for far hosts. Sessions with other stacks are apart, since they have a row for each role."""
    *_, hosts, _, loss = case.network
    losses = f"{100 * loss:.0f} % loss" if loss else "no loss"
    return f"Far hosts: {hosts} a side, {losses}" + ", with other stacks" * (case.stacks[0] != case.stacks[1])


def section(case):
    """The heading of a case's table."""
    if case.network[0] == "far":
        return far_section(case)
    if case.network[0] == "nat" and case.title.startswith("STUN by"):
        return "STUN servers"
    if case.network[0] == "nat" and set(case.stacks) & {"chromium", "firefox"}:
        return "Browsers and NATs"
    if case.network[0] == "nat":
        return "NATs, with TURN" if any(case.relay) else "NATs, without TURN"
    return {"loopback": "Loopback", "hosts": "Two hosts, with servers", "wire": "Lossy wire"}[case.network[0]]


def row_of(case):
    if case.network[0] == "far":
        _, a, b, _, delay, _ = case.network
        return f"{a} - {b}, {1000 * delay:.0f} ms" + case.title.partition(" loss")[2]
    if section(case) not in ("NATs, with TURN", "NATs, without TURN"):
        return case.title
    return f"{case.network_name()}, {case.title}" if any(case.relay) else case.network_name()


def place(case):
    """The cell of its result: the heading of the table, the row and the column."""
    return section(case), row_of(case), " - ".join(case.stacks)


def cell(played):
    count = f"{played.good} of {played.sessions}"
    if not played.times:
        return count
    if played.case.network[0] != "far":
        return f"{count}, {played.median():.2f} s"
    return f"{count}, {spread(played.times)}" + (f"; media {spread(played.media)}" if played.media else "")


def as_json(played):
    """The result with its cell, in one line."""
    heading, row, column = place(played.case)
    return json.dumps({"table": heading, "row": row, "column": column, "good": played.good, "sessions": played.sessions,
                       "seconds": played.times, "media": played.media})


# ---- tables: rows by their first cell, each with its cells by column

def written(columns, rows):
    """The lines of a table."""
    lines = ["| " + " | ".join(["case", *columns]) + " |", "|---" * (1 + len(columns)) + "|"]
    return lines + ["| " + " | ".join([row, *(cells.get(column, "") for column in columns)]) + " |" for row, cells in rows.items()]


def words_of(line):
    return [word.strip() for word in line.strip("|").split("|")]


def read(lines):
    """The columns and the rows of a table."""
    _, *columns = words_of(lines[0])
    rows = {}
    for line in lines[2:]:
        row, *cells = words_of(line)
        rows[row] = dict(zip(columns, cells))
    return columns, rows


def with_results(columns, rows, results):
    """A table with these results. Its rows and columns stay in order, and new ones come after them."""
    for played in results:
        _, row, column = place(played.case)
        rows.setdefault(row, {})[column] = cell(played)
    return list(dict.fromkeys([*columns, *(place(played.case)[2] for played in results)])), rows


def of_heading(results, heading):
    return [played for played in results if section(played.case) == heading]


def markdown(results):
    """All tables."""
    headings = dict.fromkeys(section(played.case) for played in results)
    return "\n".join("\n".join([f"### {heading}", "", *written(*with_results([], {}, of_heading(results, heading))), ""])
                     for heading in headings)


def found(lines, heading):
    """The lines at which the table below a heading begins and ends, or None."""
    if f"### {heading}" not in lines:
        return None
    begin = next(i for i in range(lines.index(f"### {heading}"), len(lines)) if lines[i].startswith("| case |"))
    end = next((i for i in range(begin, len(lines)) if not lines[i].startswith("|")), len(lines))
    return begin, end


def filled(text, results):
    """A document with these results in its tables. Tables that are not there come after that of the wire, in order."""
    lines = text.splitlines()
    for heading in reversed(dict.fromkeys(section(played.case) for played in results)):
        place_of_table = found(lines, heading)
        if place_of_table is None:
            end = found(lines, "Lossy wire")[1]
            lines[end:end] = ["", f"### {heading}", "", "| case |", "|---|"]
            place_of_table = found(lines, heading)
        begin, end = place_of_table
        lines[begin:end] = written(*with_results(*read(lines[begin:end]), of_heading(results, heading)))
    return "\n".join(lines) + "\n"


def medians(text):
    """The median seconds of each cell of such tables, by heading, row and column. Other lines are left out."""
    known, heading, columns = {}, None, []
    for line in text.splitlines():
        if line.startswith("#"):
            heading = line.lstrip("# ")
        elif line.startswith("| case |"):
            columns = words_of(line)
        elif line.startswith("| "):
            row, *words = words_of(line)
            times = {column: CELL.fullmatch(word) for column, word in zip(columns[1:], words)}
            known.update({(heading, row, column): float(time[1]) for column, time in times.items() if time})
    return known
