"""The tables of docs/REFERENCE.md and docs/MANUAL.md, which scripts read instead of a copy of their own."""
import os
import re
from typing import List, NamedTuple, Tuple

import report

FILES = ("docs/REFERENCE.md", "docs/MANUAL.md")


class Table(NamedTuple):
    """A table of Markdown: the heading above it, the paragraph before it, the titles of its columns, and its rows."""

    heading: str
    before: str
    titles: Tuple[str, ...]
    rows: List[Tuple[str, ...]]


def texts():
    """Returns the texts of the documents that are there."""
    found = [os.path.join(report.TOP, name) for name in FILES]
    return [report.read_file(path).decode("utf-8", "replace") for path in found if os.path.exists(path)]


def cells(line):
    return tuple(cell.strip().replace("\\|", "|") for cell in re.split(r"(?<!\\)\|", line)[1:-1])


def tables_of(text):
    """Yields the tables of a document, in order."""
    heading = before = ""
    lines = text.split("\n")
    for index, line in enumerate(lines):
        if line.startswith("#"):
            heading = before = line.lstrip("# ")
        elif line.startswith("|---"):
            rows = []
            for row in lines[index + 1 :]:
                if not row.startswith("|"):
                    break
                rows.append(cells(row))
            yield Table(heading, before, cells(lines[index - 1]), rows)
        elif line and not line.startswith("|"):
            before = line


def tables(*titles):
    """Returns the tables whose first columns have these titles, of the first document that has one."""
    for text in texts():
        found = [table for table in tables_of(text) if table.titles[: len(titles)] == titles]
        if found:
            return found
    return []


def plain(text):
    """Returns a text of Markdown without its links and strong words."""
    return re.sub(r"\[([^\]]+)\]\([^)]*\)", r"\1", text).replace("**", "")
