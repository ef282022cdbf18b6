"""The map of a linker (GNU ld): its table of memory regions, and its input sections with the objects that they come from."""
import re
from typing import NamedTuple

import report

NUMBERS = r"\n?[ \t]+0x(?P<%s>[0-9a-f]+)[ \t]+0x(?P<%s>[0-9a-f]+)"
# An output section begins a line. An input section is indented, and its object follows its address and size. A long name has
# a line of its own.
SECTION = re.compile(
    r"^(?:(?P<output>[^\s*]\S*)" + NUMBERS % ("start", "length") + r"[^\n]*"
    r"| \S+" + NUMBERS % ("address", "size") + r"[ \t]+(?P<object>\S[^\n]*?))[ \t]*$",
    re.M,
)


class Region(NamedTuple):
    """A memory region: its name, its first address and its length in bytes."""

    name: str
    origin: int
    length: int


class Piece(NamedTuple):
    """An input section in the image: the output section that has it, its address and size in bytes, and its object."""

    section: str
    address: int
    size: int
    object: str


class Map:
    """The regions and the input sections of one map. The titles of the table may be translated."""

    def __init__(self, path):
        self.regions, found = [], []
        lines = report.read_file(path).decode("utf-8", "surrogateescape").splitlines()
        for number, line in enumerate(lines):
            row = re.fullmatch(r"(\S.*?)\s+0x([0-9a-f]+)\s+0x([0-9a-f]+)(?:\s+[!rwxail]+)?\s*", line)
            if not row:
                found = []
            elif row[1] == "*default*":
                self.regions, self.rest = found, "\n".join(lines[number + 1 :])
                break
            else:
                found.append(Region(row[1], int(row[2], 16), int(row[3], 16)))
        if not self.regions:
            raise report.Problem(f"{path}: no table of memory regions, as GNU ld writes it: give --region")

    def pieces(self):
        """Yields the input sections. Sections that the linker dropped are in the map before the table, so they aren't among them."""
        section = ""
        for found in SECTION.finditer(self.rest):
            if found["output"]:
                section = found["output"]
            else:
                yield Piece(section, int(found["address"], 16), int(found["size"], 16), short(found["object"]))


def short(name):
    """Returns an object as a label: a member of an archive without the folder of the archive."""
    return name[name.rfind("/", 0, name.rfind("(")) + 1 :] if name.endswith(")") else name
