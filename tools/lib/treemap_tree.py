"""The tree of a report that tools/treemap draws."""
from typing import NamedTuple, Tuple

import report

# Twelve colours for the labels of the first level. Labels in brackets, and those after the twelfth, are grey.
COLOURS = "4e79a7 f28e2b 59a14f e15759 76b7b2 b07aa1 edc948 ff9da7 9c755f 86bcb6 d37295 8cd17d".split()
GREY, GAIN, LOSS = "a3a3a3", "d9603b", "3b7dbf"


class Node:
    """A label with the sums of the rows below it: the gains, the losses, and the nodes of the next level."""

    __slots__ = ("label", "gain", "loss", "children")

    def __init__(self, label):
        self.label, self.gain, self.loss, self.children = label, 0, 0, {}

    @property
    def area(self):
        return self.gain + self.loss

    @property
    def size(self):
        return self.gain - self.loss

    def add(self, size):
        if size > 0:
            self.gain += size
        else:
            self.loss -= size

    def ordered(self):
        """Returns the children, the largest area first."""
        return sorted(self.children.values(), key=lambda it: -it.area)


class Picture(NamedTuple):
    """What is drawn: the root, the data sources, the name of the size, how many rows have no area, and whether it is growth."""

    root: Node
    sources: Tuple[str, ...]
    what: str
    left_out: int
    growth: bool

    def colours(self):
        """Returns the colour of each node of the first level, with the nodes in order."""
        free = iter(COLOURS)
        return [(node, GREY if node.label.startswith("[") else next(free, GREY)) for node in self.root.ordered()]

    def note(self):
        """Returns the line below the picture."""
        whole = f"{self.root.gain:,} bytes gained, {self.root.loss:,} lost" if self.growth else f"{self.root.size:,} bytes"
        without = "change" if self.growth else "size above 0"
        rows = "row" if self.left_out == 1 else "rows"
        left_out = f" Not drawn: {self.left_out:,} {rows} without a {without}." if self.left_out else ""
        return f"Areas are {'amounts of ' if self.growth else ''}{self.what}. All: {whole}.{left_out}"


def read(source, wanted, growth):
    """Returns the picture of a report, by the file size or the size that is wanted."""
    column = source.column(wanted)
    growth = growth or any(row.sizes[column] < 0 for row in source.rows)
    root, left_out = Node("all"), 0
    for row in source.rows:
        size = row.sizes[column]
        if size == 0 or (size < 0 and not growth):
            left_out += 1
            continue
        node = root
        node.add(size)
        for label in keys(row.labels):
            node = node.children.setdefault(label, Node(label[0]))
            node.add(size)
    if not root.area:
        raise report.Problem("no row of this report has a size to draw")
    what = report.SIZE_NAMES[source.sizes[column]]
    return Picture(root, source.sources, f"growth of the {what}" if growth else what, left_out, growth)


def keys(labels):
    """Returns the labels of a row with a mark on that of an Others row, which may also be the text of a label."""
    path = report.path_of(labels)
    if len(path) == len(labels):
        return [(it, False) for it in labels]
    return [(it, False) for it in path[:-1]] + [(path[-1], True)]


def human(size):
    """Returns a size in bytes, or in units of 1024 with one digit, as bloaty's text report has it."""
    amount = abs(size)
    for power, unit in ((4, "Ti"), (3, "Gi"), (2, "Mi"), (1, "Ki")):
        if amount >= 1024**power:
            return f"{'-' if size < 0 else ''}{amount * 10 // 1024**power / 10:.1f}{unit}"
    return str(size)


def signed(size):
    """Returns a change with its sign."""
    return f"+{human(size)}" if size > 0 else human(size)


def squarified(areas, x, y, width, height):
    """Yields a rectangle for each area, largest first; together they fill the rectangle that is given."""
    index = 0
    while index < len(areas):
        side = min(width, height)
        count = row_length(areas, index, side)
        row = areas[index : index + count]
        thick, along = sum(row) / side, 0.0
        for area in row:
            long = area / thick
            yield (x, y + along, thick, long) if width >= height else (x + along, y, long, thick)
            along += long
        if width >= height:
            x, width = x + thick, max(width - thick, 1e-9)
        else:
            y, height = y + thick, max(height - thick, 1e-9)
        index += count


def row_length(areas, first, side):
    """Returns how many areas share a row along a side, so that the worst ratio of two sides is as small as possible."""
    count, total, square = 1, areas[first], side * side
    worst = max(square / total, total / square)
    while first + count < len(areas):
        added = total + areas[first + count]
        next_worst = max(square * areas[first] / (added * added), added * added / (square * areas[first + count]))
        if next_worst > worst:
            break
        worst, total, count = next_worst, added, count + 1
    return count
