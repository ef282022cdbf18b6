"""The SVG picture of tools/treemap."""
from html import escape

from report import printable
from treemap_tree import GAIN, LOSS, human, signed, squarified

NARROW, WIDE = set("ijltfrI.,:;'|!()[] "), set("mwMWGOQ%@_ABCDHNRUVXY…")
MARGIN, TITLE, LEGEND, NOTE = 16, 44, 22, 24
# Rectangles with fewer square pixels are merged into one of their level.
SMALLEST = 20


def text_width(text, font):
    return font * sum(0.36 if it in NARROW else 0.92 if it in WIDE else 0.64 for it in text)


def mixed(colour, share):
    """Returns a colour with this share of white."""
    parts = (int(colour[i : i + 2], 16) for i in (0, 2, 4))
    return "#" + "".join(f"{round(it + (255 - it) * share):02x}" for it in parts)


def overlap(box, other):
    return box[0] < other[0] + other[2] and other[0] < box[0] + box[2] and box[1] < other[1] + other[3] and other[1] < box[1] + box[3]


class Drawing:
    """The parts of a picture, as SVG: rectangles, borders of divided rectangles, and texts over them."""

    def __init__(self, picture, width, height):
        self.picture, self.scale = picture, width * height / picture.root.area
        self.rects, self.borders, self.texts, self.taken = [], [], [], []
        self.key = picture.colours()
        self.shown = signed if picture.growth else human
        self.divide(picture.root, (MARGIN, TITLE, width, height), [], None)

    def divide(self, node, box, path, colour):
        """Draws the children of a node into its rectangle."""
        parts = node.ordered()
        large = [part for part in parts if part.area * self.scale >= SMALLEST]
        rest = parts[len(large) :]
        areas = [part.area * self.scale for part in large]
        areas += [sum(part.area for part in rest) * self.scale] if rest else []
        for number, child in enumerate(squarified(areas, *box)):
            own = self.key[min(number, len(self.key) - 1)][1] if colour is None else colour
            if number == len(large):
                self.merged(path, rest, child)
            elif large[number].children:
                below = [*path, large[number]]
                self.head(large[number], child, len(below))
                self.divide(large[number], child, below, own)
                self.borders.append((len(below), child))
            else:
                self.leaf([*path, large[number]], child, own, number)

    def head(self, node, box, level):
        """Writes the label of a divided rectangle over its upper left corner, if it fits."""
        x, y, width, height = box
        font, only = 13 if level == 1 else 11, next(iter(node.children.values()))
        text = f"{printable(node.label)}  {self.shown(node.size)}"
        wide, high = 1.12 * text_width(text, font) + 10, font + 7
        if (len(node.children) == 1 and only.label == node.label) or wide > width - 8 or 2.6 * high > height:
            return
        top = y + 4 + sum(high for it in self.taken if abs(it[0] - x - 4) < 1 and abs(it[1] - y - 4) < 1)
        self.taken.append((x + 4, top, wide, high))
        self.texts.append(
            f'<rect x="{x + 4:.1f}" y="{top:.1f}" width="{wide:.1f}" height="{high}" rx="3" fill="#fff" fill-opacity=".88"/>'
            f'<text x="{x + 9:.1f}" y="{top + font + 1:.1f}" font-size="{font}" font-weight="bold">{escape(text)}</text>'
        )

    def leaf(self, path, box, colour, number):
        """Draws a rectangle that isn't divided, with a tooltip."""
        node, whole = path[-1], self.picture.root.area
        names = " / ".join(printable(it.label) for it in path)
        if self.picture.growth:
            fill = mixed(GAIN if node.size > 0 else LOSS, 0.25 + 0.06 * (number % 4))
            tip = f"{names}: {node.size:+,} bytes"
        else:
            fill = mixed(colour, 0.42 + 0.09 * (number % 4) if len(path) > 1 else 0.35)
            tip = f"{names}: {node.size:,} bytes, {100 * node.size / whole:.2f}% of all"
        self.rect(box, fill, tip)
        self.write(printable(node.label), self.shown(node.size), box)

    def merged(self, path, rest, box):
        """Draws one rectangle for those that are too small."""
        names = "".join(f"{printable(it.label)} / " for it in path)
        self.rect(box, mixed("888888", 0.5), f"{names}{len(rest):,} smaller ones: {self.shown(sum(it.size for it in rest))}")

    def rect(self, box, fill, tip):
        x, y, width, height = box
        self.rects.append(f'<rect x="{x:.1f}" y="{y:.1f}" width="{width:.1f}" height="{height:.1f}" fill="{fill}"><title>{escape(tip)}</title></rect>')

    def write(self, label, size, box):
        """Writes a label, with its size below it, along the longer side, in the largest letters that fit."""
        x, y, width, height = box
        if width < 12 or height < 12:
            return
        for top in [it[1] + it[3] - y for it in self.taken if overlap(box, it)]:
            y, height = y + max(top, 0), height - max(top, 0)
        turned = height > width and text_width(label, 9) > width - 6
        along, across = (height, width) if turned else (width, height)
        lines, font = fitting(label, size, along, across)
        if not lines:
            return
        x, middle = x + width / 2, y + height / 2
        y = middle + font * (0.36 if len(lines) == 1 else -0.2)
        turn = f' transform="rotate(-90 {x:.1f} {middle:.1f})"' if turned else ""
        spans = "".join(
            f'<tspan x="{x:.1f}" dy="{1.15 * font if i else 0:.1f}"' + (' fill-opacity=".7"' if i else "") + f">{escape(it)}</tspan>"
            for i, it in enumerate(lines)
        )
        self.texts.append(f'<text y="{y:.1f}" font-size="{font}" text-anchor="middle"{turn}>{spans}</text>')

    def legend(self, y, width):
        """Returns the legend as SVG, and how many lines it takes, at most four."""
        if self.picture.growth:
            root = self.picture.root
            entries = [(f"gained  {human(root.gain)}", mixed(GAIN, 0.3)), (f"lost  {human(root.loss)}", mixed(LOSS, 0.3))]
        else:
            share = 100 / self.picture.root.area
            entries = [(f"{printable(it.label)}  {human(it.size)}  {it.size * share:.1f}%", mixed(colour, 0.35)) for it, colour in self.key]
        parts, x, lines = [], MARGIN, 1
        for text, colour in entries:
            text = text if len(text) < 60 else f"{text[:57]}…"
            wide = text_width(text, 12) + 36
            if x + wide > MARGIN + width and x > MARGIN:
                x, lines = MARGIN, lines + 1
            if lines > 4:
                break
            top = y + (lines - 1) * LEGEND
            parts.append(f'<rect x="{x:.1f}" y="{top + 4}" width="12" height="12" rx="2" fill="{colour}"/>')
            parts.append(f'<text x="{x + 18:.1f}" y="{top + 14}" font-size="12">{escape(text)}</text>')
            x += wide
        return parts, min(lines, 4)


def fitting(label, size, along, across):
    """Returns the lines of a text in a rectangle, and the size of their letters; no lines if nothing fits."""
    for font in (20, 16, 13, 11, 9):
        lines = [label, size] if across >= 2.5 * font + 4 else [label]
        if all(text_width(it, font) <= along - 6 for it in lines) and across >= font + 3:
            return lines, font
    short = shortened(label, 9, along - 6)
    return ([short] if short and across >= 12 else []), 9


def shortened(label, font, width):
    """Returns the label cut to a width, a path to its last name, with at least four characters of it, or nothing."""
    label = label.rpartition("/")[2] or label
    if text_width(label, font) <= width:
        return label
    while len(label) > 4 and text_width(label + "…", font) > width:
        label = label[:-1]
    return f"{label}…" if text_width(label + "…", font) <= width else ""


def picture(source, title, width, height):
    """Returns the whole SVG."""
    inner = width - 2 * MARGIN
    drawing = Drawing(source, inner, height)
    legend, lines = drawing.legend(TITLE + height + 10, inner)
    whole = TITLE + height + 10 + lines * LEGEND + NOTE
    borders = [
        f'<rect x="{x:.1f}" y="{y:.1f}" width="{w:.1f}" height="{h:.1f}" fill="none" stroke="#fff" stroke-width="{max(4 - level, 1.5)}"/>'
        for level, (x, y, w, h) in sorted(drawing.borders, key=lambda it: -it[0])
    ]
    return "\n".join(
        [
            f'<svg xmlns="http://www.w3.org/2000/svg" viewBox="0 0 {width} {whole}" width="{width}" height="{whole}"'
            ' font-family="Helvetica, Arial, \'DejaVu Sans\', sans-serif" fill="#1d1d1f">',
            f'<rect width="{width}" height="{whole}" fill="#fff"/>',
            f'<text x="{MARGIN}" y="29" font-size="20" font-weight="bold">{escape(printable(title))}</text>',
            '<g stroke="#fff" stroke-width=".6">',
            *drawing.rects,
            '</g><g pointer-events="none">',
            *borders,
            *drawing.texts,
            "</g>",
            *legend,
            f'<text x="{MARGIN}" y="{whole - 8}" font-size="12" fill-opacity=".75">{escape(source.note())}</text>',
            "</svg>\n",
        ]
    )
