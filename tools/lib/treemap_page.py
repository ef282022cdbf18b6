"""The HTML page of tools/treemap: treemap.html with the tree of the report in it."""
import json
import os

from report import printable
from treemap_tree import GAIN, GREY, LOSS

TEMPLATE = os.path.join(os.path.dirname(os.path.realpath(__file__)), "treemap.html")
DIGITS = "0123456789abcdefghijklmnopqrstuvwxyz"


def base36(number):
    """Returns a number in base 36, as JavaScript's parseInt reads it."""
    if number < 0:
        return "-" + base36(-number)
    digits = ""
    while number >= 36:
        number, digit = divmod(number, 36)
        digits = DIGITS[digit] + digits
    return DIGITS[number] + digits


def shared_length(label, other):
    """Returns how many characters two labels have in common at their beginning, 1295 at most: two digits in base 36."""
    longest = min(len(label), len(other), 1295)
    for index in range(longest):
        if label[index] != other[index]:
            return index
    return longest


def lines(root):
    """Yields a line for each node, in depth-first order: its level, the number of characters that its label shares with
    the label before it on its level, the rest of the label, and its size if it has no nodes below it."""
    stack = [(child, 0) for child in by_label(root)]
    last = [""] * 64
    while stack:
        node, level = stack.pop()
        label = printable(node.label)
        shared = shared_length(label, last[level])
        last[level] = label
        size = "" if node.children else base36(node.size)
        yield f"{DIGITS[level]}{base36(shared):0>2}{label[shared:]}\t{size}"
        stack.extend((child, level + 1) for child in by_label(node))


def by_label(node):
    """Returns the children with the last label first, as a stack takes them."""
    return sorted(node.children.values(), key=lambda it: it.label, reverse=True)


def page(picture, title):
    """Returns the page. It names nothing outside itself."""
    data = {
        "title": printable(title),
        "sources": [printable(it) for it in picture.sources],
        "what": picture.what,
        "note": picture.note(),
        "growth": picture.growth,
        "colours": {printable(node.label): colour for node, colour in picture.colours() if colour != GREY},
        "grey": GREY,
        "gain": GAIN,
        "loss": LOSS,
        "lines": "\n".join(lines(picture.root)),
    }
    with open(TEMPLATE, encoding="utf-8") as file:
        template = file.read()
    text = json.dumps(data, ensure_ascii=False).replace("<", "\\u003c").replace("\u2028", "\\u2028").replace("\u2029", "\\u2029")
    return template.replace("/*REPORT*/null", text)
