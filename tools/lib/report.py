"""What the scripts in tools share: reading a report of bloaty, writing output, and ending with one line on an error.

A script's last line is `report.run("NAME", main)`. What is wrong with its arguments or its input is raised as a Problem,
which `run` prints as one line on the standard error. The exit statuses are those of bloaty if the cause is the same.
"""
import argparse
import csv
import io
import os
import re
import signal
import sys
from typing import List, NamedTuple, Tuple

VERSION = "1.0"
DONE, LIMIT_PASSED, MISUSED, UNREADABLE, OUTPUT_FAILED, OUT_OF_MEMORY = range(6)
SIZES = ("vmsize", "filesize")
SIZE_NAMES = {"vmsize": "VM size", "filesize": "file size"}
TOP = os.path.dirname(os.path.dirname(os.path.dirname(os.path.realpath(__file__))))

# csv.reader of Python before 3.11 refuses a zero byte. No decoded label has this character, so it takes its part.
ZERO_BYTE = "\ud800"


class Problem(Exception):
    """Something that ends a script: the line for the user, empty if there is one already, and the exit status."""

    def __init__(self, line, status=MISUSED):
        super().__init__(line)
        self.status = status


class Row(NamedTuple):
    """A record of a report: one label for each data source, and the sizes in bytes."""

    labels: Tuple[str, ...]
    sizes: Tuple[int, ...]


class Report(NamedTuple):
    """A report of sizes or of growth, as bloaty writes it with --csv or --tsv."""

    sources: Tuple[str, ...]
    sizes: Tuple[str, ...]
    rows: List[Row]
    delimiter: str

    def column(self, wanted):
        """Returns the index of a size that is asked by name, or that of the file size, or else of the only one."""
        names = [f"{wanted}size"] if wanted else ["filesize", "vmsize"]
        for name in names:
            if name in self.sizes:
                return self.sizes.index(name)
        raise Problem(f"the report has no {SIZE_NAMES[names[0]]}")

    def totals(self):
        """Returns the sum of each size over all rows."""
        return tuple(sum(row.sizes[index] for row in self.rows) for index in range(len(self.sizes)))


class Arguments(argparse.ArgumentParser):
    """A parser of arguments that takes its help from a script's docstring, and raises a Problem instead of an exit."""

    def __init__(self, documentation):
        form = argparse.RawDescriptionHelpFormatter
        super().__init__(description=documentation, formatter_class=form, allow_abbrev=False)
        self.add_argument("--version", action="version", version=f"{self.prog} {VERSION}")

    def error(self, message):
        raise Problem(f"{message} (--help lists the arguments)")

    def _print_message(self, message, file=None):
        write_output(message)


def run(name, main):
    """Runs a script and ends the process with its status. An interrupt ends it at once, without a line."""
    signal.signal(signal.SIGINT, signal.SIG_DFL)
    try:
        status = main() or DONE
    except Problem as problem:
        status = problem.status
        if str(problem):
            complain(f"{name}: {problem}")
    except MemoryError:
        status = OUT_OF_MEMORY
        complain(f"{name}: out of memory")
    sys.exit(status)


def complain(line):
    """Writes one line to the standard error, if that can be written."""
    write_error(f"{printable(line)}\n".encode("utf-8", "surrogateescape"))


def write_error(data):
    try:
        os.write(2, data)
    except OSError:
        pass


def write_output(text):
    """Writes text to the standard output, whole. Bytes that aren't UTF-8 are written as they were read."""
    rest = memoryview(text.encode("utf-8", "surrogateescape"))
    try:
        while rest:
            rest = rest[os.write(1, rest) :]
    except OSError:
        raise Problem("output failed", OUTPUT_FAILED) from None


def read_file(path):
    """Returns the bytes of a file, or of the standard input if the path is None or `-`."""
    from_input = path in (None, "-")
    try:
        with open(0 if from_input else path, "rb", closefd=not from_input) as file:
            return file.read()
    except (OSError, ValueError) as error:
        name = "standard input" if from_input else path
        raise Problem(f"{name}: cannot be read: {getattr(error, 'strerror', None) or error}", UNREADABLE) from None


def read_report(path):
    """Returns the report in a file, or on the standard input, in CSV or TSV."""
    return parsed("standard input" if path in (None, "-") else path, read_file(path))


def parsed(name, data):
    """Returns the report in these bytes, which are those of a file or a run with this name."""
    text = data.decode("utf-8", "surrogateescape")
    if not text:
        raise Problem(f"{name}: empty, in place of a report in CSV")
    for delimiter in ",\t":
        records = csv_records(name, text, delimiter)
        head = next(records, [])
        depth = len(head) - len(size_names(head))
        if depth < len(head):
            return Report(tuple(head[:depth]), tuple(head[depth:]), list(rows(name, records, head, depth)), delimiter)
    raise Problem(f"{name}: no report in CSV or TSV: its first record doesn't end with vmsize or filesize")


def size_names(head):
    """Returns the sizes at the end of a report's first record, which has at least one data source before them."""
    if len(head) > 2 and tuple(head[-2:]) == SIZES:
        return SIZES
    return tuple(head[-1:]) if len(head) > 1 and head[-1] in SIZES else ()


def csv_records(name, text, delimiter):
    """Yields the records of a CSV or TSV. Quotes that don't match are a Problem, with the line."""
    csv.field_size_limit(sys.maxsize)
    has_zeros = "\0" in text
    source = io.StringIO(text.replace("\0", ZERO_BYTE), newline="")
    reader = csv.reader(source, delimiter=delimiter, strict=True)
    while True:
        try:
            record = next(reader)
        except StopIteration:
            return
        except csv.Error as error:
            raise Problem(f"{name}: line {reader.line_num}: {error}") from None
        yield [field.replace(ZERO_BYTE, "\0") for field in record] if has_zeros else record


def rows(name, records, head, depth):
    """Yields the rows of a report, whose records have as many fields as its first one."""
    number = re.compile("-?[0-9]{1,25}")
    for count, record in enumerate(records, 2):
        if len(record) != len(head):
            raise Problem(f"{name}: record {count} has {len(record)} fields in place of {len(head)}")
        for field in record[depth:]:
            if not number.fullmatch(field):
                raise Problem(f"{name}: record {count}: {field!r} is no size")
        yield Row(tuple(record[:depth]), tuple(map(int, record[depth:])))


def written(report):
    """Returns the text of a report, in CSV or TSV as it was read, with the quotes that bloaty writes."""
    lines = [report.sources + report.sizes]
    lines += (row.labels + tuple(map(str, row.sizes)) for row in report.rows)
    return "".join(report.delimiter.join(quoted(it, report.delimiter) for it in line) + "\n" for line in lines)


def quoted(field, delimiter):
    """Returns a field of CSV or TSV, in quotes if it needs them."""
    if any(it in field for it in (delimiter, '"', "\r", "\n")):
        return '"' + field.replace('"', '""') + '"'
    return field


def path_of(labels):
    """Returns the labels of a row, without the empty ones after the label of an Others row."""
    for index, label in enumerate(labels):
        if others_count(label) and not any(labels[index + 1 :]):
            return tuple(labels[: index + 1])
    return tuple(labels)


def others_count(label):
    """Returns how many labels an Others row sums up, or 0 for any other label."""
    found = re.fullmatch(r"\[([0-9]+) Others\]", label) if label.endswith(" Others]") else None
    return int(found[1]) if found else 0


def printable(text):
    """Returns text on one line: control characters, and bytes that aren't UTF-8, are \\x and two digits."""
    return re.sub(r"[\x00-\x1f\x7f\udc80-\udcff]", lambda it: f"\\x{ord(it[0]) & 0xFF:02x}", text)


def whole_number(text):
    """Returns a number of an argument, which has digits alone."""
    if not re.fullmatch("[0-9]{1,10}", text):
        raise argparse.ArgumentTypeError(f"{text!r} is no number")
    return int(text)


def number_of_bytes(text):
    """Returns a number of bytes as a linker script has it: decimal, 0x and hexadecimal, 0 and octal, with K or M after it."""
    found = re.fullmatch(r"(0[xX][0-9a-fA-F]{1,16}|0[0-7]{0,22}|[1-9][0-9]{0,19})([KkMm]?)", text)
    if not found:
        raise Problem(f"{text!r} is no number of bytes")
    digits, scale = found[1], {"": 1, "K": 1024, "M": 1024**2}[found[2].upper()]
    base = 16 if digits[:2] in ("0x", "0X") else 8 if digits[0] == "0" else 10
    return int(digits, base) * scale


def share(text):
    """Returns the number of a percentage, or None if the text is no percentage."""
    found = re.fullmatch(r"([0-9]{1,9}(?:\.[0-9]{1,9})?)%", text)
    return float(found[1]) if found else None
