"""The sections and loads of an ELF file that is linked, as its headers have them (ELF gABI, chapters 4 and 5)."""
import struct
from typing import NamedTuple, Optional

import report

PROGRAM_LOAD = 1  # PT_LOAD
WITHOUT_BYTES = 8  # SHT_NOBITS
HAS_ADDRESSES, THREAD_LOCAL = 0x2, 0x400  # SHF_ALLOC, SHF_TLS
OBJECT = 1  # ET_REL


class Load(NamedTuple):
    """A program header of type PT_LOAD, with its number among all program headers."""

    number: int
    offset: int
    address: int
    load_address: int
    file_size: int
    memory_size: int


class Section(NamedTuple):
    """A section that has addresses. The load address is None if no load has the section."""

    name: str
    address: int
    size: int
    in_file: bool
    load: Optional[int]
    load_address: Optional[int]


class Headers:
    """The headers of one ELF file, of 32 or 64 bits and either byte order."""

    def __init__(self, name, data):
        self.name, self.data = name, data
        if data[:4] != b"\x7fELF" or len(data) < 20 or data[4] not in (1, 2) or data[5] not in (1, 2):
            raise report.Problem(f"{name}: not an ELF file")
        self.order, self.wide = "<>"[data[5] - 1], data[4] == 2
        kind = self.fields("H", 16)[0]
        table, sections = self.fields(self.form("QQ", "II"), 32 if self.wide else 28)
        sizes = self.fields("5H", 54 if self.wide else 42)
        if kind == OBJECT or not sizes[1]:
            raise report.Problem(f"{name}: not linked: it has no program headers")
        self.loads = list(self.read_loads(table, *sizes[:2]))
        self.sections = list(self.read_sections(sections, *sizes[2:]))
        if not self.sections:
            raise report.Problem(f"{name}: no section headers of sections with addresses")

    def form(self, wide, narrow):
        return wide if self.wide else narrow

    def fields(self, form, offset):
        """Returns the numbers at an offset of the file."""
        try:
            return struct.unpack_from(self.order + form, self.data, offset)
        except struct.error:
            raise report.Problem(f"{self.name}: the headers of this ELF file end too early") from None

    def read_loads(self, table, size, count):
        for number in range(count):
            offset = table + number * size
            if self.wide:
                kind, _, start, address, load, stored, memory = self.fields("II5Q", offset)
            else:
                kind, start, address, load, stored, memory = self.fields("6I", offset)
            if kind == PROGRAM_LOAD:
                yield Load(number, start, address, load, stored, memory)

    def read_sections(self, table, size, count, names):
        """Yields the sections that have addresses, in the order of their headers. Thread-local zeros have none."""
        headers = [self.fields(self.form("IIQQQQ", "6I"), table + number * size) for number in range(count)]
        if names >= len(headers):
            return
        start = headers[names][4]
        for name, kind, flags, address, offset, length in headers:
            zeros = kind == WITHOUT_BYTES
            if not flags & HAS_ADDRESSES or (zeros and flags & THREAD_LOCAL):
                continue
            load = self.load_of(address, offset, length, zeros)
            where = load.load_address + address - load.address if load else None
            yield Section(self.string(start + name), address, length, not zeros, load and load.number, where)

    def load_of(self, address, offset, length, zeros):
        """Returns the load that has a section. Overlays share addresses, so its offset in the file has to fit too."""
        for load in self.loads:
            inside = load.address <= address and address + length <= load.address + load.memory_size
            if inside and (zeros or offset - load.offset == address - load.address < load.file_size):
                return load
        return None

    def string(self, offset):
        end = self.data.find(b"\0", offset)
        return self.data[offset : max(end, offset)].decode("utf-8", "surrogateescape")
