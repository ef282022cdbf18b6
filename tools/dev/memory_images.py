"""Images of firmware for the test of tools/memory: linked by GNU ld, recorded, and written anew without a compiler.

    python3 tools/dev/memory_images.py    links all images with arm-none-eabi-gcc and records their headers in tool_inputs/memory.json

The linker scripts and sources are in tool_inputs/memory. Of each image the record has the table of regions in the linker's
map, what `ld --print-memory-usage` printed for it, its program headers, and its sections that have addresses. The recorded
numbers are those of arm-none-eabi-gcc 12.2.1 with GNU ld 2.40 (Debian 12), as the record's first line says.
"""
import json
import os
import re
import shutil
import struct
import subprocess
import sys
import tempfile

FOLDER = os.path.join(os.path.dirname(os.path.realpath(__file__)), "tool_inputs")
SOURCES, RECORD = os.path.join(FOLDER, "memory"), os.path.join(FOLDER, "memory.json")
COMPILER = "arm-none-eabi-gcc"
COMPILE = ["-mcpu=cortex-m4", "-mthumb", "-Os", "-ffunction-sections", "-c"]
PAGES = ["-Wl,-z,max-page-size=0x10000", "-Wl,-z,max-page-size=0x1000", "-Wl,-z,max-page-size=4", "-Wl,-n", "-Wl,-N", "-Wl,--gc-sections"]
# These scripts are recorded with each of the flags above, the others with the first.
ALL_PAGES = ("plain", "itcm", "headers")
WITHOUT_BYTES, HAS_ADDRESSES = 8, 2


def has_compiler():
    return shutil.which(COMPILER) is not None


def script_names():
    return sorted(name[:-3] for name in os.listdir(SOURCES) if name.endswith(".ld"))


class Linker:
    """Links images into a folder, from objects that are compiled once."""

    def __init__(self, folder):
        self.folder = folder
        for name in ("parts.c", "empty.s", "threads.c"):
            subprocess.run([COMPILER, *COMPILE, f"{SOURCES}/{name}", "-o", f"{folder}/{name}.o"], check=True)

    def link(self, name, flags):
        """Returns the paths of an image and of its map, and what the linker printed of its memory."""
        base = f"{self.folder}/{name}{''.join(it for it in flags if it.isalnum())}"
        with open(f"{SOURCES}/{name}.ld", encoding="utf-8") as file:
            script = file.read()
        wanted = [True, ".nothing" in script or ".rotable" in script, ".tdata" in script]
        parts = [part for part, used in zip(("parts.c", "empty.s", "threads.c"), wanted) if used]
        objects = [f"{self.folder}/{part}.o" for part in parts]
        options = ["-nostdlib", "-T", f"{SOURCES}/{name}.ld", "-Wl,-e,start", flags, f"-Wl,-Map={base}.map", "-Wl,--print-memory-usage"]
        ran = subprocess.run([COMPILER, *objects, *options, "-o", f"{base}.elf"], stdout=subprocess.PIPE, stderr=subprocess.DEVNULL, check=True)
        return f"{base}.elf", f"{base}.map", ran.stdout.decode()


def record_of(path):
    """Returns the program headers and the sections with addresses of an ELF file of 32 bits, little endian."""
    with open(path, "rb") as file:
        data = file.read()
    programs, sections = struct.unpack_from("<2I", data, 28)
    count, _, section_count, names = struct.unpack_from("<4H", data, 44)
    headers = [struct.unpack_from("<6I", data, sections + 40 * number) for number in range(section_count)]
    found = []
    for name, kind, flags, address, offset, size in headers:
        start = headers[names][4] + name
        if flags & HAS_ADDRESSES:
            found.append([data[start : data.index(b"\0", start)].decode(), kind, flags, address, offset, size])
    return [struct.unpack_from("<8I", data, programs + 32 * number) for number in range(count)], found


def image(programs, sections, wide=False, order="<"):
    """Returns an ELF file with these headers, whose sections are filled with zeros, of 32 or 64 bits."""
    names, starts = b"\0", []
    for section in sections:
        starts.append(len(names))
        names += section[0].encode() + b"\0"
    last = len(names)
    names += b".shstrtab\0"
    ends = [it[4] + (0 if it[1] == WITHOUT_BYTES else it[5]) for it in sections] + [it[1] + it[4] for it in programs]
    names_at = max(ends + [(64 if wide else 52) + (56 if wide else 32) * len(programs)])
    table = (names_at + len(names) + 7) // 8 * 8
    form = "IIQQQQIIQQ" if wide else "10I"
    headers = [(0,) * 10]
    headers += [(start, *it[1:3], *it[3:6], 0, 0, 1, 0) for start, it in zip(starts, sections)]
    headers += [(last, 3, 0, 0, names_at, len(names), 0, 0, 1, 0)]
    data = bytearray(table + struct.calcsize(order + form) * len(headers))
    data[:16] = b"\x7fELF" + bytes([2 if wide else 1, 1 if order == "<" else 2, 1]) + bytes(9)
    sizes = (64, 56, len(programs), 64) if wide else (52, 32, len(programs), 40)
    address = "Q" if wide else "I"
    struct.pack_into(f"{order}HHI3{address}I6H", data, 16, 2, 40, 1, 0, sizes[0], table, 0, *sizes, len(headers), len(headers) - 1)
    for number, (kind, offset, virtual, physical, stored, memory, flags, align) in enumerate(programs):
        fields = (kind, flags, offset, virtual, physical, stored, memory, align) if wide else programs[number]
        struct.pack_into(order + ("II6Q" if wide else "8I"), data, sizes[0] + sizes[1] * number, *fields)
    data[names_at : names_at + len(names)] = names
    for number, fields in enumerate(headers):
        struct.pack_into(order + form, data, table + struct.calcsize(order + form) * number, *fields)
    return bytes(data)


def regions_in(path):
    """Returns the table of regions in a linker's map."""
    with open(path, encoding="utf-8") as file:
        return re.search(r"Memory Configuration\n\n.*?\n\n", file.read(), re.S)[0]


def recorded():
    """Returns the images of the record, each a dictionary."""
    with open(RECORD, encoding="utf-8") as file:
        return [json.loads(line) for line in list(file)[1:]]


def main():
    if not has_compiler() or sys.argv[1:]:
        sys.exit(__doc__)
    linker = subprocess.run([COMPILER, "-print-prog-name=ld"], stdout=subprocess.PIPE, check=True).stdout.decode().strip()
    version = subprocess.run([linker, "--version"], stdout=subprocess.PIPE, check=True).stdout.decode().split("\n")[0]
    compiler = subprocess.run([COMPILER, "--version"], stdout=subprocess.PIPE, check=True).stdout.decode().split("\n")[0]
    lines = [{"made by": "tools/dev/memory_images.py", "linker": version, "compiler": compiler}]
    with tempfile.TemporaryDirectory() as folder:
        linker = Linker(folder)
        for name in script_names():
            for flags in PAGES if name in ALL_PAGES else PAGES[:1]:
                elf, map_file, usage = linker.link(name, flags)
                programs, sections = record_of(elf)
                said = {"name": name, "flags": flags, "map": regions_in(map_file), "usage": usage}
                lines.append({**said, "programs": programs, "sections": sections})
    with open(RECORD, "w", encoding="utf-8") as file:
        file.write("\n".join(json.dumps(line) for line in lines) + "\n")


if __name__ == "__main__":
    main()
