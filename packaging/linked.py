"""What a program links at its start, as its ELF file says it (64 bits, least byte first: the form of amd64)."""

import re
import struct

# Types of segments: what is loaded, and the table of what is linked.
LOAD, DYNAMIC = 1, 2
# Kinds of rows of that table.
NEEDED, STRINGS, VERSIONS, VERSION_COUNT = 1, 5, 0x6FFFFFFE, 0x6FFFFFFF
# The Debian packages of the libraries that a program of the toolchain may link.
PACKAGES = {
    "ld-linux-x86-64.so.2": "libc6",
    "libc.so.6": "libc6",
    "libdl.so.2": "libc6",
    "libm.so.6": "libc6",
    "libpthread.so.0": "libc6",
    "libgcc_s.so.1": "libgcc-s1",
}


class Unknown(Exception):
    """The file isn't such a program, or links what no package is known for."""


class Elf:
    """The file of a program, read."""

    def __init__(self, data):
        if data[:6] != b"\x7fELF\x02\x01":
            raise Unknown("it is no ELF file of 64 bits")
        self.data = data
        at, size, count = (*struct.unpack_from("<Q", data, 32), *struct.unpack_from("<HH", data, 54))
        self.segments = [struct.unpack_from("<IIQQQQQQ", data, at + size * it) for it in range(count)]
        self.rows = self.dynamic()

    def dynamic(self):
        """The rows of what is linked, each a kind and a value."""
        found = [it for it in self.segments if it[0] == DYNAMIC]
        if not found:
            return []
        _, _, at, _, _, size, _, _ = found[0]
        return list(struct.iter_unpack("<QQ", self.data[at : at + size // 16 * 16]))

    def value(self, kind):
        """The value of the row of a kind."""
        return next(value for it, value in self.rows if it == kind)

    def place(self, address):
        """Where in the file that lies which is loaded to an address."""
        for kind, _, at, begin, _, size, _, _ in self.segments:
            if kind == LOAD and begin <= address < begin + size:
                return at + address - begin
        raise Unknown(f"nothing is loaded to {address:#x}")

    def text(self, offset):
        """The text at an offset of the table of texts."""
        begin = self.place(self.value(STRINGS)) + offset
        return self.data[begin : self.data.index(b"\0", begin)].decode()

    def libraries(self):
        """The names of the libraries that are linked."""
        return [self.text(value) for kind, value in self.rows if kind == NEEDED]

    def versions(self):
        """The versions of symbols that each library needs to have."""
        needed = {}
        if VERSIONS not in dict(self.rows):
            return needed
        at = self.place(self.value(VERSIONS))
        for _ in range(self.value(VERSION_COUNT)):
            _, count, name, first, following = struct.unpack_from("<HHIII", self.data, at)
            row = at + first
            for _ in range(count):
                _, _, _, version, step = struct.unpack_from("<IHHII", self.data, row)
                needed.setdefault(self.text(name), set()).add(self.text(version))
                row += step
            at += following
        return needed


def least_version(names):
    """The least release that has these versions of symbols, such as 2.34 for GLIBC_2.2.5 and GLIBC_2.34. None if there
    are none."""
    found = [re.fullmatch(r"(?:GLIBC|GCC)_(\d+(?:\.\d+)*)", it) for it in names]
    if None in found:
        raise Unknown(f"one of these versions of symbols isn't known: {' '.join(sorted(names))}")
    numbers = [tuple(map(int, it[1].split("."))) for it in found]
    return ".".join(map(str, max(numbers))) if numbers else None


def linked(data):
    """The libraries that a program links, and what a Debian package of it depends on."""
    elf = Elf(data)
    libraries, versions = elf.libraries(), elf.versions()
    strangers = [it for it in libraries if it not in PACKAGES]
    if strangers:
        raise Unknown(f"no package is known for {' '.join(strangers)}, which it links")
    needed = {}
    for it in libraries:
        needed.setdefault(PACKAGES[it], set()).update(versions.get(it, ()))
    least = {package: least_version(names) for package, names in needed.items()}
    return libraries, [f"{it} (>= {least[it]})" if least[it] else it for it in sorted(least)]
