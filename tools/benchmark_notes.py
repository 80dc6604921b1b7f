#!/usr/bin/env python3
"""Measures `./cet notes` beside readelf on one object of nearly 16 MiB, with 65,536 symbols and 400,000 relocations: the seconds that each
takes, in turns, both to /dev/null.

Usage: benchmark_notes.py      the program has to be built
"""
import shutil
import struct
import tempfile

import listing
from benchmark_dis import measure, peak_kibibytes

SYMBOLS, RELOCATIONS, SIZE = 65_536, 400_000, 16 << 20
READELF = "readelf -SsrnW"
NOTE = struct.pack("<III4sIIII", 4, 16, 5, b"GNU\0", 0xc0000002, 4, 3, 0)


def header(name, kind, flags, offset, size, link, info, align, entry):
    return struct.pack("<IIQQQQIIQQ", name, kind, flags, 0, offset, size, link, info, align, entry)


def table(names):
    """A string table, and where each name stands in it."""
    text, places = b"\0", []
    for name in names:
        places.append(len(text))
        text += name.encode() + b"\0"
    return text, places


def make():
    """The object: one section of code, a note, symbols, their names, relocations."""
    names, places = bytearray(b"\0"), []
    for i in range(SYMBOLS - 1):
        places.append(len(names))
        names += f"symbol_{i}".encode() + b"\0"
    symbols = bytearray(24)
    for i, at in enumerate(places):
        symbols += struct.pack("<IBBHQQ", at, 0x12, 0, 1, i, 1)
    relocations = b"".join(struct.pack("<QQq", 8 * i, ((1 + i % (SYMBOLS - 1)) << 32) | 1, i) for i in range(RELOCATIONS))
    sections = [".text", ".note.gnu.property", ".symtab", ".strtab", ".rela.text", ".shstrtab"]
    section_names, at = table(sections)
    fixed = 64 + len(NOTE) + len(symbols) + len(names) + len(relocations) + len(section_names) + 64 * 7 + 64
    code = b"\x90" * ((SIZE - fixed) & ~7)
    assert len(code) >= 8 * RELOCATIONS
    parts, offsets = bytearray(64), []
    for part in code, NOTE, symbols, names, relocations, section_names:
        parts += b"\0" * (-len(parts) % 8)
        offsets.append(len(parts))
        parts += part
    parts += b"\0" * (-len(parts) % 8)
    place = len(parts)
    parts += bytes(64)
    parts += header(at[0], 1, 6, offsets[0], len(code), 0, 0, 16, 0)
    parts += header(at[1], 7, 2, offsets[1], len(NOTE), 0, 0, 8, 0)
    parts += header(at[2], 2, 0, offsets[2], len(symbols), 4, 1, 8, 24)
    parts += header(at[3], 3, 0, offsets[3], len(names), 0, 0, 1, 0)
    parts += header(at[4], 4, 0x40, offsets[4], len(relocations), 3, 1, 8, 24)
    parts += header(at[5], 3, 0, offsets[5], len(section_names), 0, 0, 1, 0)
    parts[:64] = struct.pack("<4sBBBB8xHHIQQQIHHHHHH", b"\x7fELF", 2, 1, 1, 0, 1, 62, 1, 0, 0, place, 0, 64, 0, 0, 64, 7, 6)
    assert len(parts) <= SIZE
    return bytes(parts)


def main():
    listing.built()
    with tempfile.NamedTemporaryFile(suffix=".o") as file:
        file.write(make())
        file.flush()
        runs = {"cet notes": ([listing.PROGRAM, "notes", file.name], "/dev/null")}
        if shutil.which("readelf"):
            runs[READELF] = (["readelf", "-SsrnW", file.name], "/dev/null")
        for name, times in measure(runs).items():
            print(f"{name:24} best {min(times):8.3f}  median {sorted(times)[len(times) // 2]:8.3f}")
        print(f"memory of cet: {peak_kibibytes([listing.PROGRAM, 'notes', file.name])} KiB at most")


if __name__ == "__main__":
    main()
