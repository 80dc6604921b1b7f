#!/usr/bin/env python3
"""Compares what `read_object` gives for objects of the system's gcc with what readelf says of them: sections, symbols, relocations and
notes, in their numbers and values. Says nothing but that where gcc or readelf is not here.

Usage: compare_objects.py
"""
import re
import shutil
import subprocess
import sys
import tempfile
from pathlib import Path

import object_reader

C = {
    "data": "int counter; static int hidden = 3; const char *word = \"abc\"; extern int other(int);\n"
            "int twice(int x) { counter += hidden; return other(2 * x); }\n",
    "tables": "typedef int (*step)(int); static int up(int x) { return x + 1; } static int down(int x) { return x - 1; }\n"
              "step steps[] = { up, down }; const step fixed[] = { down, up, up };\n"
              "int go(int i, int x) { switch (i) { case 0: return x; case 1: return up(x) * 3; case 2: return x << 4; case 3: return -x; case 4: return x / 7; } return steps[i & 1](x); }\n",
    "weak": "extern int maybe(void) __attribute__((weak)); int shared __attribute__((weak)) = 5; int common_one[100];\n"
            "int ask(void) { return maybe ? maybe() : shared + common_one[3]; }\n",
    "aligned": "char big[3000] __attribute__((aligned(4096))); const double table[4] __attribute__((aligned(64))) = { 1, 2, 3, 4 };\n"
               "__attribute__((section(\".text.hot\"))) double pick(int i) { return table[i] + big[i]; }\n",
    "nothing": "",
}
ASSEMBLY = {
    "kinds": ".globl start\nstart: movabs $start, %rax\n mov $far, %eax\n lea near(%rip), %rcx\n call far\n jmp *table(,%rax,8)\n"
             " .section .rodata\nnear: .quad start, near-.\n .long start, near-.\n .data\ntable: .quad start+8, near\n .comm shared,16,8\n .set fixed, 1234\n .globl fixed\n",
    "many": "".join(f".section .text.f{n},\"ax\",@progbits\n.globl f{n}\nf{n}: call f{(n + 1) % 300}\n ret\n" for n in range(300)),
}
FLAGS = ["-O0", "-O2", "-Os -ffunction-sections -fdata-sections", "-O2 -g", "-O2 -fno-common -fcf-protection=full", "-O1 -fcommon -fcf-protection=branch",
         "-O2 -fno-pic -fcf-protection=none -mcmodel=large"]
KINDS = {"NOTYPE": "None", "FUNC": "Func", "OBJECT": "Object", "SECTION": "Section"}
BINDS = {"LOCAL": "Local", "GLOBAL": "Global", "WEAK": "Weak"}
LOADED = {"PROGBITS": 1, "NOTE": 7, "NOBITS": 8, "X86_64_UNWIND": 0x70000001}
NOTE = ".note.gnu.property"
# the relocation types that are read
TYPES = {0, 1, 2, 4, 10, 11, 24}


def compiled(folder):
    """The objects, with the words that made them."""
    found = {}
    for name, source in C.items():
        (folder / f"{name}.c").write_text(source)
        for i, flags in enumerate(FLAGS):
            found[folder / f"{name}{i}.o"] = ["gcc", *flags.split(), "-c", str(folder / f"{name}.c")]
    for name, source in ASSEMBLY.items():
        (folder / f"{name}.s").write_text(source)
        found[folder / f"{name}_asm.o"] = ["gcc", "-c", str(folder / f"{name}.s")]
    for path, words in found.items():
        subprocess.run([*words, "-o", str(path)], check=True)
    return sorted(found)


def readelf(option, path):
    return subprocess.run(["readelf", option, "-W", str(path)], capture_output=True, text=True, check=True).stdout.splitlines()


def sections(path):
    """The rows of the section header table: name, type, file offset, size, flags, info, alignment."""
    rows = []
    for line in readelf("-S", path):
        found = re.match(r"\s*\[\s*(\d+)\] (\S*)\s+(\S+)\s+[0-9a-f]{16} ([0-9a-f]+) ([0-9a-f]+) [0-9a-f]+\s+([A-Za-z]*)\s+(\d+)\s+(\d+)\s+(\d+)$", line)
        if found:
            number, name, kind, offset, size, flags, _, info, align = found.groups()
            if kind == "NULL":
                name = ""
            rows.append((name, kind, int(offset, 16), int(size, 16), flags, int(info), int(align)))
    return rows


def symbols(path):
    rows = []
    for line in readelf("-s", path):
        found = re.match(r"\s*(\d+): ([0-9a-f]{16})\s+(0x[0-9a-f]+|\d+) (\S+)\s+(\S+)\s+\S+\s+(\S+) ?(.*)$", line)
        if found:
            _, value, size, kind, bind, place, name = found.groups()
            rows.append((name, kind, bind, place, int(value, 16), int(size, 0)))
    return rows


def relocations(path):
    """The entries under the name of each relocation section."""
    found, name = {}, None
    for line in readelf("-r", path):
        heading = re.match(r"Relocation section '(\S+)'", line)
        if heading:
            name = heading.group(1)
            found[name] = []
        entry = re.match(r"([0-9a-f]{16})\s+([0-9a-f]{16}) .*?(?: ([+-]) ([0-9a-f]+)|\s([0-9a-f]+))$", line)
        if entry and name:
            offset, info, sign, addend, alone = entry.groups()
            number = int(addend or alone, 16) * (-1 if sign == "-" else 1)
            found[name].append((int(offset, 16), int(info, 16) & 0xffffffff, int(info, 16) >> 32, number if number < 2 ** 63 else number - 2 ** 64))
    return found


def class_of(kind, flags):
    if kind == "NOBITS":
        return "Zero"
    return "Code" if "X" in flags else "Write" if "W" in flags else "Read"


def unknown_type(rows, entries):
    """The line for the first relocation of a loaded section whose type is not read, if there is one."""
    for name, kind, offset, _, _, info, _ in rows:
        if kind == "RELA" and "A" in rows[info][4]:
            for i, entry in enumerate(entries.get(name, [])):
                if entry[1] not in TYPES:
                    return f"fault RelaType {{ at: {offset + 24 * i + 8}, value: {entry[1]} }}"
    return None


def expected(path):
    """The lines that follow from what readelf says."""
    data = path.read_bytes()
    rows, table, entries = sections(path), symbols(path), relocations(path)
    fault = unknown_type(rows, entries)
    if fault:
        return [fault]
    note = next((i for i, row in enumerate(rows) if row[1] == "NOTE" and row[0] == NOTE), None)
    kept = [i for i, row in enumerate(rows) if row[1] == "GROUP" or ("A" in row[4] and row[1] in LOADED and i != note)]
    numbers = {index: i for i, index in enumerate(kept)}
    named = [i for i, row in enumerate(table) if i == 0 or row[1] != "FILE"]
    symbol_numbers = {index: i for i, index in enumerate(named)}
    lines = []
    for index in kept:
        name, kind, offset, size, flags, _, align = rows[index]
        stored = b"" if kind == "NOBITS" else data[offset:offset + size]
        lines.append(f"section <{name}> {class_of(kind, flags)} {max(align, 1)} {size} {stored.hex()}".rstrip())
        for row in rows:
            if row[1] == "RELA" and row[5] == index:
                lines += [f"rela {offset} {kind} {symbol_numbers[symbol]} {addend}" for offset, kind, symbol, addend in entries.get(row[0], [])]
    for index in named:
        lines.append(symbol_line(table[index], index, rows, numbers))
    if note is not None:
        lines.append("note " + data[rows[note][2]:rows[note][2] + rows[note][3]].hex())
    return lines


def symbol_line(row, index, rows, numbers):
    if index == 0:
        return "symbol <> None Local Absolute 0 0"
    name, kind, bind, place, value, size = row
    places = {"UND": "Undefined", "ABS": "Absolute", "COM": "Common"}
    where = places.get(place) or (f"In({numbers[int(place)]})" if int(place) in numbers else "Absolute")
    if where == "Absolute" and place != "ABS":
        value = 0
    if kind == "SECTION":
        # readelf shows the name of the section, the entry has none
        name = ""
    return f"symbol <{name}> {KINDS[kind]} {BINDS[bind]} {where} {value} {size}"


def main():
    for tool in "gcc", "readelf":
        if not shutil.which(tool):
            print(f"no {tool} here: nothing was compared")
            return
    with tempfile.TemporaryDirectory() as folder:
        paths = compiled(Path(folder))
        shown = object_reader.read(paths)
        counts = {"section": 0, "rela": 0, "symbol": 0, "note": 0, "fault": 0}
        for path in paths:
            want, have = expected(path), [line.rstrip() for line in shown[path] if line.split(" ")[0] in counts]
            if want != have:
                for w, h in zip([*want, "nothing"], [*have, "nothing"]):
                    if w != h:
                        sys.exit(f"{path.name}: readelf says {w[:200]!r}, read_object gives {h[:200]!r}")
            for line in have:
                counts[line.split(" ")[0]] += 1
    print(f"{len(paths)} objects agree: " + ", ".join(f"{count} {word}s" for word, count in counts.items()))


if __name__ == "__main__":
    main()
