#!/usr/bin/env python3
"""Compares `./cet link` with GNU ld.

Usage: compare_links.py [COUNT [SEED]]      200 programs of seed 1 where nothing is said; the first 20 differences are printed

Each random program has a few C files with functions that call one another, weak and static ones, tables of addresses, and data of several
alignments; gcc compiles them with `-fcf-protection=full`, some with `-fcf-protection=none`. `cet` and ld, which is told the same places, link the objects: the
bytes of each segment, the values of the symbols and the entry are the same, the note claims the same features, readelf has no warning, and
both programs end with the same status here. ld is told to fill gaps with zeros, and to start no section of the output at a multiple of more than its first
part asks for.
"""
import random
import re
import struct
import subprocess
import sys
import tempfile
from pathlib import Path

import listing

SCRIPT = """ENTRY(_start)
SECTIONS {
  . = 0x401000;
  .text : { *(.text .text.*) } =0
  . = ALIGN(4096);
  .note.gnu.property : { *(.note.gnu.property) }
  .rodata . : { *(.rodata .rodata.*) } =0
  . = ALIGN(4096);
  .data : { *(.data .data.*) } =0
  .bss . : { *(.bss .bss.*) }
  /DISCARD/ : { *(.comment) *(.note.GNU-stack) }
}
"""
FLAGS = ("-c", "-ffreestanding", "-fno-pic", "-fno-stack-protector", "-fno-asynchronous-unwind-tables", "-fno-merge-constants", "-mgeneral-regs-only",
         "-mcmodel=small", "-fno-common")
START = """
__attribute__((naked)) void _start(void) {
  __asm__("call main\\n mov %eax, %edi\\n mov $231, %eax\\n syscall\\n ud2");
}
"""


def file_text(rng, number, files):
    """One of the C files. Function fJ_K stands in file J; each calls others of a greater number only."""
    lines = []
    for j in range(files):
        lines += [f"unsigned f{j}_{k}(unsigned);" for k in range(3)] + [f"extern unsigned d{j}[{4}];"]
    lines.append("__attribute__((weak)) unsigned absent(unsigned); __attribute__((weak)) unsigned shared(unsigned);")
    align = rng.choice((4, 8, 16, 32, 64, 256))
    values = ", ".join(str(rng.randrange(2 ** 32)) for _ in range(4))
    lines.append(f"__attribute__((aligned({align}))) unsigned d{number}[4] = {{{values}}};")
    lines.append(f"static unsigned kept[{rng.randrange(1, 50)}]; static const unsigned char bytes[{rng.randrange(3, 40)}] = {{1, 2, 3}};")
    lines.append(f"__attribute__((aligned({rng.choice((1, 16, 64))}))) unsigned char zeros{number}[{rng.randrange(1, 300)}];")
    if rng.randrange(2):
        lines.append(f"{rng.choice(('__attribute__((weak))', '')) if number == 0 else '__attribute__((weak))'} unsigned shared(unsigned x) {{ return x + {number}; }}")
    table = ", ".join(f"f{rng.randrange(files)}_{rng.randrange(3)}" for _ in range(4))
    lines.append(f"unsigned (*{rng.choice(('const ', ''))}table{number}[4])(unsigned) = {{{table}}};")
    lines.append(f"unsigned *inner{number} = &d{rng.randrange(files)}[{rng.randrange(4)}];")
    for k in range(3):
        later = [(j, m) for j in range(files) for m in range(3) if (j, m) > (number, k)]
        calls = "".join(f" x += f{j}_{m}(x);" for j, m in rng.sample(later, min(2, len(later))))
        cold = rng.choice(("", "__attribute__((cold)) ", '__attribute__((section(".text.apart"))) '))
        lines.append(f"{cold}unsigned f{number}_{k}(unsigned x) {{ kept[0] += x; x ^= d{rng.randrange(files)}[x & 3] + bytes[x % 3] + (unsigned)(unsigned long)inner{number};"
                     f" if (absent) x += absent(x); if (shared) x += shared(x); zeros{number}[0] += x;{calls} return x; }}")
    if number == 0:
        lines.append("unsigned main(void) { unsigned x = 1; for (int i = 0; i < 4; i++) x += f0_0(x) ^ (unsigned)(unsigned long)table0[i]; return x & 127; }")
        lines.append(START)
    return "\n".join(lines) + "\n"


def run(*words):
    return subprocess.run([str(word) for word in words], capture_output=True, text=True)


def loaded(path):
    """The entry, and the bytes of each segment that is loaded, with its size and flags."""
    data = path.read_bytes()
    entry, = struct.unpack_from("<Q", data, 24)
    at, = struct.unpack_from("<Q", data, 32)
    size, count = struct.unpack_from("<HH", data, 54)
    segments = []
    for n in range(count):
        kind, flags, offset, start, _, stored, taken, _ = struct.unpack_from("<IIQQQQQQ", data, at + n * size)
        if kind == 1 and taken:
            segments.append((start, taken, flags, data[offset:offset + stored]))
    return entry, segments


def bytes_of(segments):
    """The bytes by address; what is not stored is zero."""
    found = {}
    for start, taken, _, stored in segments:
        for n in range(taken):
            found[start + n] = stored[n] if n < len(stored) else 0
    return found


def symbols(path):
    """The values of the symbols that have a name and are no sections, files or linker's own."""
    out = run("readelf", "-sW", path).stdout
    found = []
    for line in out.splitlines():
        words = line.split()
        if len(words) == 8 and words[0].rstrip(":").isdigit() and words[3] in ("NOTYPE", "FUNC", "OBJECT") and words[6] != "UND":
            found.append((words[7], int(words[1], 16), words[3], words[4]))
    return sorted(found)


def note(path):
    out = run("readelf", "-nW", path).stdout
    return re.findall(r"x86 feature: (.*)", out)


def difference(folder, rng):
    files = rng.randrange(1, 6)
    objects = []
    for number in range(files):
        (folder / f"{number}.c").write_text(file_text(rng, number, files))
        protection = "full" if rng.randrange(6) else "none"
        made = run("gcc", rng.choice(("-O0", "-O1", "-O2", "-Os")), f"-fcf-protection={protection}", *FLAGS, "-o", folder / f"{number}.o", folder / f"{number}.c")
        if made.returncode:
            sys.exit(f"gcc: {made.stderr}")
        objects.append(folder / f"{number}.o")
    (folder / "script").write_text(SCRIPT)
    theirs, ours = folder / "theirs", folder / "ours"
    made = run("ld", "-static", "-z", "noexecstack", "-T", folder / "script", "-o", theirs, *objects)
    if made.returncode:
        return f"ld: {made.stderr}"
    ours.unlink(missing_ok=True)
    made = run(listing.PROGRAM, "link", "--out", ours, *objects)
    if made.returncode or made.stdout or made.stderr:
        return f"cet: {made.returncode} {made.stdout} {made.stderr}"
    told = run("readelf", "-aW", ours)
    if told.stderr or "Warning" in told.stdout:
        return f"readelf: {told.stderr[:500]}"
    (entry, here), (their_entry, there) = loaded(ours), loaded(theirs)
    if entry != their_entry:
        return f"entry {entry:#x}, {their_entry:#x}"
    mine, other = bytes_of(here), bytes_of(there)
    for address in sorted(mine.keys() | other.keys()):
        if mine.get(address, 0) != other.get(address, 0):
            return f"byte at {address:#x}: {mine.get(address)}, {other.get(address)}"
    if symbols(ours) != symbols(theirs):
        return f"symbols {set(symbols(ours)) ^ set(symbols(theirs))}"
    if note(ours) != note(theirs):
        return f"note {note(ours)}, {note(theirs)}"
    ours.chmod(0o755)
    statuses = [run(path).returncode for path in (ours, theirs)]
    return None if statuses[0] == statuses[1] >= 0 else f"statuses {statuses}"


def main():
    count = int(sys.argv[1]) if len(sys.argv) > 1 else 200
    seed = int(sys.argv[2]) if len(sys.argv) > 2 else 1
    run(listing.CET)
    differing = 0
    with tempfile.TemporaryDirectory() as name:
        for number in range(count):
            told = difference(Path(name), random.Random(f"{seed} {number}"))
            if told:
                differing += 1
                if differing <= 20:
                    print(f"program {number} of seed {seed}: {told}")
    print(f"{count} programs, {differing} differ")
    sys.exit(differing != 0)


if __name__ == "__main__":
    main()
