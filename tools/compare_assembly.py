#!/usr/bin/env python3
"""Compares `./cet asm` with `./cet dis`, objdump, readelf and GNU ld.

Usage: compare_assembly.py [COUNT [SEED]]      100000 forms of seed 1 where nothing is said; the first 20 differences are printed

- Random forms of every row of the table of forms: the text that `dis` prints is assembled, and objdump says of the bytes what the text says; the
  text that `dis` prints of these bytes, which are canonical forms, is assembled to the same bytes.
- Of every text with a number of 32 bits: a symbol in its place, to which ld gives the value, makes the same bytes.
- The example programs and a text with every directive, site word and kind of field: GNU as makes the same sections, symbols and relocations of them
  in its own spelling, and ld links them; the first one ends with status 0 here.
- readelf takes each object without a warning.
"""
import itertools
import re
import shutil
import subprocess
import sys
import tempfile
from pathlib import Path

import compare_objects
import forms
import gnu
import listing
import objdump

PROGRAMS = ("signal.s", "one_context.s", "fibers.s")
# fewer than the names that an object may have
PIECE = 50000
# words whose constant is no field of 32 bits with a sign: it has no sign, or is a count of 8 bits
NOT_SIGNED = ("movabs", "rol", "ror", "shl", "shr", "sar")


# Every directive, every site word, and names in every kind of field, with and without a number.
EVERYTHING = """.note shstk ibt; .global f; .global s; .section data; table: .word 0x8000000000000000; .word -1; .word @f
.byte 255; .byte -128; .align 8; .byte 1; .align 16; entries: .off f, entries; .off g, table; .off far, entries; .zero 5; .object o 3; .object p 0
.section bss; .zero 1; b: .object s 24; .section rodata; r: .word @far; .section text
.func g; ret; .end; .func f; a: land 8, @f; land 72, @g+5; release 72; release 2147483615; throw; switch @s, @s+8; switch @s-8, @far; fibermake @s, @g
fibermake @s+16, @g-1; spawn g; action 10, @table; action 0, @table+32; read @s, 4294967295; read @b+1, 0; throw; spawn far
call f; call far; call rbx; jmp a; jmp far; je a; jg far; notrack jmp rdx; jmp.s a2; a2: jne.s a2; movabs.4 rsi, @r; movabs.4 r9, @r+1; movabs.8 r9, @r-1
movabs.8 rax, @far; mov.8 rbx, @r; mov.8 [rax], @r+4; add.8 rcx, @r; sub.4 rdx, @r-2; cmp.8 [r12+rcx*8-4], @r; imul.8 rcx, rdx, @r; push @far; push @far+1
test.4 rcx, @r; ld.8 rax, [@b]; mov.4 [rax*8+@b+8], rdx; lea.8 rax, [rcx+@b-8]; ld.8 rax, [rip+@b]; mov.8 [rip+@b+4], 5; add.4 [rip+@far], 1000
cmp.1 [rip+@b-3], 7; mov.8 [rip+@b], @far; mov.8 [rbx+@far], @b; call [rip+@far]; jmp [rax*8+@table]; shl.4 [rip+@b], 3; push [rip+@b]; lock xadd.8 [@b], rax
movzx.4 rax, [rip+@b]; imul.4 rcx, [rip+@b], 9; .align 16; .word @f; .byte 7; .zero 2; .end; .func empty; .end
"""


def run(*words):
    return subprocess.run([str(word) for word in words], capture_output=True, text=True)


def assembled(folder, text):
    """The object of the text, which readelf has no warning for."""
    (folder / "a.s").write_text(text)
    made = run(listing.CET, "asm", "--out", folder / "a.o", folder / "a.s")
    if made.returncode or made.stdout:
        sys.exit(f"./cet asm ended with status {made.returncode}: {made.stderr}")
    told = run("readelf", "-aW", folder / "a.o")
    if told.returncode or told.stderr or "Warning" in told.stdout:
        sys.exit(f"readelf: {told.stderr[:2000]}")
    return folder / "a.o"


def assembled_by_gnu(folder, text):
    """What GNU as makes of the text in its own spelling."""
    (folder / "b.s").write_text(gnu.spelled(text))
    made = run("as", "-mshared", "-o", folder / "b.o", folder / "b.s")
    if made.returncode or made.stderr:
        sys.exit(f"as: {made.stderr[:2000]}")
    return folder / "b.o"


def facts(path):
    """A line for each section that has bytes, for each named symbol, and for each relocation with its symbol's name, in the order of the lines."""
    data, rows, lines = path.read_bytes(), compare_objects.sections(path), []
    for name, kind, offset, size, flags, *_ in rows:
        if "A" in flags and size > 0:
            lines.append(f"section {name} {kind} {flags} {size} {'' if kind == 'NOBITS' else data[offset:offset + size].hex()}")
    table = [(row[0].removeprefix("n_"), *row[1:]) for row in compare_objects.symbols(path)]
    for name, kind, _, place, value, size in table:
        if name and kind != "SECTION":
            lines.append(f"symbol {name} {kind} {rows[int(place)][0] if place.isdigit() else place} {value} {size}")
    text = next(data[row[2]:row[2] + row[3]] for row in rows if row[0] == ".text")
    for name, entries in compare_objects.relocations(path).items():
        for at, kind, symbol, addend in entries:
            if name == ".rela.text":
                kind = type_here(kind, text[at - 1])
            lines.append(f"{name} {at:#x} {kind} {table[symbol][0]} {addend}")
    return sorted(lines)


def type_here(kind, before):
    """The type that `cet` gives a relocation behind this byte: as has R_X86_64_PLT32 for JMP and Jcc too, where `cet` has R_X86_64_PC32, and
    R_X86_64_32 for a constant of an instruction of 32 bits, where `cet` has R_X86_64_32S but for MOV to a register by B8 to BF."""
    if kind == 4 and before != 0xe8:
        return 2
    if kind == 10 and before & 0xf8 != 0xb8:
        return 11
    return kind


def section(folder, file):
    run("objcopy", "-O", "binary", "-j", ".text", file, folder / "text.bin").check_returncode()
    return (folder / "text.bin").read_bytes()


def in_function(lines):
    return ".func f\n" + "\n".join(lines) + "\n.end\n"


def texts_of(code):
    """The texts that `dis` prints, and the bytes of each."""
    rows = [line.split(" ", 2) for line in listing.dis(listing.CET, code).stdout.splitlines()]
    return [row[2] for row in rows], [bytes.fromhex(row[1]) for row in rows]


def differences(texts, pieces):
    """The texts of which objdump says something else at their bytes."""
    rows = objdump.rows(pieces, listing.START)
    address = listing.START
    for text, piece in zip(texts, pieces):
        length, row = rows.get(address, objdump.NOTHING)
        try:
            _, operation = listing.operation(text, address + len(piece))
            if (len(piece), operation) != (length, objdump.operation(row)):
                yield f"{text}: {piece.hex()} is {length} bytes, {row}"
        except (ValueError, KeyError):
            yield f"{text}: {piece.hex()} is {row}"
        address += len(piece)


def with_symbol(text, i):
    """The text with a symbol in the place of its number of 32 bits, and what the number counts from: nothing, or the end of the
    instruction. None where it has no such number, or where a constant is no field of 32 bits with a sign."""
    found = re.fullmatch(r"(.*)\$(-?\d+)", text)
    if found and ".s " not in text:
        return f"{found[1]}s{i}", int(found[2]), True
    found = re.fullmatch(r"(.*\[(?:.*\+)?)(-?\d+)(\].*)", text) or re.fullmatch(r"(.*\[.*)(-\d+)(\].*)", text)
    if found and (abs(int(found[2])) > 128 or "rip" in text):
        plus = "+" if found[2][0] == "-" and not found[1].endswith("[") else ""
        return f"{found[1]}{plus}@s{i}{found[3]}", int(found[2]), "rip" in text
    found = re.fullmatch(r"([a-z]+[0-9]?\.[48] .*, |push )(-?\d+)", text)
    if found and abs(int(found[2])) > 128 and not found[1].startswith(NOT_SIGNED):
        return f"{found[1]}@s{i}", int(found[2]), False
    return None


def linked(folder, texts, pieces):
    """The texts with symbols for numbers, whose bytes are others when ld has put the numbers in."""
    lines, wanted, symbols, address = [], [], [], listing.START
    for i, (text, piece) in enumerate(zip(texts, pieces)):
        made = with_symbol(text, i)
        if made is None:
            continue
        line, value, from_end = made
        lines.append(line)
        wanted.append((text, piece))
        address += len(piece)
        symbols.append((f"s{i}", (value + (address if from_end else 0)) % (1 << 64)))
    script = "".join(f"{name} = {value:#x};\n" for name, value in symbols)
    (folder / "symbols.ld").write_text(f"{script}SECTIONS {{ . = {listing.START:#x}; .text : {{ *(.text) }} }}\n")
    ended = run("ld", "-T", folder / "symbols.ld", "-e", "f", "-o", folder / "a.out", assembled(folder, in_function(lines)))
    if ended.returncode:
        sys.exit(f"ld: {ended.stderr[:2000]}")
    code = section(folder, folder / "a.out")
    bad, at = [], 0
    for text, piece in wanted:
        if code[at:at + len(piece)] != piece:
            bad.append(f"{text}: {piece.hex()} and with a symbol {code[at:at + len(piece)].hex()}")
        at += len(piece)
    return len(wanted), bad


def programs(folder):
    bad = []
    texts = {name: (listing.TOP / "examples" / name).read_text() for name in PROGRAMS}
    for name, text in {**texts, "everything": EVERYTHING}.items():
        object_file = assembled(folder, text)
        mine, other = facts(object_file), facts(assembled_by_gnu(folder, text))
        bad += [f"{name}: {line} by one assembler alone" for line in set(mine) ^ set(other)]
        ended = run("ld", *([] if name in texts else ["--defsym", "far=0x12345678", "-e", "f"]), "-o", folder / "a.out", object_file)
        if ended.returncode or ended.stderr:
            bad.append(f"{name}: ld: {ended.stderr}")
        elif name == PROGRAMS[0] and run(folder / "a.out").returncode != 0:
            bad.append(f"{name} ends with another status than 0")
    return bad


def main(count, seed):
    missing = [word for word in ("objdump", "objcopy", "readelf", "ld", "as") if not shutil.which(word)]
    if missing:
        print(f"skipped: no {missing[0]} here")
        return 0
    bad, done, with_symbols = [], 0, 0
    made = (form for _, form in forms.forms(seed))
    with tempfile.TemporaryDirectory() as name:
        folder = Path(name)
        while done < count:
            part = list(itertools.islice(made, min(PIECE, count - done)))
            texts, _ = texts_of(b"".join(part))
            code = section(folder, assembled(folder, in_function(texts)))
            again, pieces = texts_of(code)
            if again != texts:
                bad.append(f"{next(a for a in zip(texts, again) if a[0] != a[1])}")
            if section(folder, assembled(folder, in_function(again))) != code:
                bad.append("canonical forms are assembled to other bytes")
            bad += differences(texts, pieces)
            number, wrong = linked(folder, texts, pieces)
            with_symbols += number
            bad += wrong
            done += len(part)
        bad += programs(folder)
    print(*bad[:20], sep="\n", end="\n" if bad else "")
    print(f"{done} forms of seed {seed} and {with_symbols} symbols compared, {len(PROGRAMS) + 1} programs, {len(bad)} differences")
    return 1 if bad else 0


if __name__ == "__main__":
    words = [int(word) for word in sys.argv[1:]]
    sys.exit(main(*words, *(100000, 1)[len(words):]))
