#!/usr/bin/env python3
"""Compares the rows of the tests of `cet_cpu` with GNU as and with this processor.

Usage: compare_steps.py

Each row of one step that has a text above it has the bytes that GNU as makes of the text. Each row of one step with features off that stands
on the usual code is run, one instruction at a time, and has the processor's registers, rip, words and fault, and each flag that the SDM
does not leave undefined; an undefined one is clear in the row. A SYSCALL is not run. The address of a page fault is the first of the access in a
row, and of an access that begins in a page the first one outside on the processor: so such a one may be up to 7 bytes further.
Where there is no gcc, or the processor is another one, nothing is compared.
"""
import platform
import re
import shutil
import subprocess
import sys
import tempfile
from pathlib import Path

TOP = Path(__file__).resolve().parent.parent
TESTS = TOP / "crates/cet_cpu/src/tests"
SINGLE = "widths", "operands", "results"
FAULTING = "faults", "accesses"
REGISTERS = "Rax Rcx Rdx Rbx Rsp Rbp Rsi Rdi R8 R9 R10 R11 R12 R13 R14 R15".split()
CODE = 0x401000
CF, ZF, SF, OF = 1, 2, 4, 8
BITS = {"al": 8, "cl": 8, "byte": 8, "eax": 32, "ecx": 32, "dword": 32}


def items(text):
    """The parts of a list or tuple, cut at the commas of its own."""
    found, depth, part = [], 0, ""
    for c in text:
        depth += (c in "([{") - (c in ")]}")
        if c == "," and depth == 0:
            found.append(part.strip())
            part = ""
        else:
            part += c
    return [p for p in found + [part.strip()] if p]


def number(text):
    return 2**64 - 1 if text == "u64::MAX" else int(text.replace("_", ""), 0)


def rows(path):
    """Each row as its text, or none, and its columns."""
    text, depth, part = None, 0, ""
    for line in path.read_text().splitlines():
        line = line.strip()
        if depth == 0 and line.startswith("// "):
            text = line[3:]
        elif depth or line.startswith("(b\"") or line == "(":
            part += " " + line
            depth = part.count("(") - part.count(")")
            if depth == 0:
                yield text, items(part.strip().rstrip(",")[1:-1])
                text, part = None, ""


def parts(text):
    return [(name, items(inside)) for name, inside in re.findall(r"(\w+)\(([^()]*)\)", text)]


class State:
    def __init__(self, changes=()):
        self.registers = dict.fromkeys(REGISTERS, 0)
        self.registers["Rsp"] = 0x403800
        self.rip, self.flags, self.words = CODE, 0, {}
        self.change(changes)

    def change(self, changes):
        for name, values in changes:
            if name == "Reg":
                self.registers[values[0]] = number(values[1])
            elif name == "Word":
                self.words[number(values[0])] = number(values[1])
            elif name == "Rip":
                self.rip = number(values[0])
            elif name == "Flags":
                self.flags = number(values[0])
        return self


def operands():
    text = (TESTS.parent / "tests.rt").read_text()
    return parts(re.search(r"OPERANDS: &\[Part\] = &\[(.*?)\];", text, re.S)[1].replace("Reg::", "").replace("Part::", ""))


def undefined(text, state):
    """The flags that the SDM leaves undefined after the instruction."""
    word = text.split()[0] if text else ""
    if word in ("imul", "mul"):
        return ZF | SF
    if word in ("div", "idiv"):
        return CF | ZF | SF | OF
    if word not in ("shl", "shr", "sar", "rol", "ror"):
        return 0
    first, by = text.split(None, 1)[1].rsplit(", ", 1)
    bits = BITS.get(first.split()[0], 64)
    count = (state.registers["Rcx"] if by == "cl" else int(by, 0)) % (64 if bits == 64 else 32)
    return (OF if count > 1 else 0) | (CF if word in ("shl", "shr") and count >= bits else 0)


def cases():
    """Each row of one step: where it stands, its text and code; and if it is run, the states before and after, and its fault."""
    usual = operands()
    for name in *SINGLE, *FAULTING, "data", "transfers", "features", "shadow_stack":
        for text, columns in rows(TESTS / f"{name}.rt"):
            code = bytes.fromhex(columns[0][2:-1].replace("\\x", ""))
            if name in SINGLE + FAULTING:
                mode, steps, before, end, after = "OFF", "1", usual + parts(columns[1]), "Next", []
            else:
                mode, steps, before, end, after = columns[1], columns[2], parts(columns[3]), columns[4], parts(columns[5])
            if steps != "1":
                continue
            run = mode == "OFF" and end != "Syscall" and not {"Waiting", "Ssp", "Rip"} & {part for part, _ in before}
            start, then = State(before), State(before)
            if name in SINGLE:
                then.rip += len(code)
                then.change(parts(columns[2]))
            elif name in FAULTING:
                end = f"Fault({columns[2]})"
            else:
                then.change(after)
            yield f"{name}: {text or code.hex()}", text, code, (start, then, end) if run else None


def assembled(text, folder):
    source, object_file, raw = (folder / name for name in ("row.s", "row.o", "row.bin"))
    source.write_text(f".intel_syntax noprefix\n{text}\n")
    subprocess.run(["as", source, "-o", object_file], check=True)
    subprocess.run(["objcopy", "-O", "binary", "-j", ".text", object_file, raw], check=True)
    return raw.read_bytes()


def line(code, start):
    flags = 2 | (start.flags & 1) | (start.flags >> 1 & 1) << 6 | (start.flags >> 2 & 1) << 7 | (start.flags >> 3 & 1) << 11
    numbers = [*start.registers.values(), flags]
    return " ".join([code.hex(), *(f"{n:x}" for n in numbers), *(f"{a:x}:{v:x}" for a, v in start.words.items())])


def differs(answer, text, start, then, end):
    """What the processor did otherwise, or nothing."""
    ended, address, *rest = answer.split()
    numbers = [int(n, 16) for n in rest[:18]]
    words = {int(a, 16): int(v, 16) for a, v in (word.split(":") for word in rest[18:])}
    fault = re.match(r"Fault\((\w+)(?: \{ addr: (\w+) \})?\)", end)
    if fault:
        if fault[1].lower() != ended or (fault[2] and not 0 <= int(address, 16) - number(fault[2]) < 8):
            return f"{ended} at {address}"
        return "" if words == {} else "words changed"
    if ended != "next":
        return f"{ended} at {address}"
    eflags = numbers[17]
    flags = (eflags & 1) | (eflags >> 6 & 1) << 1 | (eflags >> 7 & 1) << 2 | (eflags >> 11 & 1) << 3
    free = undefined(text, start)
    want = [*then.registers.values(), then.rip, then.flags]
    have = [*numbers[:17], flags & ~free]
    changed = {a: v for a, v in then.words.items() if v != start.words.get(a, 0)}
    if want != have or changed != words:
        return f"registers, rip, flags {[hex(n) for n in have]}, words {words}"
    return ""


def main():
    if not shutil.which("gcc") or platform.machine() != "x86_64":
        print("no gcc, or another processor: nothing is compared")
        return 0
    bad = texts = 0
    with tempfile.TemporaryDirectory() as name:
        folder = Path(name)
        program = folder / "one_step"
        subprocess.run(["gcc", "-O1", "-pie", "-fPIE", "-o", program, TOP / "tools/one_step.c"], check=True)
        ran = []
        for where, text, code, run in cases():
            if text:
                texts += 1
                made = assembled(text, folder)
                if made != code:
                    bad += 1
                    print(f"{where}: as makes {made.hex()} of it, and the row has {code.hex()}")
            if run:
                ran.append((where, text, code, *run))
        given = "".join(line(code, start) + "\n" for _, _, code, start, _, _ in ran)
        answers = subprocess.run([program], input=given, capture_output=True, text=True, check=True).stdout.splitlines()
        if len(answers) != len(ran):
            sys.exit("the processor answered fewer lines than it was asked")
        for answer, (where, text, _, start, then, end) in zip(answers, ran):
            other = differs(answer, text, start, then, end)
            if other:
                bad += 1
                print(f"{where}: the processor differs: {other}")
    print(f"texts {texts}, rows run {len(ran)}, differences {bad}")
    return bad > 0


if __name__ == "__main__":
    sys.exit(main())
