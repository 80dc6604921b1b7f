"""The listing that `cet dis` prints, and what the texts in it say. The kinds of texts are written by hand, apart from `cet`."""
import re
import subprocess
import sys
import tempfile
from pathlib import Path
from subprocess import PIPE
from typing import NamedTuple

from objdump import NAMES

TOP = Path(__file__).resolve().parent.parent
# proves and builds the program first where that is needed
CET = TOP / "cet"
PROGRAM = TOP / "crates" / "cet" / "out" / "cet"
START = 0x401000

ALL, WIDER = (1, 4, 8), (4, 8)
CONDITIONS = ("o", "no", "b", "ae", "e", "ne", "be", "a", "s", "ns", "l", "ge", "le", "g")
REGISTER = "|".join(sorted(NAMES, key=len, reverse=True))
NUMBER = r"0|-?[1-9]\d*"
ADDED = r"[+-][1-9]\d*"
MEMORY = [re.compile(pattern) for pattern in (
    rf"\[(?P<rip>rip)(?P<disp>\+0|{ADDED})\]",
    rf"\[(?P<disp>{NUMBER})\]",
    rf"\[(?P<base>{REGISTER})(\+(?P<index>{REGISTER})\*(?P<scale>[1248]))?(?P<disp>{ADDED})?\]",
    rf"\[(?P<index>{REGISTER})\*(?P<scale>[1248])(?P<disp>{ADDED})?\]")]


class Text(NamedTuple):
    """A kind of text."""
    variant: str
    # without the width
    word: str
    # in bytes; without any, nothing is behind the word, and registers and memory have 8
    widths: tuple = ()
    # by the kinds that `operand` knows
    operands: str = ""
    # objdump's mnemonic, where it is another one
    mnemonic: str = ""


def arithmetic_texts():
    found = []
    for word in "add", "or", "adc", "sbb", "and", "sub", "xor", "cmp":
        found += [Text("Alu", word, ALL, "rm r"), Text("AluImm", word, ALL, "rm signed"), Text("AluLoad", word + "_ld", ALL, "r rm", word)]
    found += [Text("Unary", word, ALL, "rm") for word in ("inc", "dec", "not", "neg")]
    found += [Text("Shift", word, ALL, "rm count") for word in ("rol", "ror", "shl", "shr", "sar")]
    found += [Text("MulDiv", word, WIDER, "rm", word.removesuffix("1")) for word in ("mul", "imul1", "div", "idiv")]
    return found + [
        Text("IMul2", "imul", WIDER, "r rm"), Text("IMul3", "imul", WIDER, "r rm signed"),
        Text("Test", "test", ALL, "rm r"), Text("TestImm", "test", ALL, "rm signed"),
        Text("Cdq", "cdq", (4,)), Text("Cdq", "cdq", (8,), "", "cqo"), Text("Cdqe", "cdqe", (4,), "", "cwde"), Text("Cdqe", "cdqe", (8,))]


def move_texts():
    return [
        Text("Mov", "mov", ALL, "rm r"), Text("MovLoad", "ld", ALL, "r rm", "mov"), Text("MovImm", "mov", ALL, "rm signed"),
        Text("MovAbs", "movabs", (1, 4), "r unsigned", "mov"), Text("MovAbs", "movabs", (8,), "r unsigned"),
        Text("MovZx", "movzx", WIDER, "r rm1"), Text("MovSx", "movsx", WIDER, "r rm1"), Text("MovSxd", "movsxd", (), "r rm4"),
        Text("Lea", "lea", WIDER, "r address"), Text("Xchg", "xchg", ALL, "rm r"),
        Text("CmpXchg", "cmpxchg", ALL, "m r"), Text("CmpXchg", "lock cmpxchg", ALL, "m r"),
        Text("XAdd", "xadd", ALL, "m r"), Text("XAdd", "lock xadd", ALL, "m r"),
        Text("Push", "push", (), "r"), Text("Pop", "pop", (), "r"), Text("PushImm", "push", (), "signed"), Text("PushMem", "push", (), "m")]


def branch_texts():
    found = []
    for c in CONDITIONS:
        found += [Text("Jcc", f"j{c}.s", (), "short", "j" + c), Text("Jcc", "j" + c, (), "long"),
                  Text("SetCc", "set" + c, (), "rm1"), Text("CMov", "cmov" + c, WIDER, "r rm")]
    for variant, word in ("CallInd", "call"), ("JmpInd", "jmp"):
        found += [Text(variant, word, (), "rm"), Text(variant, "notrack " + word, (), "rm")]
    return found + [Text("Call", "call", (), "long"), Text("Jmp", "jmp.s", (), "short", "jmp"), Text("Jmp", "jmp", (), "long")]


def other_texts():
    alone = "EndBr64", "Nop", "Ret", "Leave", "SavePrevSsp", "Syscall", "Ud2", "Hlt"
    return [Text(variant, variant.lower()) for variant in alone] + [
        Text("RdSsp", "rdssp", (), "r", "rdsspq"), Text("IncSsp", "incssp", (), "r", "incsspq"),
        Text("RstorSsp", "rstorssp", (), "m"), Text("WrSs", "wrss", (), "address r", "wrssq")]


def by_word():
    """The kinds of texts and their width by the word that they begin with, and the prefix and width that it has."""
    found = {}
    for kind in arithmetic_texts() + move_texts() + branch_texts() + other_texts():
        for width in kind.widths:
            found.setdefault(f"{kind.word}.{width}", []).append((kind, width))
        if not kind.widths:
            found.setdefault(kind.word, []).append((kind, 8))
    return found


TEXTS = by_word()


def dis(program, code, **how):
    """What the program answers when it lists the code."""
    with tempfile.NamedTemporaryFile() as file:
        file.write(code)
        file.flush()
        return subprocess.run([program, "dis", file.name], text=True, stdout=PIPE, **how)


def built():
    """The program, which has to be there."""
    if not PROGRAM.exists():
        sys.exit(f"no {PROGRAM.relative_to(TOP)} here: ./cet proves and builds it")
    return PROGRAM


def number(text, least, most):
    if not re.fullmatch(NUMBER, text) or not least <= int(text) <= most:
        raise ValueError(text)
    return int(text)


def signed(text, size):
    """A number of that many bytes in two's complement."""
    return number(text, -(1 << (8 * size - 1)), (1 << (8 * size - 1)) - 1)


def register(text, size):
    return ("reg", NAMES.index(text), size)


def memory(text, size):
    for pattern in MEMORY:
        found = pattern.fullmatch(text)
        if found:
            term = found.groupdict()
            base, index = (NAMES.index(term[key]) if term.get(key) else None for key in ("base", "index"))
            disp = signed((term.get("disp") or "0").removeprefix("+"), 4)
            return ("mem", size, base, index, int(term.get("scale") or 1), disp, bool(term.get("rip")))
    raise ValueError(text)


def operand(kind, text, width, end):
    """The operand in the terms of objdump.operand; ValueError where the text is none of that kind."""
    if kind.startswith("rm"):
        size = int(kind[2:] or width)
        return memory(text, size) if text.startswith("[") else register(text, size)
    if kind == "r":
        return register(text, width)
    if kind == "m":
        return memory(text, width)
    if kind == "address":
        # objdump tells no size
        return memory(text, None)
    if kind == "signed":
        return ("imm", signed(text, min(width, 4)) % (1 << (8 * width)))
    if kind == "unsigned":
        return ("imm", number(text, 0, (1 << (8 * width)) - 1))
    if kind == "count":
        return ("reg", NAMES.index("rcx"), 1) if text == "cl" else ("imm", number(text, 0, 255))
    if not text.startswith("$"):
        raise ValueError(text)
    return ("imm", (end + signed(text[1:], 1 if kind == "short" else 4)) % (1 << 64))


def operation(text, end):
    """The variant that the text is of, and the mnemonic and operands in the terms of objdump.operation; ValueError where it is no
    text of any. end is the address behind the instruction."""
    parts = re.fullmatch(r"((?:(?:lock|notrack) )?[^ ]+)(?: (.+))?", text)
    operands = parts[2].split(", ") if parts and parts[2] else []
    for kind, width in TEXTS.get(parts[1], []) if parts else []:
        kinds = kind.operands.split()
        if len(kinds) != len(operands):
            continue
        try:
            return kind.variant, (kind.mnemonic or kind.word, [operand(k, t, width, end) for k, t in zip(kinds, operands)])
        except ValueError:
            continue
    raise ValueError(text)
