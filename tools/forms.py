"""Random forms of every row of the table of forms, in every operand form that the row has.

The table is written by hand, apart from `cet`. `forms` takes the rows in turn; the rest of a form is at random, with the special
bases and indexes and the bounds of numbers drawn often.
"""
import itertools
import random
from typing import NamedTuple

NO_REX, NARROW, WIDE, BOTH = "", "0", "1", "01"
# those on parity, 10 and 11, are none here
CONDITIONS = [c for c in range(16) if c not in (10, 11)]
LOCKED = [b"", b"\xf0"]
TRACKED = [b"", b"\x3e"]
PADS = [b"\x66" * n + segment for n in range(7) for segment in (b"", b"\x2e")]


class Row(NamedTuple):
    """What the forms of a row share."""
    # the instruction value's variant
    name: str
    # behind the prefix and REX
    opcode: bytes
    # the bits that REX.W may be; without any no REX is allowed
    wide: str = NO_REX
    # as in the SDM: `+r`; `/r` or `/0` to `/7` with a register or memory as the other operand
    operands: str = ""
    # whether the other operand is `both`, a `register` or `memory` alone
    other: str = "both"
    # which operands are byte registers: `reg`, `other`
    of_bytes: tuple = ()
    # bytes of the immediate
    immediate: int = 0
    prefixes: list = [b""]


def sized(name, opcode, operands, immediates=(0, 0), **rest):
    """An opcode for bytes, and the one after it for 32 and 64 bits."""
    code = bytes.fromhex(opcode)
    following = code[:-1] + bytes([code[-1] + 1])
    return [Row(name, code, NARROW, operands, of_bytes=("reg", "other"), immediate=immediates[0], **rest),
            Row(name, following, BOTH, operands, immediate=immediates[1], **rest)]


def full(name, opcode, operands, **rest):
    """An opcode for 32 and 64 bits."""
    return [Row(name, bytes.fromhex(opcode), BOTH, operands, **rest)]


def narrow(name, opcode, operands="", **rest):
    """An opcode with operands, without REX.W."""
    return [Row(name, bytes.fromhex(opcode), NARROW, operands, **rest)]


def plain(name, *opcodes, immediate=0):
    """Opcodes without REX."""
    return [Row(name, bytes.fromhex(opcode), immediate=immediate) for opcode in opcodes]


def accumulator(name, opcode, immediate=0):
    """EAX, or RAX by REX 48."""
    return plain(name, opcode, "48" + opcode, immediate=immediate)


def arithmetic_rows():
    rows = []
    for op in range(8):
        first = op * 8
        rows += sized("Alu", f"{first:02x}", "/r") + sized("AluLoad", f"{first + 2:02x}", "/r")
        rows += plain("AluImm", f"{first + 4:02x}", immediate=1) + accumulator("AluImm", f"{first + 5:02x}", 4)
        rows += narrow("AluImm", "80", f"/{op}", of_bytes=("other",), immediate=1)
        rows += full("AluImm", "81", f"/{op}", immediate=4) + full("AluImm", "83", f"/{op}", immediate=1)
    for op in 0, 1, 4, 5, 7:
        rows += sized("Shift", "d0", f"/{op}") + sized("Shift", "c0", f"/{op}", (1, 1)) + sized("Shift", "d2", f"/{op}")
    for opcode, op in ("fe", 0), ("fe", 1), ("f6", 2), ("f6", 3):
        rows += sized("Unary", opcode, f"/{op}")
    for op in range(4, 8):
        rows += full("MulDiv", "f7", f"/{op}")
    return (rows + full("IMul2", "0f af", "/r") + full("IMul3", "6b", "/r", immediate=1) + full("IMul3", "69", "/r", immediate=4)
            + sized("Test", "84", "/r") + sized("TestImm", "f6", "/0", (1, 4)) + plain("TestImm", "a8", immediate=1)
            + accumulator("TestImm", "a9", 4) + accumulator("Cdq", "99") + accumulator("Cdqe", "98"))


def move_rows():
    return (sized("Mov", "88", "/r") + sized("MovLoad", "8a", "/r") + sized("MovImm", "c6", "/0", (1, 4))
            + narrow("MovAbs", "b0", "+r", of_bytes=("reg",), immediate=1) + narrow("MovAbs", "b8", "+r", immediate=4)
            + [Row("MovAbs", b"\xb8", WIDE, "+r", immediate=8), Row("MovSxd", b"\x63", WIDE, "/r")]
            + full("MovZx", "0f b6", "/r", of_bytes=("other",)) + full("MovSx", "0f be", "/r", of_bytes=("other",))
            + full("Lea", "8d", "/r", other="memory") + sized("Xchg", "86", "/r")
            + sized("CmpXchg", "0f b0", "/r", other="memory", prefixes=LOCKED)
            + sized("XAdd", "0f c0", "/r", other="memory", prefixes=LOCKED)
            + narrow("Push", "50", "+r") + narrow("Pop", "58", "+r") + plain("PushImm", "6a", immediate=1)
            + plain("PushImm", "68", immediate=4) + narrow("PushMem", "ff", "/6", other="memory"))


def branch_rows():
    rows = []
    for c in CONDITIONS:
        rows += plain("Jcc", f"{0x70 + c:02x}", immediate=1) + plain("Jcc", f"0f {0x80 + c:02x}", immediate=4)
        rows += narrow("SetCc", f"0f {0x90 + c:02x}", "/0", of_bytes=("other",)) + full("CMov", f"0f {0x40 + c:02x}", "/r")
    return (rows + plain("Call", "e8", immediate=4) + plain("Jmp", "eb", immediate=1) + plain("Jmp", "e9", immediate=4)
            + narrow("CallInd", "ff", "/2", prefixes=TRACKED) + narrow("JmpInd", "ff", "/4", prefixes=TRACKED)
            + plain("Ret", "c3") + plain("Leave", "c9") + plain("Syscall", "0f 05") + plain("Ud2", "0f 0b") + plain("Hlt", "f4")
            + plain("Nop", "90", "f3 90", "66 90") + [Row("Nop", b"\x0f\x1f", operands="/0", prefixes=PADS)])


def enforcement_rows():
    return (plain("EndBr64", "f3 0f 1e fa") + plain("SavePrevSsp", "f3 0f 01 ea")
            + [Row("RdSsp", b"\x0f\x1e", WIDE, "/1", other="register", prefixes=[b"\xf3"]),
               Row("IncSsp", b"\x0f\xae", WIDE, "/5", other="register", prefixes=[b"\xf3"]),
               Row("RstorSsp", b"\x0f\x01", NARROW, "/5", other="memory", prefixes=[b"\xf3"]),
               Row("WrSs", b"\x0f\x38\xf6", WIDE, "/r", other="memory")])


ROWS = arithmetic_rows() + move_rows() + branch_rows() + enforcement_rows()


def number(size):
    """A number of that many bytes: a bound of the signed or the unsigned ones, or any."""
    if size == 0:
        return b""
    top = 1 << (8 * size)
    value = random.choice([0, 1, top // 2 - 1, top // 2, top - 1, None, None, None, None])
    return random.randbytes(size) if value is None else value.to_bytes(size, "little")


def some_register(registers):
    """A register; those with a meaning of their own in ModRM and SIB are drawn often."""
    return random.choice([4, 5, registers - 4, registers - 3] + [random.randrange(registers)] * 4)


def memory(registers):
    """REX.X, REX.B, ModRM without its reg field, and what follows it."""
    mod = random.randrange(3)
    base = some_register(registers)
    nothing = mod == 0 and base % 8 == 5
    displacement = number(4 if nothing else (0, 1, 4)[mod])
    # rip, and no base, have no use for B
    b = 0 if nothing else base // 8
    if base % 8 != 4 and random.random() < 0.5:
        return 0, b, mod << 6 | base % 8, displacement
    index = some_register(registers)
    scale = 0 if index == 4 else random.randrange(4)
    return index // 8, b, mod << 6 | 4, bytes([scale << 6 | index % 8 << 3 | base % 8]) + displacement


def rex(row, w, r, x, b, byte_registers):
    """REX where it is needed, and sometimes where it may be."""
    bits = w << 3 | r << 2 | x << 1 | b
    if bits or any(4 <= register < 8 for register in byte_registers):
        return bytes([0x40 | bits])
    return b"\x40" if row.wide != NO_REX and random.random() < 0.2 else b""


def in_opcode(row, w):
    """A form whose register stands in its opcode."""
    register = random.randrange(16)
    head = rex(row, w, 0, 0, register // 8, [register] if row.of_bytes else [])
    return head + bytes([row.opcode[0] + register % 8]) + number(row.immediate)


def with_modrm(row, w):
    """A form with ModRM; often of the low registers alone, so that forms without REX are frequent."""
    registers = 8 if row.wide == NO_REX or random.random() < 0.4 else 16
    byte_registers = []
    reg = random.randrange(registers) if row.operands == "/r" else int(row.operands[1:])
    if row.operands == "/r" and "reg" in row.of_bytes:
        byte_registers.append(reg)
    if row.other == "register" or row.other == "both" and random.random() < 0.25:
        register = random.randrange(registers)
        x, b, modrm, rest = 0, register // 8, 0xC0 | register % 8, b""
        if "other" in row.of_bytes:
            byte_registers.append(register)
    else:
        x, b, modrm, rest = memory(registers)
    head = rex(row, w, reg // 8, x, b, byte_registers)
    return head + row.opcode + bytes([modrm | reg % 8 << 3]) + rest + number(row.immediate)


def form(row):
    """A random form of the row."""
    w = int(random.choice(row.wide or "0"))
    prefix = random.choice(row.prefixes)
    if row.operands == "":
        return prefix + row.opcode + number(row.immediate)
    return prefix + (in_opcode(row, w) if row.operands == "+r" else with_modrm(row, w))


def forms(seed):
    """Forms without end, each with the variant's name; all rows come equally often."""
    random.seed(seed)
    for row in itertools.cycle(ROWS):
        yield row.name, form(row)
