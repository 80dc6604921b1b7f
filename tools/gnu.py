"""Assembly texts in the spelling of GNU as. The sites are written out by hand, apart from `cet`.

Every name is global, so that relocations name it; as is given `-mshared`, so that it leaves them all to the link editor. A branch by 8 bits and
a branch inside a site go to a local label beside the name. `n_` stands before each name: `k0` is a register of as.
"""
import re

from objdump import NAMES, WORDS, BYTES

SIZED = {1: BYTES, 4: WORDS, 8: NAMES}
POINTERS = {1: "BYTE PTR ", 4: "DWORD PTR ", 8: "QWORD PTR "}
OPERATIONS = ("add", "or", "adc", "sbb", "and", "sub", "xor", "cmp")
SECTIONS = {"text": ".text", "rodata": ".section .rodata,\"a\"", "data": ".data", "bss": ".bss"}
MNEMONICS = {"ld.1": "mov", "ld.4": "mov", "ld.8": "mov", "movabs.1": "mov", "movabs.4": "mov", "imul1.4": "imul", "imul1.8": "imul",
             "cdq.4": "cdq", "cdq.8": "cqo", "cdqe.4": "cwde", "cdqe.8": "cdqe",
             "rdssp": "rdsspq", "incssp": "incsspq", "wrss": "wrssq"}
# bytes of the source, where they are others than those of the destination
SOURCES = {"movzx": 1, "movsx": 1, "movsxd": 4}

MAP = """movabs.4 rdi, 0; movabs.4 rsi, 65536; movabs.4 rdx, 3; movabs.4 r10, 131106; mov.8 r8, -1; movabs.4 r9, 0; movabs.4 rax, 9; syscall
test.8 rax, rax; js $past"""
# $0 and $1 are the operands; $past, $again and $resumed are labels of the site
SITES = {
    "land": """mov.8 [rsp+$0], r15; rdssp rax; mov.8 [rsp+$0+8], rax; movabs.4 rax, $1; mov.8 [rsp+$0+16], rax; mov.8 [rsp+$0+24], rsp
        mov.8 [rsp+$0+32], rbp; lea.8 r15, [rsp+$0]""",
    "release": "ld.8 r15, [rsp+$0]",
    "throw": """ld.8 rcx, [r15+8]; rdssp rax; sub.8 rcx, rax; shr.8 rcx, 3
        $again: movabs.4 rax, 255; cmp.8 rcx, rax; cmovb.8 rax, rcx; incssp rax; sub.8 rcx, rax; jne $again
        ld.8 rdx, [r15+16]; ld.8 rbp, [r15+32]; ld.8 rsp, [r15+24]; ld.8 r15, [r15]; jmp rdx""",
    "switch": """movabs.4 rax, 0; xchg.8 [$0], rax; test.8 rax, rax; je $past; push rbp; push r15; movabs.4 rcx, $resumed; push rcx
        rdssp rcx; sub.8 rcx, 8; push rcx; ld.8 rcx, [rax]; rstorssp [rcx]; saveprevssp; mov.8 rdx, rsp; mov.8 rsp, rax; mov.8 [$1], rdx
        pop rcx; pop rcx; pop r15; pop rbp; jmp rcx; $resumed: endbr64; $past:""",
    "fibermake": MAP + """; lea.8 r8, [rax+65504]; movabs.4 rdi, 0; movabs.4 rsi, 65536; movabs.4 rdx, 1; movabs.4 rax, 453; syscall
        test.8 rax, rax; js $past; add.8 rax, 65528; mov.8 [r8], rax; movabs.4 rcx, $1; mov.8 [r8+8], rcx; movabs.4 rcx, 0
        mov.8 [r8+16], rcx; mov.8 [r8+24], rcx; mov.8 [$0], r8; $past:""",
    "spawn": MAP + """; lea.8 rsi, [rax+65536]; movabs.4 rdi, 331520; movabs.4 rdx, 0; movabs.4 r10, 0; movabs.4 r8, 0; movabs.4 rax, 56
        syscall; test.8 rax, rax; jne $past; movabs.4 rbp, 0; movabs.4 r15, 0; jmp $0; $past:""",
    "action": "movabs.4 rdi, $0; movabs.4 rsi, $1; movabs.4 rdx, 0; movabs.4 r10, 8; movabs.4 rax, 13; syscall",
    "read": "movabs.4 rsi, $0; movabs.4 rdx, $1; movabs.4 rax, 0; syscall",
}


def statements(text):
    """Labels and statements, a label with its colon."""
    for line in text.splitlines():
        for part in line.split("#")[0].split(";"):
            part = part.strip(" ")
            while found := re.match(r"(\$?\w+:) *", part):
                yield found[1]
                part = part[found.end():]
            if part:
                yield part


def memory(text, size):
    """A memory operand, with its size where it has one."""
    inside = text[1:-1].replace("@", "")
    # a sum of numbers behind the registers, as a site writes it
    inside = re.sub(r"\+(\d+(?:\+\d+)+)$", lambda found: f"+{sum(map(int, found[1].split('+')))}", inside)
    return POINTERS.get(size, "") + (f"ds:{inside}" if re.fullmatch(r"-?\d\w*", inside) else f"[{inside}]")


def operand(text, size):
    if text.startswith("["):
        return memory(text, size)
    if text in NAMES:
        return SIZED[size][NAMES.index(text)]
    if text.startswith("@"):
        return "OFFSET " + text[1:]
    return text


def branch(word, target):
    """A branch; to a label of a site it has 32 bits, and no relocation."""
    if target.startswith("$") and not target[1:].lstrip("-").isdigit():
        return f"{{disp32}} {word} .L{target[1:]}"
    if word.endswith(".s"):
        return f"{word[:-2]} .L{target}"
    return f"{word} {target}"


def long_constant(word, size, constant):
    """An operation of RAX with a constant of 32 bits, for which as takes a shorter form."""
    rex = "0x48, " if size == 8 else ""
    return f".byte {rex}0x81, {0xc0 + 8 * OPERATIONS.index(word):#x}; .long {constant}"


def skip(size):
    """So many zeros; as warns of none."""
    return f".skip {size}" if size != "0" else ""


def instruction(text):
    prefix = re.match(r"((?:lock|notrack) )?", text)[0]
    word, _, rest = text[len(prefix):].partition(" ")
    operands = re.split(r" *, *", rest) if rest else []
    if (word == "call" or word[0] == "j") and operands[0] not in NAMES and operands[0][0] != "[":
        return branch(word, operands[0])
    name, _, width = word.partition(".")
    size = int(width or 8)
    if name in OPERATIONS and operands[0] == "rax" and re.fullmatch(r"-?\d+", operands[1]) and not -128 <= int(operands[1]) < 128:
        return long_constant(name, size, operands[1])
    load = "{load} " if name.endswith(("ld", "_ld")) else ""
    mnemonic = MNEMONICS.get(word, name.removesuffix("_ld"))
    sizes = [size, SOURCES.get(name, size)] + [size] * 8
    if name == "lea":
        sizes[1] = None
    written = [t if t == "cl" else operand(t, s) for t, s in zip(operands, sizes)]
    return f"{load}{prefix}{mnemonic} {', '.join(written)}".rstrip()


def prefixed(text):
    """The statement with `n_` before each name."""
    text = re.sub(r"@(\w+)", r"@n_\1", text)
    if text.endswith(":"):
        return "n_" + text
    found = re.fullmatch(r"(\.(?:func|object|global|off)|spawn|call|j\w+(?:\.s)?)( +)([A-Za-z_]\w*)(.*)", text)
    if found and found[3] not in NAMES:
        text = f"{found[1]}{found[2]}n_{found[3]}{found[4]}"
    return re.sub(r"(\.off .*, *)(\w+)$", r"\1n_\2", text)


class Spelling:
    """What was written so far of a text."""

    def __init__(self):
        self.lines = [".intel_syntax noprefix"]
        self.function = None
        self.sites = 0

    def define(self, name, kind=None):
        """The symbol of a name."""
        self.lines += [f".globl {name}", f"{name}:", f".L{name}:"]
        if kind:
            self.lines.append(f".type {name}, @{kind}")

    def site(self, word, operands):
        self.sites += 1
        text = SITES[word]
        for i, given in enumerate(operands):
            text = text.replace(f"${i}", given)
        for own in "past", "again", "resumed":
            text = text.replace(f"${own}", f"${own}_{self.sites}")
        for statement in statements(text):
            if statement.endswith(":"):
                self.lines.append(f".L{statement[1:]}")
            elif resumed := re.fullmatch(r"movabs.4 rcx, (\$resumed_\d+)", statement):
                # the symbol of the function, with the distance from its start
                label = f".L{resumed[1][1:]}"
                self.lines += [".byte 0xb9", f".reloc ., R_X86_64_32, {self.function} + ({label} - .L{self.function})", ".long 0"]
            else:
                self.lines.append(instruction(statement))

    def directive(self, word, rest):
        if word == ".section":
            self.lines.append(SECTIONS[rest])
        elif word == ".func":
            self.function = rest
            self.define(rest, "function")
        elif word == ".end":
            self.lines.append(f".size {self.function}, . - {self.function}")
        elif word == ".object":
            name, size = rest.split()
            self.lines.append(".balign 8, 0")
            self.define(name, "object")
            self.lines += [f".size {name}, {size}", skip(size)]
        elif word == ".global":
            # every name is
            pass
        elif word == ".word":
            self.lines.append(f".quad {rest.replace('@', '')}")
        elif word == ".off":
            name, table = re.split(r" *, *", rest)
            self.lines.append(f".long {name} - .L{table}")
        elif word == ".note":
            bits = {"ibt": 1, "shstk": 2}
            self.lines += [".pushsection .note.gnu.property,\"a\",@note", ".balign 8", ".long 4, 16, 5", ".asciz \"GNU\"",
                           f".long 0xc0000002, 4, {sum(bits[w] for w in rest.split())}, 0", ".popsection"]
        else:
            # with zeros, in code too
            self.lines.append({".byte": f".byte {rest}", ".zero": skip(rest), ".align": f".balign {rest}, 0"}[word])

    def statement(self, text):
        text = prefixed(text)
        word, _, rest = text.partition(" ")
        rest = rest.strip(" ")
        if text.endswith(":"):
            self.define(text[:-1])
        elif word.startswith("."):
            self.directive(word, rest)
        elif word in SITES:
            self.site(word, re.split(r" *, *", rest) if rest else [])
        else:
            self.lines.append(instruction(text))


def spelled(text):
    """The text in the spelling of GNU as."""
    spelling = Spelling()
    for statement in statements(text):
        spelling.statement(statement)
    return "\n".join(spelling.lines) + "\n"
