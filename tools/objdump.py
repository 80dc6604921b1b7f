"""The rows that objdump prints for instruction forms, one form behind another, and what their Intel syntax says."""
import re
import subprocess
import tempfile

NAMES = ["rax", "rcx", "rdx", "rbx", "rsp", "rbp", "rsi", "rdi"] + [f"r{n}" for n in range(8, 16)]
WORDS = ["eax", "ecx", "edx", "ebx", "esp", "ebp", "esi", "edi"] + [f"r{n}d" for n in range(8, 16)]
BYTES = ["al", "cl", "dl", "bl", "spl", "bpl", "sil", "dil"] + [f"r{n}b" for n in range(8, 16)]
REGISTERS = {name: (i, size) for names, size in ((NAMES, 8), (WORDS, 4), (BYTES, 1)) for i, name in enumerate(names)}
SIZES = {"BYTE": 1, "DWORD": 4, "QWORD": 8}
NOTHING = (0, "nothing begins here")


def rows(forms, start=0):
    """For each address where objdump begins a row: how many bytes the row has, and its text. The first form stands at start."""
    with tempfile.NamedTemporaryFile() as code:
        code.write(b"".join(forms))
        code.flush()
        # -z: runs of zeros are not passed over
        words = ["objdump", "-D", "-z", "-b", "binary", "-m", "i386:x86-64", "-M", "intel", "--insn-width=16", f"--adjust-vma={start:#x}"]
        listing = subprocess.run([*words, code.name], capture_output=True, text=True, check=True).stdout
    found = {}
    for row in listing.splitlines():
        parts = row.split("\t")
        if len(parts) >= 2 and parts[0].strip().endswith(":"):
            found[int(parts[0].strip()[:-1], 16)] = (len(parts[1].split()), parts[2].strip() if len(parts) > 2 else "")
    return found


def memory(text, size):
    """("mem", bytes or None, base, index, scale, displacement, whether from rip)"""
    base = index = None
    scale, disp, rip = 1, 0, False
    for sign, term in re.findall(r"([+-]?)([^+\-\]\[]+)", text):
        if term == "rip":
            rip = True
        elif "*" in term:
            name, factor = term.split("*")
            if name != "riz":
                index, scale = REGISTERS[name][0], int(factor)
        elif term in REGISTERS:
            base = REGISTERS[term][0]
        else:
            disp = int(term, 16) * (-1 if sign == "-" else 1)
            if disp >= 2 ** 63:
                disp -= 2 ** 64
    return ("mem", size, base, index, scale, disp, rip)


def operand(text):
    """("reg", number, bytes), ("imm", number), or memory"""
    if text in REGISTERS:
        return ("reg", *REGISTERS[text])
    sized = re.match(r"^(BYTE|DWORD|QWORD) PTR ", text)
    size = SIZES[sized.group(1)] if sized else None
    text = text[sized.end():] if sized else text
    if text.startswith("ds:0x"):
        return memory("[" + text[3:] + "]", size)
    if text.startswith("["):
        return memory(text, size)
    return ("imm", int(text, 16) if text.startswith("0x") else int(text))


def operation(text):
    """The mnemonic, with `lock` or `notrack` before it, and the operands; ValueError or KeyError where the text is no such thing."""
    # objdump names a REX of 40, whose bits all are 0
    text = text.split("#")[0].strip().replace("rex ", "")
    if re.fullmatch(r"(data16 )*(cs )?nop\b.*|pause|xchg +ax,ax", text):
        return ("nop", [])
    prefix = re.match(r"^(lock|notrack) ", text)
    head = prefix.group(0) if prefix else ""
    mnemonic, _, rest = text[len(head):].partition(" ")
    return (head + mnemonic, [operand(t) for t in rest.strip().split(",")] if rest else [])
