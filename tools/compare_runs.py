#!/usr/bin/env python3
"""Compares `./cet run` with this processor and kernel.

Usage: compare_runs.py [COUNT [SEED]]      2000 programs of seed 1 where nothing is said; the first 20 differences are printed

Each random program moves, computes, stores, loads, pushes, calls, branches and loops, writes all its registers and its memory, and ends with a
status. `./cet asm` makes its object, `./cet link` the executable, and what it writes and its status are the same here and under `./cet run`. No
program reads a flag that an instruction leaves undefined.
"""
import random
import subprocess
import sys
import tempfile
from pathlib import Path

import listing

# not rsp; r12 counts loops, r13 is given up to calls, and a SYSCALL changes rcx and r11
REGISTERS = ["rax", "rcx", "rdx", "rbx", "rbp", "rsi", "rdi", "r8", "r9", "r10", "r11", "r14", "r15"]
ALL_FLAGS = frozenset("cozs")
# the flags that a condition reads
CONDITIONS = {"o": "o", "no": "o", "b": "c", "ae": "c", "e": "z", "ne": "z", "be": "cz", "a": "cz", "s": "s", "ns": "s",
              "l": "so", "ge": "so", "le": "zso", "g": "zso"}
# bytes of memory behind `buf`
ROOM = 1024


class Program:
    """A text that grows, and the flags that are defined at its end."""

    def __init__(self, rng):
        self.rng = rng
        self.lines = []
        self.flags = frozenset()
        self.labels = 0

    def put(self, line):
        self.lines.append(line)

    def label(self):
        self.labels += 1
        return f"l{self.labels}"

    def register(self, *others):
        return self.rng.choice([r for r in REGISTERS if r not in others])

    def width(self):
        return self.rng.choice((1, 4, 8, 8))

    def memory(self, *others):
        """An operand in the buffer, by an index register that is made small."""
        r = self.register(*others)
        self.put(f"and.4 {r}, {self.rng.choice((7, 56, 120, 248))}")
        self.flags = ALL_FLAGS
        form = self.rng.choice((f"[{r}+@buf]", f"[{r}*2+@buf]", f"[{r}+@buf+{self.rng.randrange(256)}]", f"[@buf+{self.rng.randrange(ROOM - 8)}]",
                                f"[rip+@buf+{8 * self.rng.randrange(100)}]"))
        return form

    def constant(self, width):
        bits = 7 if width == 1 else 31
        return self.rng.choice((0, 1, -1, 2 ** bits - 1, -2 ** bits, self.rng.randrange(-2 ** bits, 2 ** bits)))

    def condition(self):
        """A condition whose flags are defined, which are made so where they are not."""
        cond = self.rng.choice(list(CONDITIONS))
        if not frozenset(CONDITIONS[cond]) <= self.flags:
            self.put(f"cmp.{self.width()} {self.register()}, {self.register()}")
            self.flags = ALL_FLAGS
        return cond

    # ---- one statement of each family

    def moves(self):
        w, r = self.width(), self.register()
        self.put(self.rng.choice((
            lambda: f"mov.{w} {r}, {self.register()}",
            lambda: f"ld.{w} {r}, {self.memory()}",
            lambda: f"mov.{w} {self.memory(r)}, {r}",
            lambda: f"mov.{w} {self.memory()}, {self.constant(w)}",
            lambda: f"mov.{w} {r}, {self.constant(w)}",
            lambda: f"movabs.8 {r}, {self.rng.randrange(2 ** 64)}",
            lambda: f"movzx.{self.rng.choice((4, 8))} {r}, {self.memory()}",
            lambda: f"movsx.{self.rng.choice((4, 8))} {r}, {self.register()}",
            lambda: f"movsxd {r}, {self.memory()}",
            lambda: f"lea.{self.rng.choice((4, 8))} {r}, [{self.register()}+{self.register()}*4-77]",
            lambda: f"xchg.{w} {self.memory(r)}, {r}",
            lambda: f"xchg.{w} {r}, {self.register()}",
        ))())

    def arithmetic(self):
        w, r = self.width(), self.register()
        op = self.rng.choice(("add", "or", "adc", "sbb", "and", "sub", "xor", "cmp"))
        if op in ("adc", "sbb") and "c" not in self.flags:
            self.put(f"add.8 {r}, {self.register()}")
            self.flags = ALL_FLAGS
        # what the operand in memory costs of flags is defined too
        self.put(self.rng.choice((
            lambda: f"{op}.{w} {r}, {self.register()}",
            lambda: f"{op}_ld.{w} {r}, {self.memory()}",
            lambda: f"{op}.{w} {self.memory(r)}, {r}",
            lambda: f"{op}.{w} {self.memory()}, {self.constant(w)}",
            lambda: f"{op}.{w} {r}, {self.constant(w)}",
            lambda: f"test.{w} {r}, {self.register()}",
            lambda: f"neg.{w} {r}",
            lambda: f"{self.rng.choice(('xadd', 'lock xadd'))}.{w} {self.memory(r)}, {r}",
            lambda: f"{self.rng.choice(('cmpxchg', 'lock cmpxchg'))}.{w} {self.memory(r)}, {r}",
        ))())
        self.flags = ALL_FLAGS

    def counts(self):
        """INC and DEC keep CF, NOT keeps all."""
        w = self.width()
        op = self.rng.choice(("inc", "dec", "not"))
        operand = self.rng.choice((self.register, self.memory))()
        self.put(f"{op}.{w} {operand}")
        if op != "not":
            self.flags |= frozenset("ozs")

    def shifts(self):
        w, op = self.width(), self.rng.choice(("rol", "ror", "shl", "shr", "sar"))
        operand = self.rng.choice((self.register, self.memory))()
        if self.rng.randrange(3) == 0:
            self.put(f"{op}.{w} {operand}, cl")
            self.flags -= frozenset("co")
            return
        count = self.rng.choice((0, 1, 2, 7, 8, 31, 32, 33, 63, 64, self.rng.randrange(256)))
        self.put(f"{op}.{w} {operand}, {count}")
        masked = count % (64 if w == 8 else 32)
        if masked == 0:
            return
        if op in ("rol", "ror"):
            self.flags = (self.flags - {"o"}) | frozenset("co" if masked == 1 else "c")
        else:
            carry = op == "sar" or masked < 8 * w
            self.flags = frozenset("zs") | frozenset("c" if carry else "") | frozenset("o" if masked == 1 else "")

    def products(self):
        w, r = self.rng.choice((4, 8)), self.register()
        kind = self.rng.randrange(4)
        if kind == 0:
            self.put(f"imul.{w} {r}, {self.memory(r)}")
        elif kind == 1:
            self.put(f"imul.{w} {r}, {self.register()}, {self.constant(4)}")
        elif kind == 2:
            self.put(f"{self.rng.choice(('mul', 'imul1'))}.{w} {r}")
        else:
            by = self.register("rax", "rdx")
            self.put(f"and.4 {by}, 1023; or.4 {by}, 2")
            if self.rng.randrange(2):
                self.put(f"cdq.{w}; idiv.{w} {by}")
            else:
                self.put(f"movabs.4 rdx, 0; div.{w} {by}")
            self.flags = frozenset()
            return
        self.flags = frozenset("co")

    def extends(self):
        w = self.rng.choice((4, 8))
        self.put(self.rng.choice((f"cdq.{w}", f"cdqe.{w}", "nop", "endbr64")))

    def conditions(self):
        cond = self.condition()
        if self.rng.randrange(2):
            self.put(f"set{cond} {self.register()}")
        else:
            self.put(f"cmov{cond}.{self.rng.choice((4, 8))} {self.register()}, {self.register()}")

    def stack(self):
        r = self.register()
        self.put(f"push {r}; push {self.constant(4)}; push [@buf+{8 * self.rng.randrange(100)}]; pop {self.register()}; pop {self.register()}; pop {self.register()}")

    def statement(self, functions):
        self.rng.choice((self.moves, self.moves, self.arithmetic, self.arithmetic, self.counts, self.shifts, self.products, self.extends,
                         self.conditions, self.stack))()
        if functions and self.rng.randrange(12) == 0:
            name = self.rng.choice(functions)
            number = functions.index(name)
            self.put(self.rng.choice((f"call {name}", f"movabs.4 r13, @{name}; call r13", f"movabs.4 r13, {number}; call [r13*8+@table]")))
            self.flags = frozenset()

    def branch(self, functions):
        """One of two ways, by a condition."""
        cond, other, end = self.condition(), self.label(), self.label()
        flags = self.flags
        self.put(f"j{cond} {other}")
        for _ in range(self.rng.randrange(1, 4)):
            self.statement(functions)
        self.put(f"jmp {end}; {other}: nop")
        self.flags = flags
        for _ in range(self.rng.randrange(1, 4)):
            self.statement(functions)
        self.put(f"{end}: nop")
        self.flags = frozenset()

    def loop(self, functions):
        """A few times round."""
        again = self.label()
        self.put(f"movabs.4 r12, {self.rng.randrange(1, 20)}; {again}: nop")
        self.flags = frozenset()
        for _ in range(self.rng.randrange(2, 6)):
            self.rng.choice((self.statement, self.statement, self.branch))(functions)
        self.put(f"sub.8 r12, 1; jne {again}")
        self.flags = ALL_FLAGS


def text_of(rng):
    program = Program(rng)
    names = [f"f{n}" for n in range(4)]
    for n, name in enumerate(names):
        program.put(f".func {name}; endbr64; push rbp; mov.8 rbp, rsp; sub.8 rsp, 32")
        program.flags = ALL_FLAGS
        for _ in range(rng.randrange(1, 6)):
            # rbp finds the frame
            mark = len(program.lines)
            program.rng.choice((program.moves, program.arithmetic, program.shifts, program.conditions))()
            if any("rbp" in line for line in program.lines[mark:]):
                del program.lines[mark:]
                program.flags = frozenset()
        program.put("mov.8 [rbp-8], rax; leave; ret; .end")
    program.put(".global _start; .func _start")
    for r in REGISTERS:
        program.put(f"movabs.8 {r}, {rng.choice((0, 1, 2 ** 63, 2 ** 64 - 1, rng.randrange(2 ** 64)))}")
    program.put("cmp.8 rax, rcx")
    program.flags = ALL_FLAGS
    for _ in range(rng.randrange(5, 30)):
        rng.choice((program.statement, program.statement, program.branch, program.loop))(names)
    for n, r in enumerate(REGISTERS):
        program.put(f"mov.8 [@out+{8 * n}], {r}")
    program.put(f"""movabs.4 rdi, 1; movabs.4 rsi, @out; movabs.4 rdx, {128 + ROOM}; movabs.4 rax, 1; syscall
ld.8 rdi, [@out]; movabs.4 rax, 231; syscall; ud2; .end
.section data; .object out 128; .object buf {ROOM}
.section rodata; table: {'; '.join(f'.word @{name}' for name in names)}""")
    return "\n".join(program.lines) + "\n"


def run(*words):
    return subprocess.run([str(word) for word in words], capture_output=True)


def difference(folder, text):
    """What differs, if anything does."""
    (folder / "a.s").write_text(text)
    made = run(listing.CET, "asm", "--out", folder / "a.o", folder / "a.s")
    if made.returncode:
        return f"asm: {made.stderr.decode()}"
    linked = run(listing.CET, "link", "--out", folder / "a", folder / "a.o")
    if linked.returncode:
        return f"link: {linked.stdout.decode()}{linked.stderr.decode()}"
    here, there = run(folder / "a"), run(listing.CET, "run", folder / "a")
    told = there.stdout.decode().splitlines()
    wanted = [f"output {here.stdout.hex() or '-'}", f"ended {here.returncode}"]
    return None if told[1:] == wanted else f"here {wanted}, there {told}{there.stderr.decode()}"


def main():
    count = int(sys.argv[1]) if len(sys.argv) > 1 else 2000
    seed = int(sys.argv[2]) if len(sys.argv) > 2 else 1
    differing = 0
    with tempfile.TemporaryDirectory() as name:
        for number in range(count):
            text = text_of(random.Random(f"{seed} {number}"))
            told = difference(Path(name), text)
            if told:
                differing += 1
                if differing <= 20:
                    print(f"program {number} of seed {seed}: {told}")
    print(f"{count} programs, {differing} differ")
    sys.exit(differing != 0)


if __name__ == "__main__":
    main()
