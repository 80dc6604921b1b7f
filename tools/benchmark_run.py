#!/usr/bin/env python3
"""Measures `./cet run` on 1,000,000 events of a loop of arithmetic, a load, a store and a call, and on fewer: seconds of the processor, and memory.
Where qemu-x86_64 is there, the same number of instructions under it.

Usage: benchmark_run.py      the program has to be built; GNU ld links the loop
"""
import resource
import shutil
import subprocess
import tempfile
from pathlib import Path

import listing
from benchmark_dis import TURNS, peak_kibibytes

# ten instructions a turn: eight, and two of the function
LOOP = """.global _start
.func next; add.8 rdx, rcx; ret; .end
.func _start; movabs.4 r12, {turns}
again: add.8 rcx, 3; xor.8 rdx, rcx; mov.8 [@buf+8], rdx; ld.8 rbx, [@buf+8]; lea.8 rsi, [rbx+rcx*2]; call next; dec.8 r12; jne again
movabs.4 rdi, 0; movabs.4 rax, 231; syscall; ud2; .end
.section bss; .object buf 64
"""
EVENTS = (250_000, 500_000, 1_000_000)


def made(folder, turns):
    """The executable of the loop."""
    (folder / "a.s").write_text(LOOP.format(turns=turns))
    subprocess.run([listing.PROGRAM, "asm", "--out", folder / "a.o", folder / "a.s"], check=True)
    subprocess.run(["ld", "-o", folder / "a", folder / "a.o"], check=True)
    return folder / "a"


def processor_seconds(words):
    before = resource.getrusage(resource.RUSAGE_CHILDREN)
    subprocess.run(words, stdout=subprocess.DEVNULL, check=True)
    after = resource.getrusage(resource.RUSAGE_CHILDREN)
    return after.ru_utime + after.ru_stime - before.ru_utime - before.ru_stime


def measured(name, words):
    taken = sorted(processor_seconds(words) for _ in range(TURNS))
    print(f"{name}: best {taken[0]:.3f}, median {taken[len(taken) // 2]:.3f} s, {peak_kibibytes(words)} KiB")


def main():
    with tempfile.TemporaryDirectory() as name:
        program = made(Path(name), 4_000_000)
        for events in EVENTS:
            measured(f"cet run, {events:,} events", [listing.PROGRAM, "run", "--limit", str(events), program])
        qemu = shutil.which("qemu-x86_64") or shutil.which("qemu-x86_64-static")
        if qemu:
            program = made(Path(name), EVENTS[-1] // 10)
            measured("qemu-x86_64, 1,000,000 instructions", [qemu, program])


if __name__ == "__main__":
    main()
