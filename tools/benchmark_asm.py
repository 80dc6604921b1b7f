#!/usr/bin/env python3
"""Measures `./cet asm` beside GNU as on one program, each in its own spelling: 500,000 lines with 60,000 global names and 200,000 uses of them, and
half and a quarter of that: the seconds of the processor that each takes, in turns. Then the status, the seconds and the memory of texts that claim much, and of the longest ones.

Usage: benchmark_asm.py      the program has to be built
"""
import resource
import shutil
import subprocess
import tempfile
import time
from pathlib import Path

import listing
from benchmark_dis import TURNS, peak_kibibytes

NAMES, USES, LINES = 60_000, 200_000, 500_000
TEXT_LIMIT = 16_777_216
CLAIMS = {
    "2^64 - 1 zeros in data": ".section data; .zero 18446744073709551615",
    "the same in bss": ".section bss; .zero 18446744073709551615",
    "and one more": ".section bss; .zero 18446744073709551615; .zero 1",
    "an object of 2^64 - 1 bytes in data": ".section data; .object o 18446744073709551615",
    "a hundred times 1,000,000,000 zeros": ".section rodata\n" + ".zero 1000000000\n" * 100,
    "2^30 + 1 zeros": ".section data; .zero 1073741825",
    "1,000,000 uses of a name": "call a\n" * 1_000_000,
    "1,000,001 uses of a name": "call a\n" * 1_000_001,
    "16 MiB of line feeds": "\n" * TEXT_LIMIT,
    "16 MiB of `nop` lines": "nop\n" * (TEXT_LIMIT // 4),
    "16 MiB of `throw` lines": ".func f\n" + "throw\n" * ((TEXT_LIMIT - 13) // 6) + ".end\n",
    "one byte more than 16 MiB": "\n" * (TEXT_LIMIT + 1),
}


def lines(share, binds, calls, adds):
    """The lines of the program; names are bound before they are defined and used."""
    names, uses, count = NAMES // share, USES // share, LINES // share
    made = [binds.format(i) for i in range(names)]
    rest = count - 2 * names - uses
    body = [f"name_{i}:" for i in range(names)] + [calls.format(i * 7 % names) for i in range(uses)] + [adds] * rest
    # labels, calls and additions in a mixed order that is the same in both spellings
    step = 7919
    return made + [body[i * step % len(body)] for i in range(len(body))]


def processor_seconds(words):
    before = resource.getrusage(resource.RUSAGE_CHILDREN)
    subprocess.run(words, check=True)
    after = resource.getrusage(resource.RUSAGE_CHILDREN)
    return after.ru_utime + after.ru_stime - before.ru_utime - before.ru_stime


def claims(folder):
    """A line for each text that claims much."""
    for name, text in CLAIMS.items():
        (folder / "claim.s").write_text(text)
        words = [listing.PROGRAM, "asm", "--out", folder / "claim.o", folder / "claim.s"]
        begin = time.perf_counter()
        ended = subprocess.run(words, capture_output=True, text=True)
        taken = time.perf_counter() - begin
        told = ended.stderr.strip().replace(f"{folder}/", "")
        yield f"{name:38} status {ended.returncode} {taken:8.3f} s {peak_kibibytes(words):9} KiB  {told}"


def main():
    listing.built()
    with tempfile.TemporaryDirectory() as name:
        folder = Path(name)
        runs = {}
        for share in 4, 2, 1:
            mine, other = folder / f"mine{share}.s", folder / f"other{share}.s"
            mine.write_text("\n".join([".func f"] + lines(share, ".global name_{}", "call name_{}", "add.8 rax, 5") + [".end"]) + "\n")
            other.write_text("\n".join([".intel_syntax noprefix"] + lines(share, ".globl name_{}", "call name_{}", "add rax, 5")) + "\n")
            runs[f"cet asm, 1/{share}"] = [listing.PROGRAM, "asm", "--out", folder / "mine.o", mine]
            if shutil.which("as"):
                runs[f"as, 1/{share}"] = ["as", "-o", folder / "other.o", other]
        turns = [{name: processor_seconds(words) for name, words in runs.items()} for _ in range(TURNS)]
        for name in runs:
            times = sorted(turn[name] for turn in turns)
            print(f"{name:24} best {times[0]:8.3f}  median {times[TURNS // 2]:8.3f}")
        print(f"memory of cet: {peak_kibibytes([listing.PROGRAM, 'asm', '--out', folder / 'mine.o', folder / 'mine1.s'])} KiB at most")
        print(*claims(folder), sep="\n")


if __name__ == "__main__":
    main()
