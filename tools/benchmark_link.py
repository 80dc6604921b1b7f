#!/usr/bin/env python3
"""Measures `./cet link` beside GNU ld on the same objects: seconds of the processor and of the clock that each takes, in turns, and the memory of both.

Usage: benchmark_link.py      the program has to be built, and GNU as and ld to be there

64 objects have 16 MiB of code together, each 1,000 global functions and 10,000 calls; then half and a quarter of them. 64 others define 60,000 global
names together, each of which other objects use three times.
"""
import resource
import subprocess
import tempfile
import time
from pathlib import Path

import listing
from benchmark_dis import TURNS, peak_kibibytes

OBJECTS, SYMBOLS, RELOCATIONS = 64, 1_000, 10_000
# a little less than 256 KiB, so that all together stay below 16 MiB
CODE = 262_080
NAMES = 60_000


def assembled(folder, name, lines):
    """The object that GNU as makes."""
    source, made = folder / f"{name}.s", folder / f"{name}.o"
    source.write_text("\n".join([".intel_syntax noprefix", ".text"] + lines) + "\n")
    subprocess.run(["as", "-mshared", "-o", made, source], check=True)
    return made


def large(folder, number):
    """An object of much code: its functions call one another and those of the next objects."""
    lines = [".globl _start", "_start:"] if number == 0 else []
    calls = RELOCATIONS // SYMBOLS
    for symbol in range(SYMBOLS):
        lines += [f".globl f_{number}_{symbol}", f"f_{number}_{symbol}:"]
        lines += [f"call f_{(number + call * call) % 16}_{(symbol * 7 + call) % SYMBOLS}" for call in range(calls)]
    return assembled(folder, f"large{number}", lines + [f".skip {CODE - 5 * RELOCATIONS}"])


def named(folder, number):
    """An object that defines its share of the names, and uses names of others three times as often."""
    share = NAMES // OBJECTS
    lines = [".globl _start", "_start:"] if number == 0 else []
    lines += [line for i in range(share) for line in (f".globl a_name_{number * share + i}", f"a_name_{number * share + i}:", "nop")]
    lines += [f"call a_name_{(number * share + 7919 * i) % (share * OBJECTS)}" for i in range(3 * share)]
    return assembled(folder, f"named{number}", lines)


def taken(words):
    """Seconds of the processor and of the clock."""
    before, begin = resource.getrusage(resource.RUSAGE_CHILDREN), time.perf_counter()
    subprocess.run(words, check=True)
    after = resource.getrusage(resource.RUSAGE_CHILDREN)
    return after.ru_utime + after.ru_stime - before.ru_utime - before.ru_stime, time.perf_counter() - begin


def main():
    listing.built()
    with tempfile.TemporaryDirectory() as name:
        folder = Path(name)
        # the calls go to the first 16 objects, which each case has
        of_code = [large(folder, number) for number in range(OBJECTS)]
        of_names = [named(folder, number) for number in range(OBJECTS)]
        cases = {"16 objects of code": of_code[:16], "32 objects of code": of_code[:32], "64 objects of code": of_code, "60,000 names": of_names}
        runs = {}
        for case, objects in cases.items():
            runs[f"cet link, {case}"] = [listing.PROGRAM, "link", "--out", folder / "mine", *objects]
            runs[f"ld, {case}"] = ["ld", "-o", folder / "other", *objects]
        turns = [{run: taken(words) for run, words in runs.items()} for _ in range(TURNS)]
        for run, words in runs.items():
            of_processor, of_clock = (sorted(turn[run][i] for turn in turns) for i in (0, 1))
            print(f"{run:32} processor: best {of_processor[0]:7.3f} median {of_processor[TURNS // 2]:7.3f}   clock: best {of_clock[0]:7.3f}"
                  f"   {peak_kibibytes(words):9} KiB")


if __name__ == "__main__":
    main()
