#!/usr/bin/env python3
"""Measures `./cet dis` beside objdump on a file of mixed forms: the seconds that each takes, and the memory of `cet`.

Usage: benchmark_dis.py [MEBIBYTES]      8 where nothing is said, 16 at most; the program has to be built

One run of each, in turns; then the best and the median of the turns.
"""
import re
import shutil
import statistics
import subprocess
import sys
import tempfile
import time
from pathlib import Path

import forms
import listing

TURNS = 7
CET, OBJDUMP = "cet, to /dev/null", "objdump, to /dev/null"


def make(size):
    """That many bytes of mixed forms, and how many forms."""
    parts = []
    left = size
    for _, form in forms.forms(1):
        if len(form) > left:
            break
        parts.append(form)
        left -= len(form)
    return b"".join(parts) + b"\x90" * left, len(parts) + left


def seconds(words, out):
    begin = time.perf_counter()
    with open(out, "wb") as sink:
        subprocess.run(words, stdout=sink, check=True)
    return time.perf_counter() - begin


def peak_kibibytes(words):
    """The most memory that the command held. It is asked for while the command runs: getrusage counts what this process held too."""
    peak = 0
    with subprocess.Popen(words, stdout=subprocess.DEVNULL, stderr=subprocess.DEVNULL) as process:
        while process.poll() is None:
            found = re.search(r"VmHWM:\s+(\d+) kB", Path(f"/proc/{process.pid}/status").read_text())
            peak = int(found.group(1)) if found else peak
            time.sleep(0.001)
    return peak


def measure(runs):
    """The seconds of each command, turn by turn."""
    taken = {name: [] for name in runs}
    for _ in range(TURNS):
        for name, (words, out) in runs.items():
            taken[name].append(seconds(words, out))
    return taken


def report(taken):
    for name, times in taken.items():
        print(f"{name:24} best {min(times):8.3f}  median {statistics.median(times):8.3f}")
    if OBJDUMP in taken:
        ours, theirs = taken[CET], taken[OBJDUMP]
        print(f"{'objdump / cet':24} best {min(theirs) / min(ours):8.2f}  median {statistics.median(theirs) / statistics.median(ours):8.2f}")
    else:
        print("no objdump here: cet alone")


def main(mebibytes):
    listing.built()
    size = mebibytes << 20
    code, count = make(size)
    with tempfile.NamedTemporaryFile() as file, tempfile.NamedTemporaryFile() as out:
        file.write(code)
        file.flush()
        words = [listing.CET, "dis", file.name]
        runs = {CET: (words, "/dev/null"), "cet, to a file": (words, out.name)}
        if shutil.which("objdump"):
            runs[OBJDUMP] = (["objdump", "-D", "-b", "binary", "-m", "i386:x86-64", file.name], "/dev/null")
        # a program that is older than its sources is built here, before the turns
        seconds(words, "/dev/null")
        taken = measure(runs)
        peak = peak_kibibytes([listing.PROGRAM, "dis", file.name])
    print(f"{size} bytes, {count} forms, {TURNS} turns; seconds:")
    report(taken)
    print(f"memory of cet: {peak} KiB at most; the file has {size >> 10} KiB")


if __name__ == "__main__":
    main(int(sys.argv[1]) if sys.argv[1:] else 8)
