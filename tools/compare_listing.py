#!/usr/bin/env python3
"""Compares what `./cet dis` prints with what objdump prints, on random forms of every row of the table of forms.

Usage: compare_listing.py [COUNT [SEED]]      100000 forms of seed 1 where nothing is said; the first 20 differences are printed

For each form: the line's address, bytes and length, the variant that its text is of, and the mnemonic and each operand.
"""
import collections
import itertools
import shutil
import sys

import forms
import listing
import objdump


def same(name, form, address, text, printed):
    """Whether the text says what objdump does, of a form of the variant of that name."""
    length, row = printed
    try:
        variant, operation = listing.operation(text, address + len(form))
        # objdump does not tell the two branches with a displacement apart
        is_short = name in ("Jmp", "Jcc") and len(form) == 2
        told = len(form), name, is_short, operation
        return told == (length, variant, text.split(" ")[0].endswith(".s"), objdump.operation(row))
    except (ValueError, KeyError):
        return False


def compare(made, lines):
    """How many forms differ."""
    rows = objdump.rows((form for _, form in made), listing.START)
    address = listing.START
    bad = 0
    for (name, form), line in zip(made, itertools.chain(lines, itertools.repeat("no line"))):
        front = f"{address:#x} {form.hex()} "
        printed = rows.get(address, objdump.NOTHING)
        if not line.startswith(front) or not same(name, form, address, line[len(front):], printed):
            bad += 1
            if bad <= 20:
                print(f"{front}is a form of {name}: dis has {line}; objdump {printed[0]} bytes, {printed[1]}")
        address += len(form)
    return bad


def main(count, seed):
    if not shutil.which("objdump"):
        print("skipped: no objdump here")
        return 0
    made = list(itertools.islice(forms.forms(seed), count))
    answer = listing.dis(listing.CET, b"".join(form for _, form in made))
    if answer.returncode:
        print(f"./cet dis ended with status {answer.returncode}")
        return 1
    bad = compare(made, answer.stdout.splitlines())
    lines = answer.stdout.count("\n")
    if lines != count:
        print(f"./cet dis printed {lines} lines")
    names = collections.Counter(name for name, _ in made)
    print(f"{count} forms of seed {seed} compared, {bad} differ; of {len(names)} variants:")
    print(", ".join(f"{name} {names[name]}" for name in sorted(names)))
    return 1 if bad or lines != count else 0


if __name__ == "__main__":
    words = [int(word) for word in sys.argv[1:]]
    sys.exit(main(*words, *(100000, 1)[len(words):]))
