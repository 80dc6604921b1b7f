#!/usr/bin/env python3
"""Compares the lengths of the forms that `cet dis` finds with those of objdump, on random bytes that mostly begin as a form does.

Usage: compare_lengths.py [COUNT [SEED]]      20000 strings of seed 1 where nothing is said; the program has to be built

Where `dis` stops in a string at bytes that are `short` or `outside`, the forms before them are compared, and those bytes are not:
objdump knows more instructions than this subset.
"""
import collections
import random
import re
import shutil
import sys

import listing
import objdump

ONE = list(range(0x00, 0x40)) + list(range(0x50, 0x60)) + [0x63, 0x68, 0x69, 0x6A, 0x6B] + list(range(0x70, 0x80)) + [
    0x80, 0x81, 0x83, *range(0x84, 0x8C), 0x8D, 0x90, 0x98, 0x99, 0xA8, 0xA9, *range(0xB0, 0xC0), 0xC0, 0xC1, 0xC3, 0xC6,
    0xC7, 0xC9, 0xD0, 0xD1, 0xD2, 0xD3, 0xE8, 0xE9, 0xEB, 0xF4, 0xF6, 0xF7, 0xFE, 0xFF]
TWO = [0x05, 0x0B, 0x1F, *range(0x40, 0x50), *range(0x80, 0xA0), 0xAF, 0xB0, 0xB1, 0xB6, 0xBE, 0xC0, 0xC1]
PREFIXED = [b"\xf3\x0f\x1e\xfa", b"\xf3\x90", b"\x66\x90", b"\xf3\x0f\x01\xea"]


def rex(chance):
    return bytes([0x40 + random.randrange(16)]) if random.random() < chance else b""


def head():
    """The first bytes of a form, or of what is nearly one."""
    pick = random.randrange(12)
    if pick < 5:
        return rex(0.5) + bytes([random.choice(ONE)])
    if pick < 8:
        return rex(0.5) + b"\x0f" + bytes([random.choice(TWO)])
    if pick == 8:
        return b"\xf3" + rex(0.8) + b"\x0f" + bytes([random.choice([0x01, 0x1E, 0xAE])])
    if pick == 9:
        return random.choice([b"\xf0" + rex(0.5) + b"\x0f" + bytes([random.choice([0xB0, 0xB1, 0xC0, 0xC1])]),
                              rex(1) + b"\x0f\x38\xf6"])
    if pick == 10:
        return random.choice([b"\x3e" + rex(0.5) + b"\xff",
                              b"\x66" * random.randrange(8) + random.choice([b"", b"\x2e"]) + b"\x0f\x1f"])
    return random.choice(PREFIXED) if random.random() < 0.3 else b""


def string():
    return (head() + random.randbytes(15))[:15]


def listed(program, code):
    """The forms that `dis` finds at the head of the code, and where they end before its end the word for why."""
    answer = listing.dis(program, code, stderr=listing.PIPE)
    if answer.returncode == 0:
        return [bytes.fromhex(line.split(" ")[1]) for line in answer.stdout.splitlines()], None
    stop = re.fullmatch(r"cet: bad .* at 0x([0-9a-f]+): (short|outside)\n", answer.stderr)
    if answer.returncode != 6 or not stop:
        sys.exit(f"{code.hex()}: status {answer.returncode}, {answer.stderr.strip()}")
    length = int(stop.group(1), 16) - listing.START
    forms, word = listed(program, code[:length]) if length else ([], None)
    if word or b"".join(forms) != code[:length]:
        sys.exit(f"{code.hex()}: the first {length} bytes are no forms by themselves")
    return forms, stop.group(2)


def main(count, seed):
    program = listing.built()
    if not shutil.which("objdump"):
        print("skipped: no objdump here")
        return 0
    random.seed(seed)
    forms = []
    stops = collections.Counter()
    for _ in range(count):
        found, word = listed(program, string())
        forms += found
        stops[word] += 1
    rows = objdump.rows(forms)
    at = bad = 0
    for form in forms:
        length, text = rows.get(at, objdump.NOTHING)
        if length != len(form) or "(bad)" in text:
            bad += 1
            if bad <= 20:
                print(f"{form.hex()}: dis tells {len(form)} bytes, objdump {length}, {text}")
        at += len(form)
    print(f"{count} strings of seed {seed}: {len(forms)} forms compared, {bad} lengths differ; {stops['short']} strings end short, "
          f"{stops['outside']} outside")
    return 1 if bad else 0


if __name__ == "__main__":
    words = [int(word) for word in sys.argv[1:]]
    sys.exit(main(*words, *(20000, 1)[len(words):]))
