#!/usr/bin/env python3
"""Compares the arithmetic of `cet_alu` with this processor: results, divide errors, conditions, and every flag that is not undefined.

Usage: compare_arithmetic.py [COUNT [SEED]]      50000 operands of seed 1 for each operation and width where nothing is said

`arithmetic.c` runs the instructions, and a program that is made in a copy of the lower crates makes the calls; it is run without a
proof. Both draw their operands by the same rule from the seed, and print a digest for each operation and width. A call is
made with every free bit 0 and with every one 1: the flags that stay the same are those that the definition tells, and they have to be
the ones that the SDM defines. Where there is no gcc, or the processor is another one, nothing is compared.
"""
import platform
import shutil
import subprocess
import sys
import tempfile
from pathlib import Path

TOP = Path(__file__).resolve().parent.parent
CRATES = "cet_base", "cet_isa", "cet_machine", "cet_alu"

PROGRAM = """
//! Digests of the calls of `cet_alu`, for `tools/compare_arithmetic.py`.
#![tactic(auto)]

use cet_alu::{alu, div, holds, imul, mul, shift, unary};
use cet_isa::{AluOp, Cond, Flags, ShiftOp, UnOp, Width};
use std::io;

const COUNT: u64 = @COUNT@;
const SEED: u64 = @SEED@;
const WIDTHS: [(Width, u64); 3] = [(Width::B1, 1), (Width::B4, 4), (Width::B8, 8)];
const WIDER: [(Width, u64); 2] = [(Width::B4, 4), (Width::B8, 8)];

#[derive(Clone, Copy)]
struct Run {
    state: u64,
    digest: u64,
}

impl Run {
    fn next(&mut self) -> u64 {
        self.state = self.state ^ (self.state << 13);
        self.state = self.state ^ (self.state >> 7);
        self.state = self.state ^ (self.state << 17);
        self.state
    }

    fn operand(&mut self, bits: u64) -> u64 {
        let mask = u64::MAX >> (64 - bits);
        let half = 1u64 << (bits - 1);
        let kind = self.next() % 16;
        let v = self.next();
        let n = match kind {
            0 => 0,
            1 => mask,
            2 => half,
            3 => half - 1,
            4 => v >> 60,
            5 => mask - (v >> 60),
            6 | 7 | 8 => v >> (v % 64),
            _ => v,
        };
        n & mask
    }

    fn note(&mut self, n: u64) {
        self.digest = (self.digest ^ n).wrapping_mul(0x100000001b3);
        self.digest = self.digest ^ (self.digest >> 29);
    }

    /// The flags that are the same whatever the free bits, and which they are.
    fn note_flags(&mut self, with_0: Flags, with_1: Flags) {
        let (a, b) = (flag_bits(with_0), flag_bits(with_1));
        let told = 15 ^ a ^ b;
        self.note(told);
        self.note(a & told);
    }
}

fn flags(n: u64) -> Flags {
    Flags { cf: n & 1 == 1, zf: (n >> 1) & 1 == 1, sf: (n >> 2) & 1 == 1, of: (n >> 3) & 1 == 1 }
}

fn flag_bits(f: Flags) -> u64 {
    u64::from(f.cf) | (u64::from(f.zf) << 1) | (u64::from(f.sf) << 2) | (u64::from(f.of) << 3)
}

fn alus(rt: &HostRuntime, run: &mut Run) -> io::Result<()> {
    for op in [AluOp::Add, AluOp::Or, AluOp::Adc, AluOp::Sbb, AluOp::And, AluOp::Sub, AluOp::Xor, AluOp::Cmp] {
        for (w, bytes) in WIDTHS {
            run.digest = 0;
            for _ in 0..COUNT {
                let (x, y) = (run.operand(8 * bytes), run.operand(8 * bytes));
                let old = run.next() % 16;
                let (result, f) = alu(op, w, x, y, flags(old));
                if op != AluOp::Cmp {
                    run.note(result);
                }
                run.note_flags(f, f);
            }
            println!(rt; "{op:?} {bytes} {}", run.digest)?;
        }
    }
    Ok(())
}

fn unaries(rt: &HostRuntime, run: &mut Run) -> io::Result<()> {
    for op in [UnOp::Inc, UnOp::Dec, UnOp::Not, UnOp::Neg] {
        for (w, bytes) in WIDTHS {
            run.digest = 0;
            for _ in 0..COUNT {
                let (x, _y) = (run.operand(8 * bytes), run.operand(8 * bytes));
                let old = run.next() % 16;
                let (result, f) = unary(op, w, x, flags(old));
                run.note(result);
                run.note_flags(f, f);
            }
            println!(rt; "{op:?} {bytes} {}", run.digest)?;
        }
    }
    Ok(())
}

fn shifts(rt: &HostRuntime, run: &mut Run) -> io::Result<()> {
    for op in [ShiftOp::Rol, ShiftOp::Ror, ShiftOp::Shl, ShiftOp::Shr, ShiftOp::Sar] {
        for (w, bytes) in WIDTHS {
            run.digest = 0;
            for _ in 0..COUNT {
                let (x, count) = (run.operand(8 * bytes), run.operand(8));
                let old = run.next() % 16;
                let (result, f) = shift(op, w, x, count as u8, flags(old), 0);
                let (_, g) = shift(op, w, x, count as u8, flags(old), 15);
                run.note(result);
                run.note_flags(f, g);
            }
            println!(rt; "{op:?} {bytes} {}", run.digest)?;
        }
    }
    Ok(())
}

fn imuls(rt: &HostRuntime, run: &mut Run) -> io::Result<()> {
    for (w, bytes) in WIDER {
        run.digest = 0;
        for _ in 0..COUNT {
            let (x, y) = (run.operand(8 * bytes), run.operand(8 * bytes));
            let _old = run.next();
            let (result, f) = imul(w, x, y, 0);
            let (_, g) = imul(w, x, y, 15);
            run.note(result);
            run.note_flags(f, g);
        }
        println!(rt; "IMul {bytes} {}", run.digest)?;
    }
    Ok(())
}

fn muls(rt: &HostRuntime, run: &mut Run) -> io::Result<()> {
    for (signed, name) in [(false, "Mul"), (true, "IMul1")] {
        for (w, bytes) in WIDER {
            run.digest = 0;
            for _ in 0..COUNT {
                let (x, y) = (run.operand(8 * bytes), run.operand(8 * bytes));
                let _old = run.next();
                let (low, high, f) = mul(signed, w, x, y, 0);
                let (_, _, g) = mul(signed, w, x, y, 15);
                run.note(low);
                run.note(high);
                run.note_flags(f, g);
            }
            println!(rt; "{name} {bytes} {}", run.digest)?;
        }
    }
    Ok(())
}

fn divs(rt: &HostRuntime, run: &mut Run) -> io::Result<()> {
    for (signed, name) in [(false, "Div"), (true, "IDiv")] {
        for (w, bytes) in WIDER {
            run.digest = 0;
            for _ in 0..COUNT {
                let mask = u64::MAX >> (64 - 8 * bytes);
                let (h, low, by) = (run.operand(8 * bytes), run.operand(8 * bytes), run.operand(8 * bytes));
                let kind = run.next() % 4;
                let high = match kind {
                    0 => if by != 0 { h % by } else { h },
                    1 => if (low >> (8 * bytes - 1)) == 1 { mask } else { 0 },
                    2 => h % 4,
                    _ => h,
                };
                match div(signed, w, high, low, by) {
                    None => run.note(0),
                    Some((quotient, rest)) => {
                        run.note(1);
                        run.note(quotient);
                        run.note(rest);
                    }
                }
            }
            println!(rt; "{name} {bytes} {}", run.digest)?;
        }
    }
    Ok(())
}

fn conditions(rt: &HostRuntime, run: &mut Run) -> io::Result<()> {
    run.digest = 0;
    for f in 0..16 {
        for c in [Cond::O, Cond::No, Cond::B, Cond::Ae, Cond::E, Cond::Ne, Cond::Be, Cond::A, Cond::S, Cond::Ns, Cond::L, Cond::Ge, Cond::Le, Cond::G] {
            run.note(u64::from(holds(c, flags(f))));
        }
    }
    println!(rt; "Cond 1 {}", run.digest)
}

fn main(rt: HostRuntime) -> io::Result<()> {
    let mut run = Run { state: SEED, digest: 0 };
    alus(&rt, &mut run)?;
    unaries(&rt, &mut run)?;
    shifts(&rt, &mut run)?;
    imuls(&rt, &mut run)?;
    muls(&rt, &mut run)?;
    divs(&rt, &mut run)?;
    conditions(&rt, &mut run)
}
"""


def of_processor(folder, count, seed):
    """A line for each operation and width, as this processor answers."""
    program = folder / "arithmetic"
    subprocess.run(["gcc", "-O1", "-mno-red-zone", "-o", program, TOP / "tools" / "arithmetic.c"], check=True)
    return subprocess.run([program, str(count), str(seed)], check=True, capture_output=True, text=True).stdout.splitlines()


def of_calls(folder, count, seed):
    """The same lines, as the calls answer."""
    lines = [line for line in (TOP / "crates.txt").read_text().splitlines() if line.split(":")[0] in CRATES]
    (folder / "crates.txt").write_text("\n".join(lines + ["digests: cet_isa cet_alu", ""]))
    for name in CRATES:
        shutil.copytree(TOP / "crates" / name, folder / "crates" / name, ignore=shutil.ignore_patterns("out", "must-fail"))
    source = folder / "crates" / "digests" / "src"
    source.mkdir(parents=True)
    (source / "main.rt").write_text(PROGRAM.replace("@COUNT@", str(count)).replace("@SEED@", str(seed)).lstrip())
    run = subprocess.run(["rt", "try", "--steps", "1", "--seconds", "900"], cwd=source.parent, capture_output=True, text=True)
    found = [line for line in run.stdout.splitlines() if len(line.split()) == 3 and line.split()[2].isdigit()]
    if not found:
        sys.exit(run.stdout + run.stderr)
    return found


def main(count, seed):
    if not shutil.which("gcc") or platform.machine() != "x86_64":
        print("no gcc for this processor here: nothing is compared")
        return
    with tempfile.TemporaryDirectory() as name:
        folder = Path(name)
        theirs = of_processor(folder, count, seed)
        ours = of_calls(folder, count, seed)
    wrong = [f"{b}, and the processor has {a}" for a, b in zip(theirs, ours) if a != b]
    print("\n".join(wrong))
    if wrong or len(theirs) != len(ours):
        sys.exit(f"{len(wrong)} of {len(theirs)} operations and widths differ; {len(ours)} were made")
    print(f"{len(ours)} operations and widths, {count} operands each, seed {seed}: all agree")


if __name__ == "__main__":
    main(int(sys.argv[1]) if sys.argv[1:] else 50000, int(sys.argv[2]) if sys.argv[2:] else 1)
