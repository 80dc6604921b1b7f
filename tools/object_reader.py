"""What `cet_elf::read_object` gives for ELF objects: a small program over the crate is tried, without a proof, in a copy of the
repository's lowest crates."""
import shutil
import subprocess
import tempfile
from pathlib import Path

TOP = Path(__file__).resolve().parent.parent
CRATES = ("cet_base", "cet_elf")

# Prints a line for each section, relocation and symbol, and one for the note; or one for the fault.
PROGRAM = r'''
#![tactic(auto)]

use cet_elf::{Object, Section, Symbol, read_object};
use std::io::{self, Read, Write};

fn put_name<W: Write>(out: &mut W, name: &[u8]) -> io::Result<()> {
    out.write_all(b"<")?;
    out.write_all(name)?;
    out.write_all(b">")
}

fn put_hex<W: Write>(out: &mut W, bytes: &[u8]) -> io::Result<()> {
    for byte in bytes {
        write!(out, "{byte:02x}")?;
    }
    Ok(())
}

fn put_section<W: Write>(out: &mut W, section: &Section) -> io::Result<()> {
    out.write_all(b"section ")?;
    put_name(out, section.name.as_slice())?;
    write!(out, " {:?} {} {} ", section.class, section.align, section.size)?;
    put_hex(out, section.bytes.as_slice())?;
    out.write_all(b"\n")?;
    for rela in section.relocations.as_slice() {
        write!(out, "rela {} {} {} {}\n", rela.offset, rela.kind, rela.symbol, rela.addend)?;
    }
    Ok(())
}

fn put_symbol<W: Write>(out: &mut W, symbol: &Symbol) -> io::Result<()> {
    out.write_all(b"symbol ")?;
    put_name(out, symbol.name.as_slice())?;
    write!(out, " {:?} {:?} {:?} {} {}\n", symbol.kind, symbol.bind, symbol.place, symbol.value, symbol.size)
}

fn put_object<W: Write>(out: &mut W, object: &Object) -> io::Result<()> {
    for section in object.sections.as_slice() {
        put_section(out, section)?;
    }
    for symbol in object.symbols.as_slice() {
        put_symbol(out, symbol)?;
    }
    if let Some(note) = &object.notes {
        out.write_all(b"note ")?;
        put_hex(out, note.as_slice())?;
        out.write_all(b"\n")?;
    }
    Ok(())
}

fn main(rt: HostRuntime) -> io::Result<()> {
    let mut bytes = Vec::new(rt.alloc());
    rt.stdin().read_to_end(&mut bytes)?;
    let mut out = rt.stdout();
    match read_object(rt.alloc(), &bytes) {
        Ok(object) => put_object(&mut out, &object),
        Err(fault) => write!(out, "fault {fault:?}\n"),
    }
}
'''


def read(files):
    """The lines for each of the files, by its path; the files have different names."""
    with tempfile.TemporaryDirectory() as folder:
        top = Path(folder)
        for crate in CRATES:
            shutil.copytree(TOP / "crates" / crate, top / "crates" / crate, ignore=shutil.ignore_patterns("out", "must-fail"))
        sources = top / "crates" / "show_object" / "src"
        sources.mkdir(parents=True)
        (sources / "main.rt").write_text(PROGRAM)
        lines = [line for line in (TOP / "crates.txt").read_text().splitlines() if line.split(":")[0] in CRATES]
        (top / "crates.txt").write_text("\n".join([*lines, "show_object: cet_base cet_elf"]) + "\n")
        cases = top / "cases"
        cases.mkdir()
        for file in files:
            shutil.copy(file, cases / Path(file).name)
        tried = subprocess.run(["rt", "try", "--cases", str(cases)], cwd=sources.parent, capture_output=True, text=True, errors="replace")
        shown = blocks(tried.stdout)
        missing = [file for file in files if Path(file).name not in shown]
        if missing:
            raise RuntimeError(f"nothing was shown of {missing[0]}:\n{tried.stdout[-2000:]}{tried.stderr[-2000:]}")
        return {file: shown[Path(file).name] for file in files}


def blocks(text):
    """The lines under each heading `== NAME`."""
    found, name = {}, None
    for line in text.splitlines():
        if line.startswith("== "):
            name = line[3:].split()[0]
            found[name] = []
        elif name is not None:
            found[name].append(line)
    return found
