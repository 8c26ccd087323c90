#!/usr/bin/env python3
"""Compares the fields that elf_read gives of ELF files with what `readelf -hlS` of GNU binutils prints.

Usage: tools/compare_with_readelf.py FILE..

It makes a small program over a copy of elf_read and the crates below it in a temporary folder, runs it
by `rt try --cases` (nothing is proved by that), and compares the header's fields, each program header
and each section header with readelf's text. The status is 0 where all files agree or readelf is
missing, 1 where a field differs or a file is refused, 2 where the comparison could not be made.
"""

import re
import shutil
import subprocess
import sys
import tempfile
from pathlib import Path

REPOSITORY = Path(__file__).resolve().parent.parent

CRATES = ["vec_list", "elf_spec", "elf_read"]

# The program: it reads a file from its standard input and prints a line for each header.
PROGRAM = """\
// Prints the fields that elf_read gives of the file on standard input.
#![tactic(auto)]

use elf_read::read_elf;
use std::io;
use std::io::Read;

fn main(rt: HostRuntime) -> io::Result<()> {
    let mut file = Vec::new(rt.alloc());
    rt.stdin().read_to_end(&mut file)?;
    match read_elf(rt.alloc(), &file) {
        Ok(elf) => {
            println!(rt; "entry {} phoff {} shoff {} flags {}", elf.entry, elf.phoff, elf.shoff, elf.flags)?;
            for s in elf.segments.as_slice() {
                print!(rt; "segment {} {} {} {} ", s.kind, s.offset, s.vaddr, s.paddr)?;
                println!(rt; "{} {} {} {}", s.file_size, s.mem_size, s.flags, s.align)?;
            }
            for s in elf.sections.as_slice() {
                print!(rt; "section {} {} {} {} {} ", s.name, s.kind, s.flags, s.addr, s.offset)?;
                println!(rt; "{} {} {} {} {}", s.size, s.link, s.info, s.align, s.entry_size)?;
            }
        }
        Err(why) => println!(rt; "refused: {why}")?,
    }
    Ok(())
}
"""

# readelf's names of segment and section kinds (gABI; psABI), without those that elf_read refuses.
SEGMENT_KINDS = {
    "NULL": 0, "LOAD": 1, "NOTE": 4, "SHLIB": 5, "RISCV_ATTRIBUTES": 0x70000003, "RISCV_ATTRIBUTE": 0x70000003,
    "RISCV_ATTRIBUT": 0x70000003, "GNU_EH_FRAME": 0x6474E550, "GNU_STACK": 0x6474E551, "GNU_RELRO": 0x6474E552,
}
SECTION_KINDS = {
    "NULL": 0, "PROGBITS": 1, "SYMTAB": 2, "STRTAB": 3, "RELA": 4, "HASH": 5, "DYNAMIC": 6, "NOTE": 7,
    "NOBITS": 8, "REL": 9, "SHLIB": 10, "DYNSYM": 11, "INIT_ARRAY": 14, "FINI_ARRAY": 15,
    "PREINIT_ARRAY": 16, "GROUP": 17, "RISCV_ATTRIBUTES": 0x70000003,
}
SECTION_LETTERS = [
    ("W", 1), ("A", 2), ("X", 4), ("M", 0x10), ("S", 0x20), ("I", 0x40), ("L", 0x80), ("O", 0x100),
    ("G", 0x200), ("T", 0x400), ("C", 0x800), ("E", 0x80000000),
]
SEGMENT_FIELDS = ["kind", "offset", "vaddr", "paddr", "file_size", "mem_size", "flags", "align"]
SECTION_FIELDS = ["name", "kind", "flags", "addr", "offset", "size", "link", "info", "align", "entry_size"]


class Unclear(Exception):
    """What a tool printed is not understood."""


def kind_of(names, text):
    if text not in names:
        raise Unclear(f"readelf's kind {text} is not known to this script")
    return names[text]


def read_by_readelf(path):
    """What readelf says, as one dictionary from a field's place to its value."""
    text = subprocess.run(["readelf", "-hlSW", str(path)], capture_output=True, text=True, check=True).stdout
    fields = {}
    for key, pattern, base in [
        ("entry", r"Entry point address: +0x([0-9a-f]+)", 16),
        ("phoff", r"Start of program headers: +(\d+)", 10),
        ("shoff", r"Start of section headers: +(\d+)", 10),
        ("flags", r"\n +Flags: +0x([0-9a-f]+)", 16),
    ]:
        found = re.search(pattern, text)
        if not found:
            raise Unclear(f"readelf prints no {key}")
        fields[key] = int(found.group(1), base)
    segments = re.findall(
        r"\n  ([A-Z][A-Z_0-9]*) +0x(\w+) 0x(\w+) 0x(\w+) 0x(\w+) 0x(\w+) ([R ])([W ])([E ]) (0x\w+|0)", text)
    for i, s in enumerate(segments):
        values = [kind_of(SEGMENT_KINDS, s[0])] + [int(x, 16) for x in s[1:6]]
        values += ["".join(s[6:9]).replace(" ", ""), int(s[9], 16)]
        fields.update({f"segment {i} {f}": v for f, v in zip(SEGMENT_FIELDS, values)})
    fields["segments"] = len(segments)
    sections = re.findall(
        r"\n  \[ *(\d+)\] (.*?) +([A-Z][A-Z_0-9]*) +([0-9a-f]{8}) ([0-9a-f]+) ([0-9a-f]+) ([0-9a-f]+) +([A-Za-z]*) +(\d+) +(\d+) +(\d+)",
        text)
    for i, s in enumerate(sections):
        if int(s[0]) != i:
            raise Unclear(f"readelf's section {i} is not found")
        addr, offset, size, entry_size = (int(x, 16) for x in s[3:7])
        values = [s[1], kind_of(SECTION_KINDS, s[2]), "".join(sorted(s[7])), addr, offset, size]
        values += [int(s[8]), int(s[9]), int(s[10]), entry_size]
        fields.update({f"section {i} {f}": v for f, v in zip(SECTION_FIELDS, values)})
    fields["sections"] = len(sections)
    for key, pattern in [("segments", r"Number of program headers: +(\d+)"), ("sections", r"Number of section headers: +(\d+)")]:
        if int(re.search(pattern, text).group(1)) != fields[key]:
            raise Unclear(f"not all of readelf's {key} are found")
    names = re.search(r"Section header string table index: +(\d+)", text)
    return fields, int(names.group(1))


def letters(table, number):
    return "".join(sorted(letter for letter, bit in table if number & bit))


def read_by_halo(lines, path, names):
    """What elf_read says, in the same form: flags as readelf's letters, names as the text that stands there."""
    fields = {}
    rows = {"segment": [], "section": []}
    for line in lines:
        words = line.split()
        if words[:1] == ["entry"] and len(words) == 8:
            fields.update({words[i]: int(words[i + 1]) for i in range(0, 8, 2)})
        elif words[:1] in (["segment"], ["section"]):
            rows[words[0]].append([int(w) for w in words[1:]])
        else:
            raise Unclear(f"elf_read says: {line}")
    if "entry" not in fields:
        raise Unclear("elf_read's program printed no header")
    for i, s in enumerate(rows["segment"]):
        fields.update({f"segment {i} {f}": v for f, v in zip(SEGMENT_FIELDS, s)})
        fields[f"segment {i} flags"] = "".join(c for c, bit in (("R", 4), ("W", 2), ("E", 1)) if s[6] & bit)
    data = path.read_bytes()
    for i, s in enumerate(rows["section"]):
        fields.update({f"section {i} {f}": v for f, v in zip(SECTION_FIELDS, s)})
        at = rows["section"][names][4] + s[0]
        fields[f"section {i} name"] = data[at:data.index(0, at)].decode("latin-1")
        fields[f"section {i} flags"] = letters(SECTION_LETTERS, s[2])
    fields["segments"], fields["sections"] = len(rows["segment"]), len(rows["section"])
    return fields


def run_program(paths):
    """The program's lines for each file."""
    with tempfile.TemporaryDirectory() as folder:
        root = Path(folder)
        for crate in CRATES:
            shutil.copytree(REPOSITORY / "crates" / crate, root / "crates" / crate, ignore=shutil.ignore_patterns("out"))
        program = root / "crates" / "elf_fields"
        (program / "src").mkdir(parents=True)
        (program / "src" / "main.rt").write_text(PROGRAM)
        listed = (REPOSITORY / "crates.txt").read_text().splitlines()
        lines = [line for line in listed if line.split(":")[0] in CRATES] + ["elf_fields: elf_read"]
        (root / "crates.txt").write_text("\n".join(lines) + "\n")
        cases = root / "cases"
        cases.mkdir()
        for i, path in enumerate(paths):
            shutil.copy(path, cases / f"file{i:04}")
        done = subprocess.run(["rt", "try", "--cases", str(cases)], cwd=program, capture_output=True, text=True)
    found = {}
    for line in done.stdout.splitlines():
        if line.startswith("== "):
            found[line[3:].strip()] = current = []
        elif found and re.match(r"(entry|segment|section|refused) ?", line):
            current.append(line)
    if len(found) != len(paths):
        raise Unclear("rt try gave no answer for some file:\n" + done.stdout + done.stderr)
    return [found[f"file{i:04}"] for i in range(len(paths))]


def main():
    paths = [Path(word) for word in sys.argv[1:]]
    if not paths:
        print(__doc__)
        return 2
    if not shutil.which("readelf"):
        print("skipped: readelf is missing")
        return 0
    differ = 0
    for path, lines in zip(paths, run_program(paths)):
        if lines[:1] and lines[0].startswith("refused"):
            print(f"{path}: elf_read gives no fields; {lines[0]}")
            differ += 1
            continue
        wanted, names = read_by_readelf(path)
        got = read_by_halo(lines, path, names)
        wrong = [key for key in sorted(wanted.keys() | got.keys()) if wanted.get(key) != got.get(key)]
        for key in wrong:
            print(f"{path}: {key}: readelf says {wanted.get(key)}, elf_read says {got.get(key)}")
        differ += bool(wrong)
        if not wrong:
            print(f"{path}: {len(wanted)} fields agree")
    return 1 if differ else 0


if __name__ == "__main__":
    try:
        sys.exit(main())
    except (Unclear, OSError, subprocess.CalledProcessError) as why:
        print(f"not compared: {why}")
        sys.exit(2)
