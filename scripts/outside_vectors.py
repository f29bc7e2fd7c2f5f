#!/usr/bin/env python3
"""Compares how rv_table reads words with an independent assembler: GNU as.

    scripts/outside_vectors.py

It assembles a word of every row, and every immediate's ends and single bits, and asks a small program over rv_table, which
it makes in a temporary folder, what `decode` reads. The fields that are wanted are those that this script wrote into the
assembler's text. Run by hand; where the assembler is missing (Debian's binutils-riscv64-unknown-elf) it says so and ends well.
"""
import os
import shutil
import subprocess
import sys
import tempfile

TOP = os.path.dirname(os.path.dirname(os.path.abspath(__file__)))
ASSEMBLER = "riscv64-unknown-elf-as"

READER = '''// Reads words in hexadecimal, one a line, and prints what they decode to.
#![tactic(auto)]

use rv_table::{decode, mnemonic};
use std::io;

fn main(rt: HostRuntime) -> io::Result<()> {
    for line in rt.lines(rt.alloc()) {
        let line = line?;
        match u32::from_str_radix(line.as_str(), 16) {
            Ok(word) => match decode(word) {
                Some(i) => {
                    let name = mnemonic(i.op);
                    let (rd, rs1, rs2, imm) = (i.rd, i.rs1, i.rs2, i.imm);
                    println!(rt; "{name} {rd} {rs1} {rs2} {imm}")?;
                }
                None => println!(rt; "none")?,
            },
            Err(_) => println!(rt; "none")?,
        }
    }
    Ok(())
}
'''


def bits(low, high, step=1):
    """The ends of a range, and each single bit in it, of both signs."""
    values = {low, high, 0, step, -step, -step * 2}
    n = step
    while n <= high:
        values.add(n)
        values.add(-n)
        n *= 2
    return sorted(v for v in values if low <= v <= high and v % step == 0)


def cases():
    """Pairs of assembler text and what decode must read: name, rd, rs1, rs2, immediate."""
    for name in ("lui", "auipc"):
        for n in bits(0, 0xFFFFF):
            yield f"{name} x5, {n}", (name, 5, 0, 0, n)
    for n in bits(-1048576, 1048574, 2):
        yield f"jal x7, .{n:+d}", ("jal", 7, 0, 0, n)
    for n in bits(-2048, 2047):
        yield f"jalr x3, {n}(x9)", ("jalr", 3, 9, 0, n)
        for name in ("addi", "slti", "sltiu", "xori", "ori", "andi", "addiw"):
            yield f"{name} x31, x16, {n}", (name, 31, 16, 0, n)
        for name in ("lb", "lh", "lw", "ld", "lbu", "lhu", "lwu"):
            yield f"{name} x8, {n}(x17)", (name, 8, 17, 0, n)
        for name in ("sb", "sh", "sw", "sd"):
            yield f"{name} x21, {n}(x2)", (name, 0, 2, 21, n)
    for n in bits(-4096, 4094, 2):
        for name in ("beq", "bne", "blt", "bge", "bltu", "bgeu"):
            yield f"{name} x10, x11, .{n:+d}", (name, 0, 10, 11, n)
    for n in bits(0, 63):
        for name in ("slli", "srli", "srai"):
            yield f"{name} x1, x30, {n}", (name, 1, 30, 0, n)
    for n in bits(0, 31):
        for name in ("slliw", "srliw", "sraiw"):
            yield f"{name} x1, x30, {n}", (name, 1, 30, 0, n)
    names = "add sub sll slt sltu xor srl sra or and mul mulh mulhsu mulhu div divu rem remu addw subw sllw srlw sraw mulw divw divuw remw remuw"
    for name in names.split():
        for rd, rs1, rs2 in ((1, 2, 4), (8, 16, 31), (0, 0, 0), (31, 1, 16)):
            yield f"{name} x{rd}, x{rs1}, x{rs2}", (name, rd, rs1, rs2, 0)
    for n in bits(0, 4095):
        for name in ("csrrw", "csrrs", "csrrc"):
            yield f"{name} x4, {n}, x24", (name, 4, 24, 0, n)
        for name in ("csrrwi", "csrrsi", "csrrci"):
            yield f"{name} x4, {n}, 31", (name, 4, 31, 0, n)
    yield "fence", ("fence", 0, 0, 0, 0x0FF)
    yield "fence.i", ("fence.i", 0, 0, 0, 0)
    for name in ("ecall", "ebreak", "mret", "wfi"):
        yield name, (name, 0, 0, 0, 0)


def assembled(folder, texts):
    source = os.path.join(folder, "words.s")
    with open(source, "w") as file:
        # A jump out of the section is an address that the assembler leaves open, so each stands far from both ends.
        file.write(".option norelax\n.space 0x100000\n")
        file.write("\n".join(texts) + "\n.space 0x100000\n")
    thing = os.path.join(folder, "words.o")
    binary = os.path.join(folder, "words.bin")
    subprocess.run([ASSEMBLER, "-march=rv64im_zicsr_zifencei", "-o", thing, source], check=True)
    subprocess.run([ASSEMBLER[:-2] + "objcopy", "-O", "binary", "-j", ".text", thing, binary], check=True)
    with open(binary, "rb") as file:
        data = file.read()[0x100000 : 0x100000 + 4 * len(texts)]
    return [int.from_bytes(data[k : k + 4], "little") for k in range(0, len(data), 4)]


def read_by_decode(folder, words):
    repository = os.path.join(folder, "repository")
    os.makedirs(os.path.join(repository, "crates", "reader", "src"))
    shutil.copytree(os.path.join(TOP, "crates", "rv_table"), os.path.join(repository, "crates", "rv_table"), ignore=shutil.ignore_patterns("out"))
    with open(os.path.join(repository, "crates.txt"), "w") as file:
        file.write("rv_table:\nreader: rv_table\n")
    with open(os.path.join(repository, "crates", "reader", "src", "main.rt"), "w") as file:
        file.write(READER)
    text = "".join(f"{word:08x}\n" for word in words)
    reader = os.path.join(repository, "crates", "reader")
    run = subprocess.run(["rt", "run"], cwd=reader, input=text, capture_output=True, text=True)
    if run.returncode != 0:
        sys.exit(run.stdout + run.stderr)
    return run.stdout.splitlines()


def main():
    if shutil.which(ASSEMBLER) is None:
        print(f"skipped: there is no {ASSEMBLER}")
        return 0
    texts, wanted = zip(*cases())
    with tempfile.TemporaryDirectory() as folder:
        words = assembled(folder, texts)
        said = read_by_decode(folder, words)
    wrong = 0
    for text, word, fields, line in zip(texts, words, wanted, said):
        if line != " ".join(str(field) for field in fields):
            wrong += 1
            print(f"{text}: {word:08x} is read as {line}, not {fields}")
    rows = len({fields[0] for fields in wanted})
    print(f"{len(texts)} words of {rows} rows, {wrong} read otherwise")
    return 1 if wrong or len(said) != len(texts) else 0


if __name__ == "__main__":
    sys.exit(main())
