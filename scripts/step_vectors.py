#!/usr/bin/env python3
"""Works out anew what each row of the instruction table does, and compares it with the tables of rv_step's tests.

    scripts/step_vectors.py [--write]

Words are those of GNU as. What a user program may run is run by qemu-riscv64: one program with all cases. What it may not (control
registers, traps, mret, wfi) is worked out here from the RISC-V manuals, by functions that know nothing of this repository's code.
With --write the tables are written. Run by hand; where the assembler or qemu is missing (Debian's binutils-riscv64-unknown-elf and
qemu-user) it says so and ends well.
"""
import os
import re
import shutil
import subprocess
import sys
import tempfile

TOP = os.path.dirname(os.path.dirname(os.path.abspath(__file__)))
TESTS = os.path.join(TOP, "crates/rv_step/src/outside_tests.rt")
TOOLS = ["riscv64-unknown-elf-as", "riscv64-unknown-elf-ld", "riscv64-unknown-elf-objcopy", "qemu-riscv64"]
MASK = 2**64 - 1
START = 0x80000000
PLACE = 0x80000100
LEAST, MOST = 2**63, 2**63 - 1
LEAST_WORD = 0xFFFFFFFF80000000
MANY = 0x8182838485868788

PAIRS = [(0, 0), (1, MASK), (MASK, 1), (MASK, MASK), (LEAST, 1), (LEAST, MASK), (MOST, 1), (MOST, MOST), (7, MASK - 1)]
WORDS = [(0x7FFFFFFF, 1), (LEAST_WORD, MASK), (0x80000000, 0x80000000), (0x100000007, 0xFFFFFFFF00000002)]
SHIFTED = [(MASK, 0), (LEAST, 31), (0x80000001, 31), (MANY, 32), (1, 63), (LEAST, 63), (MANY, 65)]
DIVIDED = [(7, 0), (LEAST, 0), (LEAST, MASK), (LEAST_WORD, MASK), (0xFFFFFFFFFFFFFFF9, 2), (7, 0xFFFFFFFFFFFFFFFE), (MOST, 3),
           (0x180000001, 0x100000000), (MASK, 0x1FFFFFFFF)]


def values():
    """Text and x1, x2 of words whose result is x3. A text that names its own place has its result relative to START."""
    for name in "add sub slt sltu xor or and mul mulh mulhsu mulhu".split():
        for x, y in PAIRS:
            yield f"{name} x3, x1, x2", x, y
    for name in "addw subw mulw".split():
        for x, y in PAIRS[1:4] + WORDS:
            yield f"{name} x3, x1, x2", x, y
    for name in "sll srl sra sllw srlw sraw".split():
        for x, y in SHIFTED:
            yield f"{name} x3, x1, x2", x, y
    for name in "div divu rem remu divw divuw remw remuw".split():
        for x, y in DIVIDED:
            yield f"{name} x3, x1, x2", x, y
    for name in "addi slti sltiu xori ori andi addiw".split():
        for x, n in [(0, 0), (MASK, 1), (0, -1), (MASK, -1), (LEAST, -2048), (MOST, 2047), (0x7FFFFFFF, 1), (0x80000000, -1)]:
            yield f"{name} x3, x1, {n}", x, 0
    for name in "slli srli srai".split():
        for x, n in [(MASK, 0), (MANY, 31), (MANY, 32), (LEAST, 63), (MASK, 63)]:
            yield f"{name} x3, x1, {n}", x, 0
    for name in "slliw srliw sraiw".split():
        for x, n in [(0x80000001, 0), (0x80000001, 31), (0x17FFFFFFF, 1), (MANY, 4)]:
            yield f"{name} x3, x1, {n}", x, 0
    for name in "lui auipc".split():
        for n in [0, 1, 0x7FFFF, 0x80000, 0xFFFFF]:
            yield f"{name} x3, {n}", 0, 0
    yield "fence", 1, 2
    yield "fence.i", 1, 2


def targets():
    """Text, x1 and x2 of jumps and branches, all 8 bytes on, 8 bytes back, or not taken; a jalr's x1 is relative to START."""
    for name in "beq bne blt bge bltu bgeu".split():
        for n in (8, -8):
            for x, y in [(0, 0), (1, MASK), (MASK, 1), (LEAST, MOST), (MOST, LEAST)]:
                yield f"{name} x1, x2, .{n:+d}", x, y
    for n in (8, -8):
        yield f"jal x3, .{n:+d}", 0, 0
    for n, x in [(0, 8), (3, 5), (-1, 10), (-2048, 2056), (2047, -2055), (1, -8)]:
        yield f"jalr x3, {n}(x1)", START + x, 0


def accesses():
    """Text, x1 and x2 of loads and stores; at PLACE and behind are the 8 bytes of x2's complement, low byte first."""
    for name, size in zip("lb lh lw ld lbu lhu lwu".split(), [1, 2, 4, 8, 1, 2, 4]):
        for n in sorted({0, 8 - size}):
            yield f"{name} x3, {n}(x1)", PLACE, MANY
            yield f"{name} x3, {n - 2048}(x1)", PLACE + 2048, 0x7172737475767778
    for name, size in zip("sb sh sw sd".split(), [1, 2, 4, 8]):
        for n in sorted({0, 8 - size}):
            yield f"{name} x2, {n}(x1)", PLACE, MANY
            yield f"{name} x2, {n - 2047}(x1)", PLACE + 2047, 0x0102030405060708


CSRS = dict(mstatus=0x300, misa=0x301, mie=0x304, mtvec=0x305, mscratch=0x340, mepc=0x341, mcause=0x342, mtval=0x343, mip=0x344,
            mvendorid=0xF11, marchid=0xF12, mimpid=0xF13, mhartid=0xF14)


def kept(csr, old, new):
    """What a control register holds once `new` was written: RISC-V privileged manual, "Machine-Level CSRs"; the platform has
    machine mode only (MPP stays 3), interrupts 3, 7 and 11, mtvec's modes 0 and 1, and instructions of 4 bytes."""
    if csr == "mstatus":
        return 0x1800 | new & 0x88
    if csr == "mie":
        return new & (1 << 3 | 1 << 7 | 1 << 11)
    if csr == "mtvec":
        return new & ~2 & MASK
    if csr == "mepc":
        return new & ~3 & MASK
    if csr in ("mscratch", "mcause", "mtval"):
        return new
    return old


def first(csr):
    """A value that the register may hold before."""
    return dict(mstatus=0x1880, misa=2 << 62 | 1 << 8 | 1 << 12, mie=0x80, mtvec=0x80000101, mscratch=0xF0F0, mepc=0x80000004,
                mcause=2**63 + 7, mtval=0xFF, mip=0x808).get(csr, 0)


def controls():
    """Text, x1 and the register before, and x3 and the register after; RISC-V unprivileged manual, "Zicsr"."""
    for csr in CSRS:
        old = first(csr)
        writable = CSRS[csr] >> 10 != 3
        sources = [("csrrs", "x0", 0)] + ([("csrrw", "x1", MASK), ("csrrw", "x0", 0), ("csrrs", "x1", 0x1F00F), ("csrrc", "x1", 0xFF),
                   ("csrrwi", "31", 31), ("csrrwi", "0", 0), ("csrrsi", "9", 9), ("csrrci", "13", 13), ("csrrci", "0", 0)] if writable else
                   [("csrrc", "x0", 0), ("csrrsi", "0", 0), ("csrrci", "0", 0)])
        for name, source, n in sources:
            new = {"w": n, "s": old | n, "c": old & ~n}[name[4]]
            x = n if source == "x1" else 0x55
            yield f"{name} x3, {csr}, {source}", x, old, old, kept(csr, old, new)


def traps():
    """Text, x1 and what the trap leaves in mcause and mtval, with the word where that is None; RISC-V privileged manual,
    "Machine Cause Register" and "Machine Trap Value Register"."""
    yield "ecall", 0, 11, 0
    yield "ebreak", 0, 3, 0
    yield ".word 0", 0, 2, None
    yield ".word 0xffffffff", 0, 2, None
    for text in ["csrrw x3, mhartid, x0", "csrrwi x3, mvendorid, 0", "csrrs x3, mimpid, x1", "csrrsi x3, marchid, 1",
                 "csrrc x3, mhartid, x1", "csrrci x3, mhartid, 31", "csrrs x3, cycle, x0", "csrrs x3, sstatus, x0", "sret", "uret"]:
        yield text, 0, 2, None
    for name, size in zip("lh lhu lw lwu ld".split(), [2, 2, 4, 4, 8]):
        yield f"{name} x3, -1(x1)", PLACE + size // 2 + 1, 4, PLACE + size // 2
    for name, size in zip("sh sw sd".split(), [2, 4, 8]):
        yield f"{name} x2, 1(x1)", PLACE + size // 2 - 1, 6, PLACE + size // 2
    for text, to in [("lb x3, 0(x1)", 5), ("ld x3, 0(x1)", 5), ("sb x2, 0(x1)", 7), ("sd x2, 0(x1)", 7)]:
        yield text, 0x70000000, to, 0x70000000
    yield "jal x3, .+6", 0, 0, START + 6
    yield "jalr x3, 2(x1)", START, 0, START + 2
    yield "beq x1, x1, .-2", 0, 0, START - 2


def assembled(texts, folder):
    """The word of each text."""
    source = os.path.join(folder, "words.s")
    with open(source, "w") as file:
        file.write(".option norvc\n" + "\n".join(texts) + "\n")
    made = os.path.join(folder, "words.o")
    subprocess.run([TOOLS[0], "-march=rv64im_zicsr_zifencei", "-o", made, source], check=True)
    subprocess.run([TOOLS[2], "-O", "binary", "-j", ".text", made, made + ".bin"], check=True)
    data = open(made + ".bin", "rb").read()
    assert len(data) == 4 * len(texts), "a text of more than one word"
    return [int.from_bytes(data[i:i + 4], "little") for i in range(0, len(data), 4)]


def ran(cases, folder):
    """For each case (word, x1, x2, whether x1 is relative): x3, the case's place, where it went on (0 not, 1 back, 2 on), memory."""
    lines = [".option norvc", ".option norelax", ".globl _start", "_start:", "la x20, results", f"li x21, {PLACE}"]
    for word, x, y, relative in cases:
        lines += [f"li x1, {x}", f"li x2, {y}", "not x6, x2", "sd x6, 0(x21)", "li x3, 0", "la x5, 2f"]
        if relative:
            lines += [f"li x1, {(x - START) & MASK}", "add x1, x1, x5"]
        lines += ["j 2f", "li x4, 1", "j 9f", f"2: .word {word}", "j 8f", "li x4, 2", "j 9f", "8: li x4, 0", "9:"]
        lines += ["ld x6, 0(x21)"] + [f"sd x{r}, {8 * k}(x20)" for k, r in enumerate((3, 5, 4, 6))] + ["addi x20, x20, 32"]
    size = 32 * len(cases)
    lines += ["li x17, 64", "li x10, 1", "la x11, results", f"li x12, {size}", "ecall", "li x17, 93", "li x10, 0", "ecall",
              ".data", f".org {PLACE - START}", ".zero 0x1000", "results:", f".zero {size}"]
    source = os.path.join(folder, "cases.s")
    with open(source, "w") as file:
        file.write("\n".join(lines) + "\n")
    made = os.path.join(folder, "cases")
    subprocess.run([TOOLS[0], "-march=rv64im_zicsr_zifencei", "-mno-relax", "-o", made + ".o", source], check=True)
    subprocess.run([TOOLS[1], "--no-relax", "-Ttext=0x10000", f"-Tdata={START:#x}", "-o", made, made + ".o"], check=True)
    out = subprocess.run([TOOLS[3], made], check=True, capture_output=True).stdout
    assert len(out) == size, "the program's output is cut"
    numbers = [int.from_bytes(out[i:i + 8], "little") for i in range(0, size, 8)]
    return [tuple(numbers[i:i + 4]) for i in range(0, len(numbers), 4)]


def worked(folder):
    """The tables by name, each a list of rows: the numbers and the text."""
    shown = [list(values()), list(targets()), list(accesses()), list(controls()), list(traps())]
    words = iter(assembled([case[0] for table in shown for case in table], folder))
    shown = [[(next(words),) + case for case in table] for table in shown]
    cases = [(w, x, y, text.startswith("jalr")) for table in shown[:3] for w, text, x, y in table]
    results = iter(ran(cases, folder))
    tables = {name: [] for name in ("VALUES", "TARGETS", "ACCESSES", "CONTROLS", "TRAPS")}
    for w, text, x, y in shown[0]:
        x3, place, _, _ = next(results)
        own = text.startswith("auipc")
        tables["VALUES"].append(((w, x, y, (x3 - place + START) & MASK if own else x3), text))
    for w, text, x, y in shown[1]:
        x3, place, went, _ = next(results)
        link = (x3 - place + START) & MASK if text.startswith("j") else x3
        tables["TARGETS"].append(((w, x, y, link, START + (4, -8, 8)[went]), text))
    for w, text, x, y in shown[2]:
        x3, _, _, after = next(results)
        tables["ACCESSES"].append(((w, x, y, x3, after), text))
    for row in shown[3]:
        tables["CONTROLS"].append(((row[0],) + row[2:], row[1]))
    for w, text, x, cause, value in shown[4]:
        tables["TRAPS"].append(((w, x, cause, w if value is None else value), text))
    return tables


def laid_out(rows):
    """The rows as they stand in the tests: the numbers in hexadecimal, and the text."""
    return "".join(" ".join(f"{n:x}" for n in row) + f" {text}\n" for row, text in rows)


def main():
    missing = [tool for tool in TOOLS if shutil.which(tool) is None]
    if missing:
        print("skipped: there is no", ", ".join(missing))
        return
    with open(TESTS) as file:
        tests = file.read()
    with tempfile.TemporaryDirectory() as folder:
        tables = worked(folder)
    wanted = tests
    for name, rows in tables.items():
        pattern = rf'(static {name}: &str = "\n).*?(";\n)'
        wanted = re.sub(pattern, lambda m, rows=rows: m[1] + laid_out(rows) + m[2], wanted, count=1, flags=re.S)
    print(sum(len(rows) for rows in tables.values()), "cases")
    if "--write" in sys.argv[1:]:
        with open(TESTS, "w") as file:
            file.write(wanted)
    elif wanted != tests:
        sys.exit("the tables of the tests are not these; with --write they become them")
    else:
        print("the tables of the tests are these")


if __name__ == "__main__":
    main()
