#!/usr/bin/env python3
"""Runs random programs and scripts on random machines by `gemcore run` and by the plain interpreter of the machine, and compares what they write.

    bench/differ_machine.py [--runs N] [--seed N] [--program FILE]

Run by hand. It builds the program by bin/gemcore where no other is named. The interpreter is bench/plain_machine.py. The first case that
differs is kept beside this script, as differs_machine.toml, differs_machine.bin and differs_machine.script.
"""
import argparse
import os
import random
import subprocess
import sys
import tempfile

import plain_machine
from compare import BENCH, PROGRAM, TOP
from differ import CSRS, FUNCT7, OPCODES, WHOLE

KEPT = ["differs_machine.toml", "differs_machine.bin", "differs_machine.script"]
LOAD, STORE, BRANCH, JUMP, SYSTEM, WFI = 0x03, 0x23, 0x63, 0x6F, 0x73, 0x10500073
OFTEN = [LOAD, STORE, 0x13, 0x33]
OFFSETS = [0, 0, 4, 5, 8, 16, 1, 2047, -8]
# What START points at something: RAM, which is chosen twice as often, the UART, msip or the exit device, mtimecmp, mtime.
BASES = [1, 1, 2, 3, 4, 5]
# Registers of devices: a base, an offset, and the funct3 of an access that isn't refused.
DEVICE_REGISTERS = [(2, 0, 0), (2, 5, 0), (3, 0, 2), (4, 0, 3), (5, 0, 3)]
INTERRUPT_CSRS = [0x300, 0x304, 0x305]
# A handler that goes on behind a trap, and at an interrupt asks for the next one.
START = """    auipc x1, 0
    addi x1, x1, 0x700
    lui x2, 0x10000
    lui x3, {third}
    lui x4, 0x2004
    lui x5, 0x200c
    addi x5, x5, -8
    auipc x20, 0
    addi x20, x20, 12
    jal x0, setup
    csrrs x23, mcause, x0
    blt x23, x0, interrupt
    csrrs x24, mepc, x0
    addi x24, x24, 4
    csrrw x0, mepc, x24
    mret
interrupt:
    ld x25, 0(x5)
    addi x25, x25, {next}
    sd x25, 0(x4)
    lui x26, 0x2000
    sw x0, 0(x26)
    mret
setup:
    csrrw x0, mtvec, x20
    addi x21, x0, {first}
    sd x21, 0(x4)
    addi x22, x0, {mie}
    csrrw x0, mie, x22
    lui x26, 0x2000
    addi x28, x0, {msip}
    sw x28, 0(x26)
    csrrwi x0, mstatus, {mstatus}
"""
EXIT = "lui x27, 0x100\nsw x21, 0(x27)\n"
CONFIG = """[system]
line = 16
model = "{model}"
ram = {ram}
budget = {budget}
[cpu]
period = {period}
[corebus]
latency = {corebus}
[membus]
latency = {membus}
[mem]
latency = {mem}
queue = {queue}
[uart]
latency = {uart}
chartime = {chartime}
[timer]
latency = {timer}
period = {count}
[exit]
latency = {exit}
"""
TIMES = ["period", "corebus", "membus", "mem", "uart", "chartime", "timer", "count", "exit"]


def with_field(bits, low, width, value):
    mask = (1 << width) - 1 << low
    return bits & ~mask | value << low


def with_immediate(bits, place, number):
    """place: where a word of this type has it, as plain_machine does."""
    return bits & ~place(-1) | place(number)


def tamed(pick, opcode, bits):
    """Most of its accesses and its jumps are of use: near by, or at what a base of START points at."""
    if opcode in (LOAD, STORE):
        base, offset, funct3 = pick.choice(BASES), pick.choice(OFFSETS), bits >> 12 & 7
        if pick.random() < 0.3:
            base, offset, funct3 = pick.choice(DEVICE_REGISTERS)
        bits = with_field(with_field(bits, 15, 5, base), 12, 3, funct3)
        bits = with_immediate(bits, plain_machine.i_bits if opcode == LOAD else plain_machine.s_bits, offset)
    if opcode == BRANCH:
        bits = with_immediate(bits, plain_machine.b_bits, pick.choice([8, 12, 16, -8, -12, 4]))
    if opcode == JUMP:
        bits = with_immediate(bits, plain_machine.j_bits, pick.choice([8, 12, 16, -8]))
    if opcode not in (BRANCH, STORE) and (bits >> 7 & 31) in BASES:
        bits = with_field(bits, 7, 5, pick.randrange(6, 20))
    return bits


def word(pick):
    kind = pick.random()
    if kind < 0.04:
        return pick.getrandbits(32)
    if kind < 0.12:
        return pick.choice(WHOLE)
    opcode = pick.choice(OPCODES + OFTEN)
    bits = pick.getrandbits(32) & ~0x7F | opcode
    if opcode in (0x33, 0x3B, 0x1B) and pick.random() < 0.9:
        bits = with_field(bits, 25, 7, pick.choice(FUNCT7))
    if opcode == 0x13 and (bits >> 12 & 3) == 1:
        bits = with_field(bits, 26, 6, pick.choice([0, 0x10]))
    if opcode == SYSTEM:
        bits = with_field(bits, 20, 12, pick.choice(CSRS))
    return tamed(pick, opcode, bits)


def start(pick):
    return plain_machine.assemble(START.format(
        third=pick.choice(["0x2000", "0x2000", "0x100"]),
        next=pick.randrange(1, 400),
        first=pick.randrange(1, 300),
        mie=pick.choice([0, 128, 8, 136, 136]),
        msip=pick.choice([0, 1]),
        mstatus=pick.choice([0, 8, 8]),
    ))


def changes_interrupts(bits):
    return bits & 0x7F == SYSTEM and bits >> 20 in INTERRUPT_CSRS


def image(pick):
    """Mostly START and words behind it, of which in half the images none changes how interrupts are taken; now and then words alone."""
    if pick.random() < 0.15:
        return plain_machine.image_bytes([word(pick) for _ in range(pick.randrange(1, 60))])
    body = [word(pick) for _ in range(pick.randrange(20, 300))]
    if pick.random() < 0.5:
        body = [bits for bits in body if not changes_interrupts(bits)]
    for _ in range(pick.randrange(6)):
        body.insert(pick.randrange(len(body) + 1), WFI)
    if pick.random() < 0.5:
        place = pick.randrange(len(body) + 1)
        body[place:place] = plain_machine.assemble(EXIT)
    return plain_machine.image_bytes(start(pick) + body)


def ticks(pick):
    return pick.choice([1, 1, 2, 3, 7, 10, 50, 100, pick.randrange(1, 2000)])


def config(pick):
    times = {name: ticks(pick) for name in TIMES}
    return CONFIG.format(model=pick.choice(["atomic", "timing", "timing"]), ram=pick.choice([4096, 8192, 65536]),
                         budget=pick.choice([400, 2000, 5000]), queue=pick.choice([1, 2, 64]), **times)


def script(pick):
    lines = []
    for _ in range(pick.randrange(1, 8)):
        lines.append(pick.choice([
            "run end", "run end", f"run insts {pick.randrange(60)}", f"run tick {pick.randrange(60000)}", "regs", "stats", "stats json",
            "trace on", "trace on", "trace off", "input " + pick.randbytes(pick.randrange(1, 65)).hex(),
        ]))
    return "\n".join(lines + ["trace off", "run insts 5", "regs", "stats"]) + "\n"


def write(folder, case):
    """Puts the three files of a case there; their names."""
    names = [os.path.join(folder, name) for name in KEPT]
    for name, content in zip(names, case):
        with open(name, "wb") as file:
            file.write(content if isinstance(content, bytes) else content.encode())
    return names


def add_up(totals, machine):
    """What the runs came to, so that it is seen that they do something."""
    for name in ("cpu.retired", "cpu.traps", "cpu.sleeps", "sim.events"):
        totals[name] = totals.get(name, 0) + machine.counts[name]
    totals["last trap an interrupt"] = totals.get("last trap an interrupt", 0) + (machine.hart().mcause >> 63)
    totals["exits"] = totals.get("exits", 0) + (machine.parts["exit"].code is not None)


def main():
    parser = argparse.ArgumentParser(description=__doc__.splitlines()[0])
    parser.add_argument("--runs", type=int, default=200)
    parser.add_argument("--seed", type=int, default=1)
    parser.add_argument("--program")
    asked = parser.parse_args()
    program = asked.program
    if program is None:
        # What is compared is the program as its sources are now: the starter builds it where it is older.
        subprocess.run([os.path.join(TOP, "bin", "gemcore"), "flat", os.devnull, "0"], check=True, capture_output=True)
        program = PROGRAM
    pick = random.Random(asked.seed)
    totals = {}
    with tempfile.TemporaryDirectory() as folder:
        for n in range(asked.runs):
            case = config(pick), image(pick), script(pick)
            ours = subprocess.run([program, "run", *write(folder, case)], capture_output=True)
            plain = plain_machine.run(*case)
            if (ours.returncode, ours.stdout, ours.stderr) != (0, plain.console, plain.report.encode()):
                write(BENCH, case)
                print(f"run {n} differs: bench/{KEPT[0]}, bench/{KEPT[1]}, bench/{KEPT[2]}")
                return 1
            add_up(totals, plain.machine)
    print(f"{asked.runs} runs agree: " + ", ".join(f"{name} {number}" for name, number in totals.items()))
    return 0


if __name__ == "__main__":
    sys.exit(main())
