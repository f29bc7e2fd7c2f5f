#!/usr/bin/env python3
"""Runs random images by `gemcore flat` and by the plain interpreter, and compares what they write.

    bench/differ.py [--images N] [--steps N] [--seed N]

Run by hand; it needs rustc. The first image that differs is kept beside this script as differs.bin.
"""
import argparse
import os
import random
import subprocess
import sys
import tempfile

from compare import PROGRAM, TOP, build_reference

OPCODES = [0x37, 0x17, 0x6F, 0x67, 0x63, 0x03, 0x23, 0x13, 0x33, 0x1B, 0x3B, 0x0F, 0x73]
WHOLE = [0x00000073, 0x00100073, 0x30200073, 0x10500073]
CSRS = [0x300, 0x301, 0x304, 0x305, 0x340, 0x341, 0x342, 0x343, 0x344, 0xF11, 0xF14, 0xC00, 0x7C0]
FUNCT7 = [0x00, 0x20, 0x01]


def word(pick):
    kind = pick.random()
    if kind < 0.05:
        return pick.getrandbits(32)
    if kind < 0.07:
        return pick.choice(WHOLE)
    opcode = pick.choice(OPCODES)
    bits = pick.getrandbits(32) & ~0x7F | opcode
    if opcode in (0x33, 0x3B, 0x1B) and pick.random() < 0.9:
        bits = bits & 0x01FFFFFF | pick.choice(FUNCT7) << 25
    if opcode == 0x13 and (bits >> 12 & 3) == 1 and pick.random() < 0.9:
        bits = bits & 0x03FFFFFF | pick.choice([0, 0x10]) << 26
    if opcode == 0x73:
        bits = bits & 0x000FFFFF | pick.choice(CSRS) << 20
    return bits


def image(pick):
    """Points x1 to x4 at RAM, the UART and the exit device, and goes on at random."""
    start = [0x00001097, 0x10000137, 0x001001B7, 0x00004217, 0x30509073 if pick.random() < 0.5 else 0x00000013]
    return b"".join(w.to_bytes(4, "little") for w in start + [word(pick) for _ in range(pick.randrange(20, 400))])


def main():
    parser = argparse.ArgumentParser(description=__doc__.splitlines()[0])
    parser.add_argument("--images", type=int, default=1000)
    parser.add_argument("--steps", type=int, default=2000)
    parser.add_argument("--seed", type=int, default=1)
    asked = parser.parse_args()
    pick = random.Random(asked.seed)
    with tempfile.TemporaryDirectory() as folder:
        reference = build_reference(folder)
        name = os.path.join(folder, "image.bin")
        # What is compared is the program as its sources are now: the starter builds it where it is older.
        subprocess.run([os.path.join(TOP, "bin", "gemcore"), "flat", os.devnull, "0"], check=True, capture_output=True)
        for n in range(asked.images):
            with open(name, "wb") as file:
                file.write(image(pick))
            steps = str(pick.randrange(asked.steps))
            ours = subprocess.run([PROGRAM, "flat", name, steps], capture_output=True)
            plain = subprocess.run([reference, name, steps], capture_output=True)
            if (ours.returncode, ours.stdout, ours.stderr) != (plain.returncode, plain.stdout, plain.stderr):
                os.replace(name, os.path.join(TOP, "bench", "differs.bin"))
                print(f"image {n} at {steps} steps differs: bench/differs.bin")
                return 1
    print(f"{asked.images} images agree")
    return 0


if __name__ == "__main__":
    sys.exit(main())
