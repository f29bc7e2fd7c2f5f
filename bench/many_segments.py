#!/usr/bin/env python3
"""Times `gemcore flat FILE 1` on ELF files with as many segments as there can be, and prints the seconds of each.

    bench/many_segments.py [--rounds N] [--program FILE]

Run by hand. It builds the program by bin/gemcore where no other is named. Times are processor seconds, the least of the rounds, with the
time on an empty image taken off. A loader that writes the zeros of each segment takes minutes on the first file.
"""
import argparse
import os
import resource
import struct
import subprocess
import sys
import tempfile

BENCH = os.path.dirname(os.path.abspath(__file__))
TOP = os.path.dirname(BENCH)
PROGRAM = os.path.join(TOP, "crates", "gc_cli", "out", "gc_cli")

BASE = 0x8000_0000
RAM = 16_777_216
PAGE = 4_096
MOST = 65_535

# A segment is its first place in RAM, how many bytes it has in the file, and how many in memory.
EMPTY = (0, 0, RAM)


def elf(segments):
    """An ELF file with these segments, whose bytes are those at the file's start."""
    identification = b"\x7fELF\2\1\1" + bytes(9)
    header = identification + struct.pack("<HHIQQQIHHHHHH", 2, 243, 1, BASE, 64, 0, 0, 64, 56, len(segments), 0, 0, 0)
    headers = [struct.pack("<IIQQQQQQ", 1, 7, 0, 0, BASE + place, size, memory, 8) for place, size, memory in segments]
    return header + b"".join(headers)


FILES = {
    "zeros of all RAM in each": [EMPTY] * MOST,
    "a byte at each end, zeros between": [(0, 1, 1), (RAM - 1, 1, 1)] + [(1, 0, RAM - 2)] * (MOST - 2),
    "a byte in each page, then zeros": [(place, 1, 1) for place in range(0, RAM, PAGE)] + [EMPTY] * (MOST - RAM // PAGE),
    "a byte and zeros of all RAM in turn": [(RAM // 2, 1, 1), EMPTY] * (MOST // 2),
    "zeros of a page but for its last byte": [(PAGE - 1, 1, 1)] + [(0, 0, PAGE - 1)] * (MOST - 1),
    "two pages' bytes, zeros half over both": [(0, 4, 4), (RAM - 4, 4, 4)] + [(2, 0, RAM - 4)] * (MOST - 2),
}


def seconds(command, rounds):
    """The least processor seconds of some runs."""
    least = None
    for _ in range(rounds):
        before = resource.getrusage(resource.RUSAGE_CHILDREN)
        subprocess.run(command, check=True, capture_output=True)
        after = resource.getrusage(resource.RUSAGE_CHILDREN)
        spent = after.ru_utime + after.ru_stime - before.ru_utime - before.ru_stime
        least = spent if least is None else min(least, spent)
    return least


def main():
    parser = argparse.ArgumentParser(description=__doc__.splitlines()[0])
    parser.add_argument("--rounds", type=int, default=3)
    parser.add_argument("--program")
    asked = parser.parse_args()
    program = asked.program
    if program is None:
        subprocess.run([os.path.join(TOP, "bin", "gemcore"), "flat", os.devnull, "0"], check=True, capture_output=True)
        program = PROGRAM
    start = seconds([program, "flat", os.devnull, "1"], asked.rounds)
    with tempfile.TemporaryDirectory() as folder:
        image = os.path.join(folder, "image")
        for name, segments in FILES.items():
            with open(image, "wb") as file:
                file.write(elf(segments))
            spent = seconds([program, "flat", image, "1"], asked.rounds) - start
            print(f"{max(spent, 0):7.3f} s  {len(segments)} segments, {os.path.getsize(image) / 1e6:.1f} MB: {name}")
    return 0


if __name__ == "__main__":
    sys.exit(main())
