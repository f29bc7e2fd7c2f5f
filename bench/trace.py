#!/usr/bin/env python3
"""Measures a traced run beside the same run without a trace, and prints the lines a second and the ratio.

    bench/trace.py [--rounds N] [--insts N] [--source FILE] [--program FILE]

Run by hand. It builds the program by bin/gemcore where no other is named, and assembles FILE, bench/loop.s by default. The machine is
in atomic mode, where an instruction is an event, so that a million instructions are a million events. Times are processor seconds, the
least of the rounds; the report goes to a file.
"""
import argparse
import os
import subprocess
import sys
import tempfile

from machine import BENCH, PROGRAM, TOP, processor_seconds


def timed(command, report):
    before = processor_seconds()
    with open(report, "wb") as file:
        subprocess.run(command, stdout=subprocess.DEVNULL, stderr=file, check=True)
    return processor_seconds() - before


def put(name, text):
    with open(name, "w", encoding="utf-8") as file:
        file.write(text)


def count_lines(name):
    with open(name, "rb") as file:
        return sum(1 for _ in file)


def main():
    parser = argparse.ArgumentParser(description=__doc__.splitlines()[0])
    parser.add_argument("--rounds", type=int, default=5)
    parser.add_argument("--insts", type=int, default=1_000_000)
    parser.add_argument("--source", default=os.path.join(BENCH, "loop.s"))
    parser.add_argument("--program")
    asked = parser.parse_args()
    program = asked.program
    if program is None:
        subprocess.run([os.path.join(TOP, "bin", "gemcore"), "flat", os.devnull, "0"], check=True, capture_output=True)
        program = PROGRAM
    with tempfile.TemporaryDirectory() as folder:
        image, report = os.path.join(folder, "image"), os.path.join(folder, "report")
        subprocess.run([program, "asm", asked.source, image], check=True)
        scripts = {"plain": f"run insts {asked.insts}\n", "traced": f"trace on\nrun insts {asked.insts}\n"}
        for name, text in scripts.items():
            put(os.path.join(folder, name), text)
        config = os.path.join(TOP, "examples", "machine.toml")
        least, lines = {}, {}
        for _ in range(asked.rounds):
            for name in scripts:
                seconds = timed([program, "run", config, image, os.path.join(folder, name)], report)
                least[name] = min(least.get(name, seconds), seconds)
                lines[name] = count_lines(report)
    for name in scripts:
        print(f"{name:6} {least[name]:.3f} s, {lines[name]} lines, {asked.insts / least[name] / 1e6:.2f} million instructions a second")
    print(f"traced {lines['traced'] / least['traced'] / 1e6:.2f} million lines a second")
    print(f"ratio {least['traced'] / least['plain']:.1f}")


if __name__ == "__main__":
    sys.exit(main())
