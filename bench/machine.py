#!/usr/bin/env python3
"""Measures `gemcore run` in both modes beside `gemcore flat` on the same image, in one run, and prints the ratios.

    bench/machine.py [--rounds N] [--insts N] [--source FILE] [--program FILE]

Run by hand. It builds the program by bin/gemcore where no other is named, and assembles FILE, bench/loop.s by default. Each makes the
first N instructions of the guest, 20 million by default, on the machines of examples/. Times are processor seconds, the least of the
rounds, with the start of each (no instruction) taken off.
"""
import argparse
import os
import re
import resource
import subprocess
import sys
import tempfile

BENCH = os.path.dirname(os.path.abspath(__file__))
TOP = os.path.dirname(BENCH)
PROGRAM = os.path.join(TOP, "crates", "gc_cli", "out", "gc_cli")
MACHINES = {"atomic": "machine.toml", "timing": "timing.toml"}


def processor_seconds():
    usage = resource.getrusage(resource.RUSAGE_CHILDREN)
    return usage.ru_utime + usage.ru_stime


def timed(command):
    before = processor_seconds()
    run = subprocess.run(command, capture_output=True, text=True, check=True)
    return processor_seconds() - before, run.stderr.splitlines()[0]


def put(folder, name, text):
    """The name of a file with this text."""
    path = os.path.join(folder, name)
    with open(path, "w", encoding="utf-8") as file:
        file.write(text)
    return path


def machine(folder, mode):
    """The configuration of a machine of examples/, whose budget ends no run."""
    with open(os.path.join(TOP, "examples", MACHINES[mode]), encoding="utf-8") as file:
        text = file.read()
    return put(folder, mode, re.sub(r"(?m)^budget = \d+", "budget = 1000000000000", text))


def commands(program, folder, image, insts):
    """What makes so many instructions over flat memory, and on a machine of each mode."""
    script = put(folder, f"insts{insts}", f"run insts {insts}\n")
    runs = {mode: [program, "run", machine(folder, mode), image, script] for mode in MACHINES}
    return {"flat": [program, "flat", image, str(insts)], **runs}


def main():
    parser = argparse.ArgumentParser(description=__doc__.splitlines()[0])
    parser.add_argument("--rounds", type=int, default=5)
    parser.add_argument("--insts", type=int, default=20_000_000)
    parser.add_argument("--source", default=os.path.join(BENCH, "loop.s"))
    parser.add_argument("--program")
    asked = parser.parse_args()
    program = asked.program
    if program is None:
        subprocess.run([os.path.join(TOP, "bin", "gemcore"), "flat", os.devnull, "0"], check=True, capture_output=True)
        program = PROGRAM
    least, said = {}, {}
    with tempfile.TemporaryDirectory() as folder:
        image = os.path.join(folder, "image")
        subprocess.run([program, "asm", asked.source, image], check=True)
        for _ in range(asked.rounds):
            for insts in (0, asked.insts):
                for name, command in commands(program, folder, image, insts).items():
                    seconds, said[name] = timed(command)
                    least[name, insts] = min(least.get((name, insts), seconds), seconds)
    net = {name: max(least[name, asked.insts] - least[name, 0], 1e-9) for name in said}
    for name, line in said.items():
        start = least[name, 0] * 1000
        print(f"{name:6} {net[name]:.3f} s, {asked.insts / net[name] / 1e6:.2f} million instructions a second, start {start:.0f} ms: {line}")
    for mode in MACHINES:
        print(f"ratio of {mode} {net[mode] / net['flat']:.1f}")


if __name__ == "__main__":
    sys.exit(main())
