#!/usr/bin/env python3
"""Measures `gemcore flat` beside a plain interpreter on the same image, in one run, and prints the ratio.

    bench/compare.py [--count STEPS] [--rounds N] [--image FILE]

Run by hand; it needs rustc. It builds what is missing by bin/gemcore. Times are processor seconds, the least of the rounds,
with the start of each program (COUNT 0) taken off. The ratio is that of steps per second, gemcore to the plain interpreter.
The reports and what the console took are compared byte for byte.
"""
import argparse
import os
import resource
import subprocess
import sys
import tempfile

BENCH = os.path.dirname(os.path.abspath(__file__))
TOP = os.path.dirname(BENCH)
PROGRAM = os.path.join(TOP, "crates", "gc_cli", "out", "gc_cli")


def build_reference(folder):
    program = os.path.join(folder, "reference")
    command = ["rustc", "--edition", "2021", "-O", "-C", "target-cpu=x86-64-v2", "-C", "codegen-units=1"]
    subprocess.run(command + [os.path.join(BENCH, "reference.rs"), "-o", program], check=True)
    return program


def processor_seconds():
    usage = resource.getrusage(resource.RUSAGE_CHILDREN)
    return usage.ru_utime + usage.ru_stime


def timed(command):
    before = processor_seconds()
    run = subprocess.run(command, capture_output=True)
    return processor_seconds() - before, (run.returncode, run.stdout, run.stderr)


def main():
    parser = argparse.ArgumentParser(description=__doc__.splitlines()[0])
    parser.add_argument("--count", type=int, default=50_000_000)
    parser.add_argument("--rounds", type=int, default=5)
    parser.add_argument("--image", default=os.path.join(BENCH, "guest.bin"))
    asked = parser.parse_args()
    subprocess.run([os.path.join(TOP, "bin", "gemcore"), "flat", asked.image, "0"], check=True, capture_output=True)
    with tempfile.TemporaryDirectory() as folder:
        commands = {
            "gemcore": [PROGRAM, "flat", asked.image],
            "plain": [build_reference(folder), asked.image],
        }
        least, start, said = {}, {}, {}
        for _ in range(asked.rounds):
            for name, command in commands.items():
                seconds, _ = timed(command + ["0"])
                start[name] = min(start.get(name, seconds), seconds)
                seconds, said[name] = timed(command + [str(asked.count)])
                least[name] = min(least.get(name, seconds), seconds)
    net = {name: max(least[name] - start[name], 1e-9) for name in commands}
    for name in commands:
        speed = asked.count / net[name] / 1e6
        print(f"{name:8} {net[name]:.3f} s, {speed:.1f} million steps a second, start {start[name] * 1000:.0f} ms")
    print(f"ratio {net['plain'] / net['gemcore']:.2f}")
    same = said["gemcore"] == said["plain"]
    print("both write the same" if same else "WHAT THEY WRITE DIFFERS")
    return 0 if same else 1


if __name__ == "__main__":
    sys.exit(main())
