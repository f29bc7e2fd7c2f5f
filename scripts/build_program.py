#!/usr/bin/env python3
"""Proves the crates of the program, builds it, and says meanwhile on standard error what is done, what is being proved and how many are left.

bin/gemcore calls it where the program is missing or older than its sources. Only gc_cli and the crates below it are proved, without their
tests and planted faults. As many crates are proved at a time as there are processors, and 4 GB of free memory for each; GEMCORE_JOBS is
another number. With 1, and where each crate that is left stands on the one before it, they are proved one after another, and then `rt`
uses several processors inside a crate.
"""
import os
import pathlib
import re
import subprocess
import sys
import time

TOP = pathlib.Path(__file__).resolve().parent.parent
PROGRAM = "gc_cli"
FOLDER = TOP / "crates" / PROGRAM
MEMORY = 4_000_000_000
BEGUN = re.compile(r"rt: chose --jobs \d+ for (\w+)\n")
ENDED = re.compile(r"== (\w+)\n")
START = time.monotonic()


def libraries():
    """Each crate of crates.txt with the crates that it uses."""
    found = {}
    for line in (TOP / "crates.txt").read_text(encoding="utf-8").split("\n"):
        name, colon, uses = line.partition(":")
        if colon and not line.startswith("#"):
            found[name.split()[0]] = uses.split()
    return {name: [it for it in uses if it in found] for name, uses in found.items()}


def below(name, uses):
    """The crates below one, each behind those that it uses."""
    found = []
    for it in uses[name]:
        found += [other for other in [*below(it, uses), it] if other not in found]
    return found


def at_a_time():
    """How many crates are proved at a time."""
    given = os.environ.get("GEMCORE_JOBS", "")
    if given.isdigit() and int(given) > 0:
        return int(given)
    free = re.search(r"MemAvailable:\s+(\d+)", pathlib.Path("/proc/meminfo").read_text(encoding="ascii"))
    return max(1, min(len(os.sched_getaffinity(0)), 1024 * int(free[1]) // MEMORY))


def say(text):
    print(f"gemcore: {text}", file=sys.stderr, flush=True)


class Progress:
    """Which crates are done, and which are in work, as `rt all` takes them: by the number of crates below each, in turn, so many at a time."""

    def __init__(self, jobs):
        self.uses = libraries()
        every = [*below(PROGRAM, self.uses), PROGRAM]
        self.order = sorted(every, key=lambda it: len(below(it, self.uses)))
        self.jobs, self.done = jobs, []

    def in_work(self):
        begun = self.order[: len(self.done) + self.jobs]
        return [it for it in begun if it not in self.done and all(other in self.done for other in self.uses[it])]

    def is_chain(self):
        """Whether each crate that is left stands on the one before it."""
        left = [it for it in self.order if it not in self.done]
        return all(it in below(other, self.uses) for it, other in zip(left, left[1:]))

    def say(self, name, now):
        minutes = int(time.monotonic() - START) // 60
        left = len(self.order) - len(self.done)
        say(f"{name} done after {minutes} min, {left} of {len(self.order)} left" + (f"; now {', '.join(now)}" if now else ""))

    def end(self, name):
        if name in self.order and name not in self.done:
            self.done.append(name)
            self.say(name, self.in_work())


def started(*words):
    """A command that was started in the program's folder, whose lines are read."""
    how = {"stdin": subprocess.DEVNULL, "stdout": subprocess.PIPE, "stderr": subprocess.STDOUT, "text": True, "errors": "replace"}
    return subprocess.Popen(words, cwd=FOLDER, **how)


def side_by_side(jobs):
    """Proves crates, so many at a time, until each that is left stands on the one before it: `build` then has several processors for each.
    Returns what `rt` wrote of those that failed, or nothing."""
    progress, parts, name = Progress(jobs), {"": []}, ""
    say(f"proving the {len(progress.order)} crates of the program, {jobs} at a time; first {', '.join(progress.in_work())}")
    with started("rt", "all", "check", "--jobs", str(jobs)) as ran:
        for line in ran.stdout:
            found = ENDED.fullmatch(line)
            if found:
                name = found[1]
                parts[name] = []
                progress.end(name)
                if progress.is_chain():
                    # (what it proves for the crate in work is kept, and its commands end with it)
                    ran.terminate()
                    return []
            parts[name].append(line)
    if not ran.returncode:
        return []
    # (the summary is the last part)
    sound = [line.split(":")[0] for line in parts.get("summary", []) if line.endswith(": ok\n")]
    return [line for name, lines in parts.items() if name not in sound for line in lines] or ["gemcore: rt failed, and wrote nothing\n"]


def build():
    """Builds the program, and proves what isn't proved, one crate after another. Returns what `rt` wrote."""
    progress, said = Progress(1), []
    # (`rt run` takes the crates in this order, and says nothing of one that is kept)
    progress.order = [*below(PROGRAM, progress.uses), PROGRAM]
    with started("rt", "run") as ran:
        for line in ran.stdout:
            said.append(line)
            found = BEGUN.fullmatch(line)
            place = progress.order.index(found[1]) if found and found[1] in progress.order else 0
            if place > len(progress.done):
                progress.done = progress.order[:place]
                progress.say(progress.done[-1], [found[1]])
    return said


def main():
    jobs = at_a_time()
    if jobs > 1:
        said = side_by_side(jobs)
        if said:
            return said
    else:
        say("proving the crates of the program, one after another, and building it")
    program = FOLDER / "out" / PROGRAM
    program.unlink(missing_ok=True)
    said = build()
    return [] if os.access(program, os.X_OK) else said


if __name__ == "__main__":
    try:
        wrong = main()
    except KeyboardInterrupt:
        sys.exit(130)
    except FileNotFoundError:
        wrong = ["gemcore: rt is missing, the command of the kit that README.md names\n"]
    sys.stderr.write("".join(wrong))
    sys.exit(1 if wrong else 0)
