#!/usr/bin/env python3
"""Writes crates/gc_cli/src/call/tests/examples.rt: each example with its stored console and report, as a case of gc_cli's tests.

Run by hand, at the top of the repository, after a change of examples/. With --check it writes nothing, and fails where the cases
are not what the files say. What an example writes stands in examples/*.console and examples/*.report, and was worked outside of
gemcore: change it by hand, never to what gemcore writes.
"""
import pathlib
import sys

FOLDER = pathlib.Path("examples")
CASES = pathlib.Path("crates/gc_cli/src/call/tests/examples.rt")
HEAD = """// The examples, each with what it writes: a source is assembled, its file is the one that is shipped, and is run.
//
// `scripts/example_cases.py` writes this file from the folder `examples`.
use super::{Case, File, SILENT, Text, expect_assembled_and_run};
use std::test::Fail;

"""
TAIL = """
#[test]
fn examples_write_what_is_stored_beside_them(rt: HostRuntime) -> Result<(), Fail> {
    expect_assembled_and_run(&rt, &EXAMPLES)
}
"""
FLAT = '&["flat", "image", "1000"]'
# each machine with the constant of its file
MACHINES = {
    "machine.toml": ("MACHINE", "The machine of the examples."),
    "timing.toml": ("TIMED_MACHINE", "The same in timing mode."),
}
ATOMIC, TIMING = MACHINES
# the machine, the words, which are those of `run` if not told, the program, the script, the console and the report of each example
EXAMPLES = [
    (ATOMIC, None, "hello", "hello", "hello.console", "hello.report"),
    (ATOMIC, None, "hello", "steps", "hello.console", "steps.report"),
    (ATOMIC, FLAT, "hello", "hello", "hello.console", "hello.flat.report"),
    (ATOMIC, None, "fibonacci", "hello", None, "fibonacci.report"),
    (ATOMIC, None, "trap", "hello", None, "trap.report"),
    (ATOMIC, None, "timer", "hello", "timer.console", "timer.report"),
    (TIMING, None, "hello", "hello", "hello.console", "hello.timing.report"),
    (TIMING, None, "timer", "hello", "timer.console", "timer.timing.report"),
]


def name_of(file):
    """The constant of a file's content."""
    return file.upper().replace(".", "_")


def text(file):
    """A text as it stands."""
    content = (FOLDER / file).read_text(encoding="utf-8")
    assert '"##' not in content, file
    head = f"const {name_of(file)}: &str ="
    first = f'{head} r##"' + content.split("\n")[0]
    # as `rt fmt` lays it out
    gap = " " if len(first) <= 100 else "\n    "
    return f'/// `examples/{file}`\n{head}{gap}r##"{content}"##;\n'


def octets(file):
    """Bytes, sixteen on a line."""
    content = (FOLDER / file).read_bytes()
    rows = [content[at : at + 16] for at in range(0, len(content), 16)]
    lines = "".join("\\\n" + "".join(f"\\x{byte:02x}" for byte in row) for row in rows)
    return f'/// `examples/{file}`\nconst {name_of(file)}: &[u8] = b"{lines}";\n'


def case(machine, words, program, script, console, report):
    rows = [
        f'name: "{report.removesuffix(".report")}",',
        "files: &[",
        f"    {MACHINES[machine][0]},",
        f'    ("source", Text({name_of(program + ".s")})),',
        f'    ("script", Text({name_of(script + ".script")})),',
        "],",
        f"words: {words}," if words else "",
        f"console: {name_of(console)}," if console else "",
        f"report: {name_of(report)},",
        f'left: &[("image", Some({name_of(program + ".elf")}))],',
        "..SILENT",
    ]
    return "    Case {\n" + "".join(f"        {row}\n" for row in rows if row) + "    },\n"


def cases():
    files = list(MACHINES)
    for _, _, program, script, console, report in EXAMPLES:
        files += [program + ".s", program + ".elf", script + ".script", report] + ([console] if console else [])
    contents = [octets(file) if file.endswith((".elf", ".console")) else text(file) for file in dict.fromkeys(files)]
    machines = [
        f'/// {reading}\nconst {name}: File = ("config", Text({name_of(file)}));\n' for file, (name, reading) in MACHINES.items()
    ]
    table = f"static EXAMPLES: [Case; {len(EXAMPLES)}] = [\n" + "".join(case(*example) for example in EXAMPLES) + "];\n"
    return HEAD + "\n".join([*contents, *machines, table]) + TAIL


if "--check" in sys.argv[1:]:
    if CASES.read_text(encoding="utf-8") != cases():
        sys.exit(f"{CASES} is not what the examples say: run {sys.argv[0]}")
else:
    CASES.write_text(cases(), encoding="utf-8")
