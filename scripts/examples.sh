#!/bin/sh
# Checks the examples, by hand, from the top of the repository: each shipped image is the one that `gemcore asm` makes of its
# source, each example writes what is stored beside it, and a C program compiled at -O0 and at -O2 runs over flat memory and in a
# machine of each model. The last part is skipped where neither riscv64-unknown-elf-gcc nor clang with ld.lld is there. GEMCORE names
# another program than bin/gemcore.
set -eu
cd "$(dirname "$0")/.."
gemcore=${GEMCORE:-bin/gemcore}
folder=$(mktemp -d)
trap 'rm -rf "$folder"' EXIT

for source in examples/*.s; do
    image=${source%.s}.elf
    "$gemcore" asm "$source" "$folder/image.elf"
    cmp "$image" "$folder/image.elf"
    echo "$image is that of $source"
done

# What an example writes: its stored console, or /dev/null for none, its stored report, and its words.
expect() {
    console=$1
    report=$2
    shift 2
    "$gemcore" "$@" >"$folder/console" 2>"$folder/report"
    cmp "$console" "$folder/console"
    cmp "$report" "$folder/report"
    echo "$report is what gemcore $* writes"
}

machine=examples/machine.toml
timed=examples/timing.toml
expect examples/hello.console examples/hello.report run "$machine" examples/hello.elf examples/hello.script
expect examples/hello.console examples/steps.report run "$machine" examples/hello.elf examples/steps.script
expect examples/hello.console examples/hello.flat.report flat examples/hello.elf 1000
expect /dev/null examples/fibonacci.report run "$machine" examples/fibonacci.elf examples/hello.script
expect /dev/null examples/trap.report run "$machine" examples/trap.elf examples/hello.script
expect examples/timer.console examples/timer.report run "$machine" examples/timer.elf examples/hello.script
expect examples/hello.console examples/hello.timing.report run "$timed" examples/hello.elf examples/hello.script
expect examples/timer.console examples/timer.timing.report run "$timed" examples/timer.elf examples/hello.script
python3 scripts/example_cases.py --check
echo "the tests of gc_cli have the examples as they stand"

if ! command -v riscv64-unknown-elf-gcc >/dev/null && ! command -v ld.lld >/dev/null; then
    echo "skipped: riscv64-unknown-elf-gcc is missing, and so is ld.lld"
    exit 0
fi
for level in -O0 -O2; do
    make -s -C examples/c OUT="$folder/c$level" OPTIMIZE="$level"
    primes=$folder/c$level/primes.elf
    "$gemcore" flat "$primes" 1000000 >"$folder/flat.console" 2>"$folder/flat.report"
    "$gemcore" run "$machine" "$primes" examples/hello.script >"$folder/run.console" 2>"$folder/run.report"
    printf '2 3 5 7 11 13 17 19 23 29 31 37 41 43 47 53 59 61 67 71 73 79 83 89 97\n' >"$folder/expected"
    "$gemcore" run "$timed" "$primes" examples/hello.script >"$folder/timed.console" 2>"$folder/timed.report"
    cmp "$folder/flat.console" "$folder/expected"
    cmp "$folder/run.console" "$folder/expected"
    cmp "$folder/timed.console" "$folder/expected"
    grep -q '^flat exit 25 steps ' "$folder/flat.report"
    grep -q '^run exit 25 at ' "$folder/run.report"
    grep -q '^run exit 25 at ' "$folder/timed.report"
    echo "the C program runs at $level"
done
