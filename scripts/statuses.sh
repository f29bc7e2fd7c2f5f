#!/bin/sh
# Checks the process, by hand, from the top of the repository: the status that it ends with, and what it writes to standard output and
# to standard error, each alone, for one call of each status that a system can be brought to. The stored run of gc_cli is one call, of
# which the gate sees the status and standard output. GEMCORE names another program than bin/gemcore.
set -eu
cd "$(dirname "$0")/.."
gemcore=${GEMCORE:-$PWD/bin/gemcore}
folder=$(mktemp -d)
trap 'rm -rf "$folder"' EXIT
cp crates/gc_cli/data/* examples/trap.elf "$folder"
cd "$folder"
mkdir directory
printf '[' >damaged.toml
printf '\177ELF' >damaged.elf
printf 'run end\nrun\n' >damaged.script
printf 'addi x1, x0, 1\naddi x1, x0, 2048\n' >damaged.s
registers='pc 0000000080000014\nx5 0000000000000001\nx10 0000000010000000\nx11 0000000000100000\nmstatus 0000000000001800\n'

# The status, the console and the report that a call must have, in the forms of printf, and its words.
expect() {
    status=$1
    printf "$2" >console.expected
    printf "$3" >report.expected
    shift 3
    ended=0
    "$gemcore" "$@" >console 2>report </dev/null || ended=$?
    judge "$@"
}

# Whether the call ended and wrote as it must.
judge() {
    if [ "$ended" != "$status" ] || ! cmp console console.expected || ! cmp report report.expected; then
        echo "gemcore $*: ended with status $ended, to be $status; its report:"
        cat report
        exit 1
    fi
    echo "status $status: gemcore $*"
}

expect 0 '\001' "flat exit 0 steps 5\n$registers" flat store_and_exit.bin 10
expect 0 '' 'flat count steps 0\npc 0000000080000000\nmstatus 0000000000001800\n' flat store_and_exit.bin 0
expect 0 '\001' "run exit 0 at 8200 insts 5 events 6\n$registers" run machine.toml store_and_exit.bin end.script
# The guest's exit number, 2, is no status.
expect 0 '' 'flat exit 2 steps 7\npc 000000008000001c\nx5 0000000080000010\nx6 0000000000000002\nx7 0000000000100000\nmstatus 0000000000001800\nmtvec 0000000080000010\nmepc 000000008000000c\nmcause 0000000000000002\n' \
    flat trap.elf 100
expect 2 '' 'usage\n'
expect 2 '' 'usage\n' flat store_and_exit.bin 01
expect 2 '' 'usage\n' flat "$(printf '\377')" 10
expect 3 '' 'config text\n' run damaged.toml store_and_exit.bin end.script
expect 4 '' 'image header\n' run machine.toml damaged.elf end.script
expect 5 '' 'script line 2\n' run machine.toml store_and_exit.bin damaged.script
expect 7 '' 'file absent absent\n' run machine.toml absent end.script
expect 8 '' 'store directory\n' flat directory 10
expect 12 '' 'source line 2 range\n' asm damaged.s refused.elf
[ ! -e refused.elf ] || { echo "a refused source put a file"; exit 1; }

# A device that takes nothing, as the console and as the report.
if [ -c /dev/full ]; then
    status=9 ended=0
    : >console
    : >console.expected
    : >report.expected
    "$gemcore" flat store_and_exit.bin 10 >/dev/full 2>report </dev/null || ended=$?
    judge flat store_and_exit.bin 10 ">/dev/full"
    printf '\001' >console.expected
    ended=0
    "$gemcore" flat store_and_exit.bin 10 2>/dev/full >console </dev/null || ended=$?
    : >report
    judge flat store_and_exit.bin 10 "2>/dev/full"
fi
