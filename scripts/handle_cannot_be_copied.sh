#!/bin/sh
# A handle can't be copied or cloned, no crate above ev_queue can make one, and a queue takes none of a slot whose handle it
# didn't give itself. Run by hand, at the top of the repository: a must-fail edit can't show it, since most of such code is
# refused before any proof is tried.
set -eu
folder=$(mktemp -d)
trap 'rm -rf "$folder"' EXIT
mkdir -p "$folder/crates/misuse/src"
cp -r crates/gc_base crates/ev_queue "$folder/crates"
grep -E '^(gc_base|ev_queue):' crates.txt > "$folder/crates.txt"
echo 'misuse: gc_base ev_queue' >> "$folder/crates.txt"

# refuses NAME WORDS: the check of the code on standard input must fail with these words
refuses() {
    cat > "$folder/crates/misuse/src/lib.rt"
    if (cd "$folder/crates/misuse" && rt check) > "$folder/log" 2>&1 || ! grep -q "$2" "$folder/log"; then
        tail -20 "$folder/log"
        echo "$1: not refused for '$2'"
        exit 1
    fi
    echo "$1: refused"
}

# accepts NAME: the check of the code on standard input must pass
accepts() {
    cat > "$folder/crates/misuse/src/lib.rt"
    if ! (cd "$folder/crates/misuse" && rt check) > "$folder/log" 2>&1; then
        tail -20 "$folder/log"
        echo "$1: refused"
        exit 1
    fi
    echo "$1: accepted"
}

refuses copied_handle 'use of moved value' <<'CODE'
#![tactic(auto)]

use ev_queue::EventHandle;

pub fn twice(handle: EventHandle<1>) -> (EventHandle<1>, EventHandle<1>) {
    (handle, handle)
}
CODE

refuses forged_handle 'is private' <<'CODE'
#![tactic(auto)]

use ev_queue::EventHandle;
use gc_base::{ObjId, SlotNo};

pub fn forged() -> EventHandle<1> {
    EventHandle {
        owner: ObjId(0),
        slot: SlotNo(0),
    }
}
CODE

refuses cloned_handle 'is not .Clone' <<'CODE'
#![tactic(auto)]

use ev_queue::EventHandle;
use std::alloc::AllocError;

pub fn cloned(handle: &EventHandle<1>) -> Result<EventHandle<1>, AllocError> {
    handle.clone()
}
CODE

# other_queue QUEUE: the code that takes a handle of the first of two queues to this one
other_queue() {
    cat <<CODE
#![tactic(auto)]

use ev_queue::EventQueue;
use gc_base::{NoMemory, ObjId, SlotNo};
use std::alloc::Global;

pub fn descheduled(alloc: Global) -> Result<(), NoMemory> {
    let mut first = EventQueue::new(alloc, &[1])?;
    let mut second = EventQueue::new(alloc, &[1])?;
    if let Some(handle) = first.handle::<1>(ObjId(0), SlotNo(0)) {
        $1.deschedule(&handle);
    }
    Ok(())
}
CODE
}

other_queue first | accepts handle_of_the_queue
other_queue second | refuses handle_of_another_queue 'deschedule-requires'
