#!/bin/sh
# Checks the layers of the model by grep, by hand, and says that they stand. Nothing is proved here: it is what the layers are for.
set -eu
cd "$(dirname "$0")/.."

# none WHAT: nothing may come on standard input
none() {
    if grep .; then
        echo "$1"
        exit 1
    fi
}

# The theorems on machines know parts by their laws alone. Exempt is the module Started, which says that the machine of the platform's
# table starts sound: so it goes through the table's rows, which have kinds and numbers. `Blank kinds.AtomicCpu` is what stands where
# there is no part (`object_at`), and `with_bytes_at` is a definition on lists of bytes.
theorems() {
    grep -rnE "$1" crates/gm_system/specs crates/gm_system/proofs --include='*.antt' | grep -v '/Started\.antt:' || true
}
theorems '^' | sed -E 's/Blank kinds\.AtomicCpu//g; s/specs\.Memory\.\{with_bytes_at\}//; s/(ObjState\.\{.*)\bBlank\b/\1/' |
    grep -E 'kinds\.|owns\.|\b(Blank|AtomicCpu|TimingCpu|Xbar|Cache|Mem|Memory|Uart|Timer|Exit|Dma|Server|Device|CpuStage)\b' |
    none "a theorem on machines names a kind of part or a device"
theorems '\b(object_at|faces|step_at|pass_at|peer_in|get_or) (\([^()]*\)|[^ ()]+) [0-9]|\b(Sent|Done) [0-9]|suc \(suc \(suc' |
    none "a theorem on machines names an object's number"

# The parts stand on the rules alone.
grep -rnE 'gm_laws|gm_system' crates/obj_* crates/cpu_* crates/probe_stats | none "a part imports laws or theorems"
grep -E '^(obj_|cpu_|probe_stats).*(gm_laws|gm_system)' crates.txt | none "a part is listed above laws or theorems"

# Rules don't know their laws, and laws don't know the theorems.
grep -rnE '^use Rattle\.(gm_model|gm_laws|gm_system)\.' crates/gm_words | none "what parts and machine say knows the rules"
grep -rnE '^use Rattle\.(gm_laws|gm_system)\.' crates/gm_model | none "the rules know their laws"
grep -rnE '^use Rattle\.gm_system\.' crates/gm_laws | none "the laws know the theorems"

# Above the theorems, proofs cite ForKernel alone.
grep -rnE 'gm_system\.proofs\.' crates --include='*.antt' --include='*.rt' | grep -vE '^crates/gm_system/|gm_system\.proofs\.ForKernel\b' |
    none "a proof above cites another module of gm_system than ForKernel"

echo "the layers stand"
