#!/usr/bin/env bash
# Compares the compiled `compile_to` with the oracle at every stop of the walk over a block's patches (docs/vectors.md):
#
#     tools/walk_stops.sh ORACLE FILE..
#
# A FILE has a record a line in hexadecimal, as blocks.py prints it. `compile_to` is no function of the host's library: a crate `walk` beside
# copies of the others, in a folder of its own, makes it one. What is compared, and how, is at the head of tools/walk_stops.c.
set -euo pipefail
oracle=$(realpath "$1")
shift
top=$(cd "$(dirname "$0")/.." && pwd)
work=$(mktemp -d)
trap 'rm -rf "$work"' EXIT
tar -C "$top" --exclude=out -cf - crates crates.txt | tar -C "$work" -xf -
mkdir -p "$work/crates/walk/src"
echo 'walk staticlib: arrayvec compile record finish faults block' >>"$work/crates.txt"
cat >"$work/crates/walk/src/lib.rt" <<'END'
// The words of a record's block where the walk over its patches stops behind `upto` of them; how many words it takes, 0 where it is refused.
#![tactic(auto)]

#[unsafe(no_mangle)]
pub extern "C" fn walk_stop(bytes: &[u8], words: &mut [u32], table: &mut [u64; 6152], upto: u32) -> u32 {
    match record::read(bytes) {
        Ok(block) => finish::count(compile::compile_to(words, table, block, upto).finished),
        Err(_) => 0,
    }
}
END
(cd "$work/crates/walk" && rt lib 2>&1) >"$work/said" || {
    cat "$work/said" >&2
    exit 1
}
gcc -std=c99 -O2 "$top/tools/walk_stops.c" "$work/crates/walk/out/libwalk.a" -o "$work/walk_stops"
python3 "$top/tools/block_words.py" "$oracle" "$@" | "$work/walk_stops"
