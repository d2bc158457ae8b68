#!/usr/bin/env bash
# The tools for a block by hand, tested by one command, tools/test.sh: tools/block.py and tools/explain on every public record and on
# damaged ones, beside blockwords; examples/; the lines of README.md. A line says what was compared, and the last line how many of these
# passed. Needs rt, Python 3 (Debian's package python3) and one of the two disassemblers aarch64-linux-gnu-objdump (package
# binutils-aarch64-linux-gnu) and llvm-objdump (package llvm); where both are there they are compared:
#
#     apt-get install -y python3 binutils-aarch64-linux-gnu llvm
#
# What it makes is in target/.
set -uo pipefail
cd "$(dirname "$0")/.." || exit
. host/checks.sh

need rt "none: it is the Rattle kit's"
need python3 python3
command -v aarch64-linux-gnu-objdump >/dev/null || need llvm-objdump "llvm, or in binutils-aarch64-linux-gnu as aarch64-linux-gnu-objdump"

tests() { python3 tools/tests.py "$@"; }

# Proved and built, and run on the record of no operations.
blockwords() { (cd crates/blockwords && rt run <stdin) | cmp - crates/blockwords/stdout; }

run "blockwords" last blockwords
run "table of kinds, beside the proved one" tests kinds
run "texts" tests texts
run "text to record to text" tests round_trips
run "faults, beside blockwords" tests faults
run "errors of a text" tests errors
run "mnemonics" tests disassemblers
run "blocks explained" tests blocks
run "refusals explained" tests refusals
run "examples" tests examples
run "README" tests readme
run "what is not there" tests missing
total "tools tests"
