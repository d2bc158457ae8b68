#!/usr/bin/env bash
# The static library for x86-64 Linux, target/staticlib/libwerfund.a, by one command: host/build.sh. From a clean clone it proves what the
# library stands on first. Its code runs on every x86-64 processor. Needs rt alone.
set -euo pipefail
cd "$(dirname "$0")/.."
out=target/staticlib
(cd crates/werfund_c && rt lib --cpu x86-64)
mkdir -p "$out"
mv crates/werfund_c/out/libwerfund_c.a "$out/libwerfund.a"
echo "$out/libwerfund.a"
