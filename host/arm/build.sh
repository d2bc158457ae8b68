#!/usr/bin/env bash
# The static library for AArch64 Linux, target/staticlib-aarch64/libwerfund.a, by one command: host/arm/build.sh. From a clean clone it
# proves what the library stands on first. Its code runs on every Armv8-A processor. Needs rt alone. The x86-64 archive,
# target/staticlib/libwerfund.a, is not touched.
set -euo pipefail
cd "$(dirname "$0")/../.."
out=target/staticlib-aarch64
made=crates/werfund_c/out/libwerfund_c.a
(cd crates/werfund_c && rt lib --target aarch64-unknown-linux-gnu)

# The machine of the first object, from its ELF header: 183 is AArch64.
kit=$(dirname "$(rt doc)")
[ "$("$kit/toolchain/bin/llvm-ar" p "$made" | od -An -tu2 -j18 -N2 | tr -d ' ')" = 183 ] || {
    echo "host/arm/build.sh: the archive's code is not AArch64's" >&2
    exit 2
}
mkdir -p "$out"
mv "$made" "$out/libwerfund.a"
echo "$out/libwerfund.a"
