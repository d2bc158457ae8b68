#!/usr/bin/env bash
# The translator on AArch64, by one command, host/arm/test.sh: the library is built (host/arm/build.sh); the C and Rust tests and the example of host/
# give the same answers there; a block is called from C; and every run of tests/oracle/runs is run by the processor, as run.c says. A line says
# what was compared, and the last line how many of these passed. Needs rt, aarch64-linux-gnu-gcc and qemu-aarch64; for Rust cargo and a rustc
# with the target aarch64-unknown-linux-gnu, and it is said where there is none. host/README.md has the line that installs them. What it makes
# is in target/.
set -uo pipefail
cd "$(dirname "$0")/../.." || exit
out=target/host-aarch64
library=target/staticlib-aarch64/libwerfund.a
target=aarch64-unknown-linux-gnu
. host/checks.sh

need aarch64-linux-gnu-gcc gcc-aarch64-linux-gnu
need qemu-aarch64 qemu-user

# The first folder with a cargo, and a rustc that has the target's standard library: that on the path, or Debian's.
for rust in "$(dirname "$(command -v rustc)")" /usr/bin ''; do
    [ -x "$rust/cargo" ] && compgen -G "$("$rust/rustc" --print target-libdir --target "$target" 2>/dev/null)/libstd-*.rlib" >/dev/null && break
done

# A processor of the first Armv8-A: an instruction that came later traps.
emulated="qemu-aarch64 -cpu cortex-a53"
c="aarch64-linux-gnu-gcc -Wall -Wextra -Wpedantic -Werror -O2 -g -static"
package="--release --manifest-path host/rust/Cargo.toml --target-dir $out --target $target"
runs=(tests/oracle/runs/runs.txt tests/oracle/runs/runs-2026-*.txt)

cargo() {
    env PATH="$rust:$PATH" CARGO_TARGET_AARCH64_UNKNOWN_LINUX_GNU_LINKER=aarch64-linux-gnu-gcc \
        CARGO_TARGET_AARCH64_UNKNOWN_LINUX_GNU_RUSTFLAGS="-C target-feature=+crt-static" "$rust/cargo" "$@"
}

# MODE RUNS..: what `run` says is what is frozen.
frozen() {
    local said
    said=$($emulated "$out/run" "$@") || {
        printf '%s\n' "$said"
        return 1
    }
    printf '%s\n' "$said" | diff - "host/arm/frozen/$1.out" && printf '%s\n' "$said"
}

# The emulator tells each instruction that is executed in the blocks' code. Run by run as many as the run counts, from its start on, and no more
# than it has words.
executed() {
    local each=-singlestep
    qemu-aarch64 -help | grep one-insn-per-tb >/dev/null && each=-one-insn-per-tb
    $emulated $each -d exec,nochain -dfilter 0x1000000000+0x1000000 -D "$out/executed" "$out/run" count "${runs[@]}" >"$out/counted" || return
    awk '
        FNR == NR { start[++runs] = $1; due[runs] = $2; over += $2 > $3; next }
        { split($0, part, "/") }
        left == 0 { other += part[2] != start[++run]; left = due[run] }
        { left--; executed++ }
        END {
            print "runs " run ", instructions executed " executed ", otherwise " other + 0 ", more than words " over + 0
            exit run != runs || left != 0 || other || over
        }' "$out/counted" "$out/executed"
}

x86_64() { cksum target/staticlib/libwerfund.a 2>/dev/null; }

mkdir -p "$out"
before=$(x86_64)
# shellcheck disable=SC2086
{
    run "static library" last host/arm/build.sh
    run "x86-64 archive as before" test "$before" = "$(x86_64)"
    run "C tests built" $c -std=c99 host/tests/tests.c "$library" -o "$out/tests"
    run "C example built" $c -std=c99 host/examples/example.c "$library" -o "$out/example"
    run "C call built" $c -std=gnu11 host/examples/call.c "$library" -o "$out/call"
    run "runs built" $c -std=gnu11 host/arm/*.c host/arm/enter.S "$library" -o "$out/run"
    run "C tests" compared $emulated "$out/tests"
    run "C example" shown host/examples/example.out $emulated "$out/example"
    run "C call" shown host/examples/call.out $emulated "$out/call"
    if [ -n "$rust" ]; then
        run "Rust built" cargo --quiet build --offline --examples $package
        run "Rust tests" compared $emulated "$out/$target/release/examples/tests"
        run "Rust example" shown host/examples/example.out $emulated "$out/$target/release/examples/example"
    else
        echo "Rust: not tested, no cargo with a rustc that has the target $target (Debian's packages cargo and libstd-rust-dev:arm64)"
    fi
    run "runs as written" frozen written "${runs[@]}"
    run "runs with a limit one too low" frozen limit "${runs[@]}"
    run "runs entered from another block" frozen jump "${runs[@]}"
    run "runs on over a linked site" frozen link "${runs[@]}"
    run "a block linked with itself" frozen loop
    run "instructions executed" executed
    run "a flipped bit shows" $emulated "$out/run" flip 200 1 "${runs[@]}"
    run "stack of the library's calls" $emulated "$out/run" stack "${runs[@]}"
}
total "arm host tests"
