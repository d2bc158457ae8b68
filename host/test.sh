#!/usr/bin/env bash
# The host's side, built and tested by one command, host/test.sh: the static library (host/build.sh), then in C and in Rust every case of
# crates/blockcases/stdin, the checks of the boundary and the worked example; then the same under valgrind. A line says what was compared, and
# the last line how many of these passed. Needs rt, gcc with g++, cargo and valgrind, and no network. What it makes is in target/.
set -uo pipefail
cd "$(dirname "$0")/.." || exit
out=target/host
. host/checks.sh

mkdir -p "$out"
c="gcc -std=c99 -Wall -Wextra -Wpedantic -Werror -O2 -g"
package="--release --manifest-path host/rust/Cargo.toml --target-dir $out"
grind="valgrind --quiet --error-exitcode=99 --leak-check=full"
library=target/staticlib/libwerfund.a

# shellcheck disable=SC2086
{
    run "static library" last host/build.sh
    run "header as C++" g++ -std=c++11 -Wall -Wextra -Wpedantic -Werror -fsyntax-only -x c++ host/werfund.h
    run "C tests built" $c host/tests/tests.c "$library" -o "$out/tests"
    run "C example built" $c host/examples/example.c "$library" -o "$out/example"
    run "Rust built" cargo --quiet build --offline --examples $package
    run "Rust documentation" silent cargo --quiet test --offline --doc $package
    run "C tests" compared "$out/tests"
    run "C example" shown host/examples/example.out "$out/example"
    run "Rust tests" compared "$out/release/examples/tests"
    run "Rust example" shown host/examples/example.out "$out/release/examples/example"
    run "C tests, valgrind" compared $grind "$out/tests"
    run "C example, valgrind" shown host/examples/example.out $grind "$out/example"
    run "Rust tests, valgrind" compared $grind "$out/release/examples/tests"
    run "Rust example, valgrind" shown host/examples/example.out $grind "$out/release/examples/example"
}
total "host tests"
