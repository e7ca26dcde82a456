#!/usr/bin/env bash
# Proves and builds the static library and the program, and puts copies where C callers, the manual and the tests look:
# target/staticlib/libfbr.a and target/bin/belt_cycle. No proof is from nothing where rt kept one; rt ci is the judge.
set -eu
cd "$(dirname "${BASH_SOURCE[0]}")/.."

# A copy that is the same stays as it is: cargo goes by its time. A new one takes its place at once.
put() {
    if ! cmp -s "$1" "$2"; then
        mkdir -p "${2%/*}"
        cp "$1" "$2.new"
        mv "$2.new" "$2"
    fi
}

(cd crates/fbr && rt lib)
put crates/fbr/out/libfbr.a target/staticlib/libfbr.a

# rt run builds the program and runs it; without input it prints its totals
(cd crates/belt_cycle && rt run </dev/null)
put crates/belt_cycle/out/belt_cycle target/bin/belt_cycle
