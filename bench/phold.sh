#!/bin/sh
# Builds the verified library and bench/phold.rs, and prints the table of the benchmark. Writes only under target/ and the crates' out/.
set -eu

usage='usage: bench/phold.sh [--built]
  --built: take target/staticlib/libsequential.a as it is, and do not prove it again'

fail() {
    printf 'phold.sh: %s\n' "$*" >&2
    exit 2
}

built=no
case $#:${1-} in
0:) ;;
1:--built) built=yes ;;
1:-h | 1:--help)
    printf '%s\n' "$usage"
    exit 0
    ;;
*)
    printf '%s\n' "$usage" >&2
    exit 2
    ;;
esac

here=$(CDPATH='' cd -- "$(dirname -- "$0")" && pwd -P)
root=$(dirname -- "$here")
library=$root/target/staticlib/libsequential.a
out=$root/target/bench

command -v rustc >/dev/null 2>&1 || fail "there is no rustc; install Rust 1.85 or later"
mkdir -p "$out"

if [ "$built" = no ]; then
    command -v rt >/dev/null 2>&1 || fail "there is no rt, which proves and builds the library"
    (cd "$root/crates/sequential_c" && rt lib) >"$out/staticlib.log" 2>&1 || {
        tail -n 20 "$out/staticlib.log" >&2
        fail "rt lib in crates/sequential_c failed; target/bench/staticlib.log has all that it said"
    }
    mkdir -p "$root/target/staticlib"
    cp "$root/crates/sequential_c/out/libsequential_c.a" "$library"
fi
[ -f "$library" ] || fail "there is no target/staticlib/libsequential.a; run without --built"

rustc --edition 2024 -O -C target-cpu=native -C panic=abort -C codegen-units=1 \
    -L "native=$root/target/staticlib" -l static=sequential -o "$out/phold" "$here/phold.rs" ||
    fail "rustc refused bench/phold.rs, or the library has no sequential_run"

exec "$out/phold"
