#!/usr/bin/env bash
# Compares a program that reads and types a problem with a plain fold over the bytes of its file (`h * 31 + b`, built by rustc):
# bench/reading.sh PROGRAM, with 16 MiB of typed statements in the layout of the TPTP. Each line: how many constants are declared, the
# seconds (user and system) of both, the least of ten runs each by turns, and their ratio. A run of the fold makes fifty of it, so that its
# seconds are told as finely.
set -eu
here=$(dirname -- "$(readlink -f -- "$0")")
program=${1:?a program}
folder=$(mktemp -d)
trap 'rm -r "$folder"' EXIT
TIMEFORMAT='%3U %3S'

cat >"$folder/fold.rs" <<'RUST'
use std::{env, fs, hint::black_box};

fn main() {
    let bytes = fs::read(env::args().nth(1).expect("a file")).expect("a file that can be read");
    for _ in 0..50 {
        black_box(black_box(&bytes).iter().fold(0_u64, |h, b| h.wrapping_mul(31).wrapping_add(u64::from(*b))));
    }
}
RUST
rustc -C opt-level=2 -o "$folder/fold" "$folder/fold.rs"

# Adds the seconds of one run of a command to a file: run FILE COMMAND ..
run() {
  local times=$1
  shift
  { time "$@" >"$folder/answer" 2>&1 || true; } 2>&1 | awk '{ print $1 + $2 }' >>"$times"
}

for declarations in 1000 8500 48000; do
  problem=$folder/$declarations.p
  python3 "$here/reading.py" "$problem" "$declarations"
  rm -f "$folder/ours" "$folder/folds"
  for _ in 1 2 3 4 5 6 7 8 9 10; do
    run "$folder/ours" "$program" "$problem"
    run "$folder/folds" "$folder/fold" "$problem"
  done
  ours=$(sort -n "$folder/ours" | head -n 1)
  folds=$(sort -n "$folder/folds" | head -n 1)
  awk -v n="$declarations" -v ours="$ours" -v folds="$folds" '
    BEGIN { printf "%d constants: %.3f s, the fold %.4f s, %.1f times\n", n, ours, folds / 50, ours / (folds / 50) }'
done
