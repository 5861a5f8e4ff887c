#!/usr/bin/env bash
# Times the bank and the normaliser in the built program test_bank: bench/bank.sh
# A million terms come into a bank, beside as many keys of 56 bytes that come into a HashMap of std in plain Rust. The Church numeral of 5
# to the power of 5 is worked out over a bank and as a whole tree, 200 times each. What the program takes without a row is taken off. Each
# line: the milliseconds of both, the least of five tries, and their ratio.
set -eu
top=$(dirname -- "$(dirname -- "$(readlink -f -- "$0")")")
folder=$(mktemp -d)
trap 'rm -r "$folder"' EXIT
(cd "$top/crates/test_bank" && rt run <stdin >"$folder/built" 2>&1) || { cat "$folder/built"; exit 1; }

cat >"$folder/map.rs" <<'RUST'
use std::collections::HashMap;

fn main() {
    let mut map: HashMap<[u64; 7], usize> = HashMap::new();
    let (mut first, mut second) = (0, 0);
    for _ in 0..1_000_000 {
        let id = map.len();
        let id = *map.entry([2, 0, 2, first, second, 0, 0]).or_insert(id);
        first = second;
        second = id as u64 + 1;
    }
    println!("{}", map.len());
}
RUST
rustc -O -o "$folder/map" "$folder/map.rs"

# The least processor time of so many runs of a command on a row, in milliseconds: least RUNS ROW COMMAND
least() {
  if [ -n "$2" ]; then echo "$2"; fi >"$folder/row"
  for _ in 1 2 3 4 5; do
    /usr/bin/time -a -o "$folder/times" -f '%U %S' bash -c 'for _ in $(seq "$2"); do "$0" <"$1" >/dev/null; done' "$3" "$folder/row" "$1"
  done
  awk '{ print 1000 * ($1 + $2) }' "$folder/times" | sort -n | head -1
  rm "$folder/times"
}

compare() { awk -v what="$1" -v one="$2" -v other="$3" -v nothing="$4" -v same="$5" 'BEGIN {
  one -= nothing; other -= same * nothing
  printf "%s: %d ms, %d ms, %.2f times\n", what, one, other, one / (other > 0 ? other : 1) }'; }

rows=$top/crates/test_bank/out/test_bank
compare "a million terms, a million keys" "$(least 1 'interned 1000000' "$rows")" "$(least 1 '' "$folder/map")" "$(least 1 '' "$rows")" 0
compare "5 to the 5, shared and as a tree" "$(least 200 'power 5 5' "$rows")" "$(least 200 'plain 5 5' "$rows")" "$(least 200 '' "$rows")" 1
