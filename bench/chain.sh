#!/usr/bin/env bash
# Times chains of N implications from the first name to the last, in this order and in the reverse one: bench/chain.sh [N ..]
# Milliseconds are of a processor, the least of five calls. SATALLAX names another program than out/satallax.
set -eu
top=$(dirname -- "$(dirname -- "$(readlink -f -- "$0")")")
program=$(readlink -f -- "${SATALLAX:-$top/out/satallax}")
folder=$(mktemp -d)
trap 'rm -r "$folder"' EXIT

# The links of a chain are written by the numbers that are read.
chain() {
  for i in $(seq 0 "$1"); do echo "thf(p$i,type,p$i: \$o)."; done
  echo "thf(first,axiom,p0)."
  while read -r i; do echo "thf(a$i,axiom,( p$i => p$((i + 1)) ))."; done
  echo "thf(last,conjecture,p$1)."
}

# The processor milliseconds of the fastest of five calls with these words; what is printed stays in the file `out`.
least() {
  local TIMEFORMAT='%U %S'
  for _ in 1 2 3 4 5; do
    { time "$program" "$@" >"$folder/out" || true; } 2>&1
  done | awk '{ print int(1000 * ($1 + $2)) }' | sort -n | head -n 1
}

for n in "${@:-200}"; do
  seq 0 $((n - 1)) | chain "$n" >"$folder/forward.p"
  seq $((n - 1)) -1 0 | chain "$n" >"$folder/backward.p"
  for order in forward backward; do
    least=$(least "$folder/$order.p")
    echo "$n $order: $least ms, $(sed -n 2p "$folder/out"), $(wc -c <"$folder/out") bytes"
  done
done
