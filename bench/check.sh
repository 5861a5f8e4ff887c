#!/usr/bin/env bash
# Times the check of texts of N lines over branches of N literals: bench/check.sh [N ..]
# Milliseconds are of a processor, the least of five calls. SATALLAX names another program than out/satallax.
set -eu
top=$(dirname -- "$(dirname -- "$(readlink -f -- "$0")")")
program=$(readlink -f -- "${SATALLAX:-$top/out/satallax}")
folder=$(mktemp -d)
trap 'rm -r "$folder"' EXIT

# Each of the names is an axiom, and the first one's negation is one too.
problem() {
  seq 0 $(($1 - 1)) | sed 's/.*/thf(p&_type,type,p&: $o)./'
  seq 0 $(($1 - 1)) | sed 's/.*/thf(a&,axiom,p&)./'
  echo "thf(b,axiom,~ p0)."
}

# Each line has the same branch, which is closed; each but the first one cuts, and has the line before it as both children.
text() {
  local branch
  branch="+p0,-p0$(seq 1 $(($1 - 2)) | sed 's/.*/,+p&/' | tr -d '\n')"
  printf '%% SZS output start Refutation for g\nversion 1\n0: Close(0,1) [%s] []\n' "$branch"
  for k in $(seq 1 $(($1 - 1))); do printf '%s: Cut(+p%s) [%s] [%s,%s]\n' "$k" "$k" "$branch" $((k - 1)) $((k - 1)); done
  echo "% SZS output end Refutation for g"
}

# The processor milliseconds of the fastest of five calls with these words; what is printed stays in the file `out`.
least() {
  local TIMEFORMAT='%U %S'
  for _ in 1 2 3 4 5; do
    { time "$program" "$@" >"$folder/out" || true; } 2>&1
  done | awk '{ print int(1000 * ($1 + $2)) }' | sort -n | head -n 1
}

[ $# -gt 0 ] || set -- 400 800 1600
for n in "$@"; do
  problem "$n" >"$folder/g.p"
  text "$n" >"$folder/g.txt"
  least=$(least --check "$folder/g.txt" "$folder/g.p")
  echo "$n: $least ms, $(wc -c <"$folder/g.txt") bytes, $(cat "$folder/out")"
done
