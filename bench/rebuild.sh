#!/usr/bin/env bash
# Times how the refutation of a log of N results over branches of 2,000 literals is rebuilt, in processor time, with its peak memory:
# bench/rebuild.sh [N ..]. The names have 20 letters before their numbers, or as many as LETTERS says.
set -eu
here=$(dirname -- "$(readlink -f -- "$0")")
folder=$(mktemp -d)
trap 'rm -r "$folder"' EXIT

python3 "$here/rebuild.py" "$(dirname -- "$here")" "$folder/main.rs"
rustc -O --edition 2021 -A warnings -o "$folder/rebuild" "$folder/main.rs"
for n in "${@:-1000}"; do
  for _ in 1 2 3; do "$folder/rebuild" "$n" 2000 "${LETTERS:-20}"; done
done
