#!/usr/bin/env bash
# Times runs of the search by the built program test_search (built by `rt run` in its crate) beside another program that takes a mode and a
# problem, such as out/satallax: bench/search.sh PROGRAM. Each line has processor seconds and peak memory in KB. The search's refutations
# are made, and neither checked nor written.
set -eu
here=$(dirname -- "$(readlink -f -- "$0")")
rows=$here/../crates/test_search/out/test_search
program=${1:?a program to measure against}
folder=$(mktemp -d)
trap 'rm -r "$folder"' EXIT
python3 "$here/problems.py" "$folder"
for run in "inj.p 20000" "inj.p 1000000" "partial.p 20000" "partial.p 1000000" "pigeons6.p 20000" "pigeons8.p 20000"; do
  read -r problem commands <<<"$run"
  for _ in 1 2 3; do
    /usr/bin/time -f "$run: %U + %S s, %M KB, the other program" "$program" --mode "$folder/c$commands.mode" "$folder/$problem" \
      >/dev/null || true
    /usr/bin/time -f "$run: %U + %S s, %M KB" "$rows" <<<"alone $folder/$problem commands $commands" >/dev/null
  done
done
