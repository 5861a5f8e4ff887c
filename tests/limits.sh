#!/usr/bin/env bash
# Runs the built program over the examples and the calls of tests/data with a stack of 8 MB and address spaces of 1, 2 and 4 GB, and tells
# each exit status that isn't one of docs/REPORTS.md: tests/limits.sh [FOLDER], where FOLDER has further problems. Its last line counts the
# runs. Ends with 1 where such a status came.
set -eu
here=$(dirname -- "$(readlink -f -- "$0")")
top=$here/..
program=$(readlink -f -- "${SATALLAX:-$top/out/satallax}")
folder=${1:+$(readlink -f -- "$1")}
runs=0
wrong=0
run() { # the words
  for space in 1000000 2000000 4000000; do
    status=0
    (ulimit -s 8192; ulimit -v "$space"; timeout 100 "$program" "$@") >/dev/null 2>&1 || status=$?
    runs=$((runs + 1))
    case $status in
      [0-8] | 1[0-57] | 18 | 20 | 21 | 30) ;;
      *) wrong=$((wrong + 1)); echo "status $status with $space KB: $*" ;;
    esac
  done
}
for problem in "$top"/examples/*.p ${folder:+"$folder"/*.p}; do
  run "$problem"
  run --mode "$top/modes/late_terms.mode" "$problem"
  run --models 2 "$problem"
  run --tree 200 "$problem"
  run --same "$problem"
done
run --mode "$top/modes/long.mode" "$top/examples/complement.p"
run --demo 1000
cd -- "$here/data"
while read -r -a words; do
  case ${words[0]:-#} in
    '#') ;;
    *) run "${words[@]}" ;;
  esac
done <calls
echo "$runs runs, $wrong with a status that isn't documented"
[ "$wrong" = 0 ]
