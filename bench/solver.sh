#!/usr/bin/env bash
# Compares programs on problems in DIMACS: bench/solver.sh [COMMAND ..]
# Without a word it is the built test_dimacs. Each command is one word, such as an old test_dimacs, and reads a problem from its input; beside
# them run Debian's minisat and cadical, and minisat without deletion (bench/minisat_kept.sh), those of them that are there.
# Each line: a family of problems, its number, and for each program the seconds of the family, the sum of the least of RUNS (3) runs for each
# problem, and how often the first program's that is. The programs run by turns.
set -eu
here=$(dirname -- "$(readlink -f -- "$0")")
programs=("${@:-$here/../crates/test_dimacs/out/test_dimacs}")
for other in minisat cadical minisat-kept; do if command -v "$other" >/dev/null; then programs+=("$other"); fi; done
folder=$(mktemp -d)
trap 'rm -r "$folder"' EXIT
python3 "$here/solver_problems.py" "$folder"
TIMEFORMAT=%3U

run() { # the program, the problem
  case $1 in
    minisat) minisat -verb=0 "$2" /dev/null ;;
    minisat-kept) minisat-kept -verb=0 -no-pre "$2" /dev/null ;;
    *) "$1" <"$2" ;;
  esac >"$folder/answer" 2>&1 || true
}

for family in pigeons8 pigeons9 renamed8 reordered9 renamed9 random150 random200 colouring parity urquhart miter6 wide10000; do
  rm -f "$folder"/times.*
  for problem in "$folder/$family".cnf "$folder/${family}_"*.cnf; do
    [ -e "$problem" ] || continue
    rm -f "$folder"/runs.*
    for _ in $(seq "${RUNS:-3}"); do
      for i in "${!programs[@]}"; do { time run "${programs[$i]}" "$problem"; } 2>>"$folder/runs.$i"; done
    done
    for i in "${!programs[@]}"; do sort -n "$folder/runs.$i" | head -n 1 >>"$folder/times.$i"; done
  done
  printf '%s:' "$family"
  first=
  for i in "${!programs[@]}"; do
    sum=$(awk '{ sum += $1 } END { printf "%.3f", sum }' "$folder/times.$i")
    first=${first:-$sum}
    printf ' %s %s s' "$(basename "${programs[$i]}")" "$sum"
    if [ "$i" != 0 ]; then awk -v a="$sum" -v b="$first" 'BEGIN { if (b > 0) printf " (%.2f)", a / b }'; fi
  done
  echo
done
