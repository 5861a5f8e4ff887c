#!/usr/bin/env bash
# Compares the program with another one that has the same words on three large problems: bench/large.sh PROGRAM OTHER [RUNS]. `large.py` makes
# the problems: 16 MiB of equal axioms and 16 MiB of disjunctions over 1,000 names, with no command carried out, and 100,000 bytes with
# one name of a big type, with 20,000 commands. Each line: the seconds (user and system) and the memory of both, the least of RUNS (five)
# runs each by turns, and their ratios.
set -eu
here=$(dirname -- "$(readlink -f -- "$0")")
. "$here/by_turns.sh"
echo "commands 0" >"$folder/none.mode"
echo "commands 20000" >"$folder/many.mode"

for row in "equal none" "disjunctions none" "types many"; do
  read -r kind mode <<<"$row"
  python3 "$here/large.py" "$kind" >"$folder/$kind.p"
  compare "$kind" --mode "$folder/$mode.mode" "$folder/$kind.p"
done
