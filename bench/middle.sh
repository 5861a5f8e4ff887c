#!/usr/bin/env bash
# Compares the program with another one that has the same words on searches of 300,000 commands: bench/middle.sh PROGRAM OTHER [RUNS]. The
# problems are those of `bench/middle`, none of which is decided. Each line: the seconds (user and system) and the memory of both, the
# least of RUNS (five) runs each by turns, and their ratios.
set -eu
here=$(dirname -- "$(readlink -f -- "$0")")
. "$here/by_turns.sh"
echo "commands 300000" >"$folder/middle.mode"

for problem in "$here"/middle/*.p; do
  compare "$(basename "$problem" .p)" --mode "$folder/middle.mode" "$problem"
done
