#!/usr/bin/env bash
# Times whole calls of the built program, as a table for docs/SPEED.md: bench/calls.sh [OTHER], where OTHER is another program with the same
# words, such as the one before a change, called by turns with ours. Each line: the call, the processor seconds (user and system), the least
# of five calls (three of a million commands), and the most memory; then the same of OTHER, and the ratio of the seconds. The pigeonhole
# problem comes to minisat too, as clauses, and to cvc5, as the same file, where these are there (Debian's packages). SATALLAX names another
# program than out/satallax.
set -eu
top=$(dirname -- "$(dirname -- "$(readlink -f -- "$0")")")
program=$(readlink -f -- "${SATALLAX:-$top/out/satallax}")
other=${1-}
folder=$(mktemp -d)
trap 'rm -r "$folder"' EXIT

# Adds the seconds and the kilobytes of one run of a command to a file, whatever its status: run FILE COMMAND ..
run() { /usr/bin/time -q -a -o "$1" -f '%U %S %M' "${@:2}" >/dev/null 2>&1 || true; }

# The least seconds and the most memory in a file.
told() { awk '{ s = $1 + $2; if (NR == 1 || s < least) least = s; if ($3 > most) most = $3 }
  END { printf "%.2f %.0f", least, most / 1024 }' "$1"; }

call() { # how many runs, what it is, the words
  local runs=$1 what=$2
  shift 2
  rm -f "$folder/ours" "$folder/others"
  for _ in $(seq "$runs"); do
    run "$folder/ours" "$program" "$@"
    [ -z "$other" ] || run "$folder/others" "$other" "$@"
  done
  tell "$what" "$(told "$folder/ours")" "$([ -z "$other" ] || told "$folder/others")"
}

beside() { # what it is, the command
  rm -f "$folder/others"
  for _ in 1 2 3 4 5; do run "$folder/others" "${@:2}"; done
  tell "$1" "$(told "$folder/others")" ''
}

tell() { awk -v what="$1" -v ours="$2" -v others="$3" 'BEGIN {
  split(ours, a); line = sprintf("| %s | %s s | %s MB |", what, a[1], a[2])
  if (others != "") {
    split(others, b)
    line = line sprintf(" %s s | %s MB | %s |", b[1], b[2], b[1] > 0 ? sprintf("%.2f", a[1] / b[1]) : "")
  }
  print line }'; }

python3 "$top/bench/problems.py" "$folder"
python3 "$top/bench/solver_problems.py" "$folder"
"$program" "$folder/pigeons6.p" >"$folder/pigeons6.txt"
megabytes() { awk -v bytes="$(wc -c <"$1")" 'BEGIN { printf "%.1f", bytes / 1000000 }'; }

if [ -z "$other" ]; then
  printf '| Call | Time | Memory |\n|---|---|---|\n'
else
  printf '| Call | Time | Memory | OTHER | | Times |\n|---|---|---|---|---|---|\n'
fi

call 5 "nine pigeons, proved, $(megabytes <("$program" "$folder/pigeons8.p")) MB of text written" "$folder/pigeons8.p"
if command -v minisat >/dev/null; then beside 'minisat, their clauses' minisat -verb=0 "$folder/pigeons9.cnf" /dev/null; fi
if command -v cvc5 >/dev/null; then beside 'cvc5, the same file, no proof' cvc5 --lang=tptp "$folder/pigeons8.p"; fi
call 5 "seven pigeons, $(megabytes "$folder/pigeons6.txt") MB of text checked" --check "$folder/pigeons6.txt" "$folder/pigeons6.p"
call 5 '20,000 commands of inj.p' "$folder/inj.p"
call 3 '1,000,000 commands of inj.p' --mode "$folder/c1000000.mode" "$folder/inj.p"
call 5 '20,000 commands of partial.p' "$folder/partial.p"
call 3 '1,000,000 commands of partial.p' --mode "$folder/c1000000.mode" "$folder/partial.p"
call 5 '`--demo 200`' --demo 200
call 5 '`--demo 1000`' --demo 1000
