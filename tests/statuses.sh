#!/usr/bin/env bash
# Runs the built program to the exit statuses that the system brings about: words that aren't text (18), an output that takes nothing (21),
# and out of memory (30), by a limit that is set from outside. No case has 18 or 30: files in memory always have names that are text, and
# memory doesn't run out there. Ends with 1 where another status comes.
set -eu
here=$(dirname -- "$(readlink -f -- "$0")")
program=$(readlink -f -- "${SATALLAX:-$here/../out/satallax}")
problem=$here/../examples/true.p
wrong=0
expect() { # the status, and what was done
  if [ "$status" = "$1" ]; then echo "$1: $2"; else echo "$1 wanted, $status came: $2"; wrong=1; fi
}
status=0
"$program" $'\xff' >/dev/null 2>&1 || status=$?
expect 18 'a word that is no text'
status=0
"$program" "$problem" >/dev/full 2>&1 || status=$?
expect 21 'an output that is full'
for space in $(seq 2000 20 20000); do
  status=0
  (ulimit -v "$space"; "$program" "$problem") >/dev/null 2>&1 || status=$?
  if [ "$status" = 30 ]; then break; fi
done
expect 30 "an address space of $space KB"
exit "$wrong"
