#!/usr/bin/env bash
# Tests tools/within and tools/hammer over the built program: what a call prints and its status are handed on, and where the time ends first
# the line and the status are theirs. The program is out/satallax, or the one that SATALLAX names. Ends with 1 where another thing comes.
set -u
top=$(readlink -f -- "$(dirname -- "$(readlink -f -- "$0")")/..")
SATALLAX=$(readlink -f -- "${SATALLAX:-$top/out/satallax}")
export SATALLAX
cd "$top" || exit 1
wrong=0
expect() { # what is printed, the status, and the words of a command
  local wanted=$1 status=$2 came ended=0
  shift 2
  came=$("$@" 2>/dev/null) || ended=$?
  if [ "$came" = "$wanted" ] && [ "$ended" = "$status" ]; then echo "$status: $*"; else echo "$status wanted, $ended came: $*"; wrong=1; fi
}
for words in examples/true.p '--mode modes/late_terms.mode examples/same.p' '--same examples/true.p'; do
  status=0
  # shellcheck disable=SC2086
  report=$("$SATALLAX" $words) || status=$?
  # shellcheck disable=SC2086
  expect "$report" "$status" tools/within 100 --memory 4000 $words
done
expect '% SZS status Timeout for bench/middle/groups.p' 9 tools/within 0.1 --mode modes/long.mode bench/middle/groups.p
expect '% SZS status Timeout for bench/middle/groups.p' 9 tools/hammer bench/middle/groups.p 0.1
expect "$("$SATALLAX" --schedule modes/hammer.schedule examples/true.p)" 0 tools/hammer examples/true.p
expect '' 14 tools/within 1
expect '' 14 tools/within 1 --memory many examples/true.p
expect '' 14 tools/hammer
expect '' 69 env SATALLAX=/nowhere tools/within 1 examples/true.p
exit "$wrong"
