#!/usr/bin/env bash
# Runs the built program over deep and wide inputs with a stack of 8 MB and 4 GB of addresses, at most 60 s each, and tells of each its exit
# status, seconds and greatest memory: tests/deep.sh [FOLDER], where FOLDER has a file `calls` with the words of a call a line and the files
# that they name; without it the inputs of tests/deep.py are run. Ends with 1 where a status comes that isn't one of docs/REPORTS.md.
set -eu
here=$(dirname -- "$(readlink -f -- "$0")")
program=$(readlink -f -- "${SATALLAX:-$here/../out/satallax}")
room=$(mktemp -d)
trap 'rm -rf -- "$room"' EXIT
folder=${1:-$room/inputs}
[ $# -gt 0 ] || python3 "$here/deep.py" "$folder"
cd -- "$folder"
ulimit -s 8192
ulimit -v 4000000
wrong=0
while read -r -a words; do
  status=0
  command time -o "$room/times" -f '%U s %M KB' timeout 60 "$program" "${words[@]}" >/dev/null 2>&1 || status=$?
  told=$(tail -n 1 "$room/times")
  case $status in
    [0-8] | 1[0-57] | 18 | 20 | 21 | 30) ;;
    124) told='no answer in 60 s' ;;
    *) wrong=1 ;;
  esac
  echo "status $status, $told: ${words[*]}"
done <calls
exit "$wrong"
