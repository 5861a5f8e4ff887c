# What the scripts share that take this file in: two programs with the same words by turns, named by the script's arguments PROGRAM OTHER
# [RUNS]. `compare NAME ARGUMENT ..` calls both RUNS times (five), and prints a line: the seconds (user and system) and the memory of both,
# the least of the runs each, and their ratios. `folder` is for the script's files.
program=${1:?a program}
other=${2:?a program to measure against}
runs=${3:-5}
folder=$(mktemp -d)
trap 'rm -r "$folder"' EXIT

# Adds the seconds and the memory of one run of a command to a file: run FILE COMMAND ..
run() {
  local times=$1
  shift
  /usr/bin/time -q -a -o "$times" -f "%U %S %M" "$@" >/dev/null || true
}

# The least seconds, and the least memory in MB, of a file of runs.
least() {
  awk 'NR == 1 || $1 + $2 < s { s = $1 + $2 } NR == 1 || $3 < m { m = $3 } END { print s, m / 1024 }' "$1"
}

compare() {
  local name=$1 s m t n
  shift
  rm -f "$folder/ours" "$folder/others"
  for _ in $(seq "$runs"); do
    run "$folder/ours" "$program" "$@"
    run "$folder/others" "$other" "$@"
  done
  read -r s m < <(least "$folder/ours")
  read -r t n < <(least "$folder/others")
  awk -v name="$name" -v s="$s" -v m="$m" -v t="$t" -v n="$n" '
    BEGIN { printf "%s: %.2f s, %.0f MB, the other %.2f s, %.0f MB; %.2f and %.2f times\n", name, s, m, t, n, s / t, m / n }'
}
