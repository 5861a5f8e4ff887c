#!/usr/bin/env bash
# Times rows of the built program test_tables: bench/tables.sh
# 50,000 and 100,000 confrontations over 1,000 atoms are kept. 1,000 literals with ten partners each are noted 10,000 times, among 1,000
# and among 100,000 literals of another head; what the same rows take without a round is taken off. Each line: the least milliseconds of
# processor time of five runs of both, and their ratio.
set -eu
top=$(dirname -- "$(dirname -- "$(readlink -f -- "$0")")")
program=$top/crates/test_tables/out/test_tables
log=$(mktemp)
trap 'rm "$log"' EXIT
[ -x "$program" ] || (cd "$top/crates/test_tables" && rt run <stdin >"$log" 2>&1) || { cat "$log"; exit 1; }

exec python3 - "$program" <<'END'
import resource
import subprocess
import sys


def spent():
    usage = resource.getrusage(resource.RUSAGE_CHILDREN)
    return usage.ru_utime + usage.ru_stime


def least(row):
    times = []
    for _ in range(5):
        before = spent()
        subprocess.run(sys.argv[1:2], input=row + "\n", text=True, check=True, stdout=subprocess.DEVNULL)
        times.append(spent() - before)
    return 1000 * min(times)


def compare(what, few, many):
    print(f"{what}: {few:.0f} ms, {many:.0f} ms, {many / few:.2f} times")


compare("50,000 and 100,000 confrontations", least("kept 50000"), least("kept 100000"))
few, many = (least(f"noted {n} 10000") - least(f"noted {n} 0") for n in (1000, 100000))
compare("10,000,000 notes among 1,000 and 100,000", few, many)
END
