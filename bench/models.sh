#!/usr/bin/env bash
# Times the search for finite models: bench/models.sh. For each problem the bound, the processor time of the whole call in milliseconds, the
# least of five calls, and the last line of the report. Where the number of nodes that the search evaluates is known, it says how many that
# is a second. SATALLAX names another program than out/satallax.
set -eu
top=$(dirname -- "$(dirname -- "$(readlink -f -- "$0")")")
program=$(readlink -f -- "${SATALLAX:-$top/out/satallax}")
folder=$(mktemp -d)
trap 'rm -r "$folder"' EXIT

# 19 propositions and an axiom that is false, with all of them: 524,288 candidates, each of which is looked at.
propositions() {
  seq 0 18 | sed 's/.*/thf(p&_type,type,p&: $o)./'
  echo "thf(no,axiom,( ~ ( $(seq 18 -1 0 | sed 's/.*/( p& => p& ) \&/' | tr '\n' ' ') ~ \$false ) ))."
}

# The same with an axiom of ten nodes, all of which are evaluated in each candidate.
ten() {
  seq 0 18 | sed 's/.*/thf(p&_type,type,p&: $o)./'
  echo 'thf(no,axiom,( ~ ( ( ~ ( p0 = p18 ) ) = ( ~ ( p0 = p18 ) ) ) )).'
}

# An injection that isn't onto: 823,543 candidates at size 7.
onto() {
  echo 'thf(f,type,f: $i > $i).'
  echo 'thf(one,axiom,( ! [X:$i,Y:$i] : ( ( ( f @ X ) = ( f @ Y ) ) => ( X = Y ) ) )).'
  echo 'thf(onto,axiom,( ~ ! [Y:$i] : ? [X:$i] : ( ( f @ X ) = Y ) )).'
}

# A strict order without end, with a set declared before it: 1,048,576 candidates at size 4.
order() {
  echo 'thf(p,type,p: $i > $o).'
  echo 'thf(r,type,r: $i > $i > $o).'
  echo 'thf(transitive,axiom,( ! [X:$i,Y:$i,Z:$i] : ( ( r @ X @ Y ) => ( ( r @ Y @ Z ) => ( r @ X @ Z ) ) ) )).'
  echo 'thf(serial,axiom,( ! [X:$i] : ? [Y:$i] : ( r @ X @ Y ) )).'
  echo 'thf(irreflexive,axiom,( ! [X:$i] : ~ ( r @ X @ X ) )).'
}

# Three quantifiers, two of them over predicates of predicates, and a body that is true everywhere.
quantified() { # the body
  echo "thf(p,type,p: \$o)."
  echo "thf(no,axiom,( ~ ! [F: ( \$i > \$o ) > \$o,G: ( \$i > \$o ) > \$o,X: \$i > \$o] : ( $1 ) ))."
}

# Each variable occurs: 2^19 bodies at size 3. Half of them have 5 nodes, a quarter 10 and a quarter 14. At size 4 there would be 2^36.
nested() { quantified '( F @ X ) => ( ( G @ X ) => ( F @ X ) )'; }

# G doesn't occur: 2^20 bodies at size 4, half of them with 5 nodes and half with 9.
unused() { quantified '( F @ X ) => ( F @ X )'; }

# No variable occurs: one body.
constant() { quantified 'p => p'; }

# No variable occurs within the inner quantifiers, which are evaluated for each F.
inner() { echo 'thf(no,axiom,( ~ ! [F: ( $i > $o ) > $o] : ( ( F = F ) & ! [G: ( $i > $o ) > $o,X: $i > $o] : ~ $false ) )).'; }

measure() { # the bound, the problem's name, how many nodes are evaluated
  local least='' used
  for _ in 1 2 3 4 5; do
    TIMEFORMAT='%U %S'
    used=$({ time "$program" --models "$1" "$folder/$2.p" >"$folder/out" || true; } 2>&1 | awk '{print int(1000 * ($1 + $2))}')
    if [ -z "$least" ] || [ "$used" -lt "$least" ]; then least=$used; fi
  done
  echo "--models $1 $2.p: $least ms, $(tail -n 1 "$folder/out")"
  if [ -n "${3-}" ] && [ "$least" -gt 0 ]; then echo "  $3 nodes, $((1000 * $3 / least)) a second"; fi
}

for problem in propositions ten onto order nested unused constant inner; do "$problem" >"$folder/$problem.p"; done
measure 1 propositions
measure 1 ten 5242880
measure 7 onto
measure 4 order
measure 2 nested
measure 3 nested 4456448
measure 3 unused
measure 4 unused 7340032
measure 4 constant
measure 4 inner
