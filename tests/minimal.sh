#!/usr/bin/env bash
# Tests tools/minimal over the built program: which facts and definitions it keeps and which it drops, and that the problem that it prints
# is proved. The program is out/satallax, or the one that SATALLAX names. Ends with 1 where another thing comes.
set -u
top=$(readlink -f -- "$(dirname -- "$(readlink -f -- "$0")")/..")
SATALLAX=$(readlink -f -- "${SATALLAX:-$top/out/satallax}")
export SATALLAX
folder=$(mktemp -d)
trap 'rm -r "$folder"' EXIT
cd "$folder" || exit 1
wrong=0
expect() { # what it is, and the comments that are wanted; problem.p is asked
  "$top/tools/minimal" problem.p 10 >small.p || echo "% status $?" >>small.p
  "$SATALLAX" small.p >report
  if [ "$(grep '^% ' small.p)" = "$2" ] && grep -q '^% SZS output start' report; then echo "$1"; else
    echo "$1: came"; grep '^% ' small.p; wrong=1
  fi
}
types='thf(a_type,type,a:$i). thf(p_type,type,p:$i>$o). thf(q_type,type,q:$i>$o). thf(s_type,type,(some:$tType)). thf(b_type,type,b:some).'
cat >facts.ax <<END
thf(other,axiom,q@a).
thf('it holds',axiom,p@a).
thf(again,axiom,p@a).
END
printf '%s\n' "$types" "include('facts.ax')." "thf(goal,conjecture,p@a)." >problem.p
expect 'the first of two equal facts, of an included file' "% fact 'it holds'
% dropped other
% dropped again"
printf '%s\n' "$types" 'thf(r_type,type,r:$i>$o).' 'thf(p_is,definition,p=(^[X:$i]:(q@X))).' 'thf(r_is,definition,r=p).' \
  'thf(it,axiom,q@a).' 'thf(goal,conjecture,r@a).' >problem.p
expect 'definitions that are put in' '% definition p_is
% definition r_is
% fact it'
printf '%s\n' "$types" 'thf(p_is,definition,p=(^[X:$i]:(q@X))).' 'thf(p_too,definition,p=q).' 'thf(it,axiom,q@a).' \
  'thf(goal,conjecture,q@a).' >problem.p
expect 'definitions that are not used' '% fact it
% dropped p_is
% dropped p_too'
printf '%s\n' "$types" 'thf(one,axiom,p@a).' 'thf(two,axiom,q@a).' 'thf(three,axiom,~(p@a)).' >problem.p
expect 'no conjecture' '% fact one
% fact three
% dropped two'
printf '%s\n' "$types" 'thf(goal,conjecture,p@a).' >problem.p
ended=0
"$top/tools/minimal" problem.p 1 >small.p || ended=$?
if [ "$ended" = 1 ] && grep -q '^% SZS status GaveUp for problem.p' small.p; then echo 'no proof'; else echo "no proof: $ended"; wrong=1; fi
exit "$wrong"
