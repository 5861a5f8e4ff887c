% What comes back after three steps and after five is fixed.
thf(f_type,type,f: $i>$i).
thf(a_type,type,a: $i).
thf(a1,axiom,( ( f @ ( f @ ( f @ a ) ) ) = a )).
thf(a2,axiom,( ( f @ ( f @ ( f @ ( f @ ( f @ a ) ) ) ) ) = a )).
thf(goal,conjecture,( ( f @ a ) = a )).
