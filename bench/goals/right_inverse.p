% A function that reaches everything has a right inverse.
thf(f_type,type,f: $i>$i).
thf(a1,axiom,( ! [Y:$i] : ? [X:$i] : ( ( f @ X ) = Y ) )).
thf(goal,conjecture,( ? [G:$i>$i] : ! [Y:$i] : ( ( f @ ( G @ Y ) ) = Y ) )).
