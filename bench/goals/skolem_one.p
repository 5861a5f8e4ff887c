% Where each thing is related to some thing, a function finds one.
thf(r_type,type,r: $i>$i>$o).
thf(a1,axiom,( ! [X:$i] : ? [Y:$i] : ( r @ X @ Y ) )).
thf(goal,conjecture,( ? [F:$i>$i] : ! [X:$i] : ( r @ X @ ( F @ X ) ) )).
