% Where two relations lead on from everything, so does a third that holds of their product.
thf(p_type,type,p: $i>$i>$o).
thf(q_type,type,q: $i>$i>$o).
thf(r_type,type,r: $i>$i>$o).
thf(a1,axiom,( ! [X:$i] : ? [Y:$i] : ( p @ X @ Y ) )).
thf(a2,axiom,( ! [X:$i] : ? [Y:$i] : ( q @ X @ Y ) )).
thf(a3,axiom,( ! [X:$i,Y:$i,Z:$i] : ( ( ( p @ X @ Y ) & ( q @ Y @ Z ) ) => ( r @ X @ Z ) ) )).
thf(goal,conjecture,( ! [X:$i] : ? [Y:$i] : ( r @ X @ Y ) )).
