% Of four classes: something belongs to the first and to the third.
thf(p_type,type,p: $i>$o).
thf(q_type,type,q: $i>$o).
thf(r_type,type,r: $i>$o).
thf(s_type,type,s: $i>$o).
thf(a1,axiom,( ~ ? [X:$i] : ( ( s @ X ) & ( q @ X ) ) )).
thf(a2,axiom,( ! [X:$i] : ( ( p @ X ) => ( ( q @ X ) | ( r @ X ) ) ) )).
thf(a3,axiom,( ( ~ ? [X:$i] : ( p @ X ) ) => ? [X:$i] : ( q @ X ) )).
thf(a4,axiom,( ! [X:$i] : ( ( ( q @ X ) | ( r @ X ) ) => ( s @ X ) ) )).
thf(goal,conjecture,( ? [X:$i] : ( ( p @ X ) & ( r @ X ) ) )).
