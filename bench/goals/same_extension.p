% What holds of a set holds of one with the same members.
thf(h_type,type,h: ($i>$o)>$o).
thf(p_type,type,p: $i>$o).
thf(q_type,type,q: $i>$o).
thf(a1,axiom,( ! [X:$i] : ( ( p @ X ) <=> ( q @ X ) ) )).
thf(a2,axiom,( ( h @ p ) )).
thf(goal,conjecture,( ( h @ q ) )).
