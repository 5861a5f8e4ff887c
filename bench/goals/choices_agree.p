% Of predicates with the same members the same thing is chosen.
thf(p_type,type,p: $i>$o).
thf(q_type,type,q: $i>$o).
thf(a1,axiom,( ! [X:$i] : ( ( p @ X ) <=> ( q @ X ) ) )).
thf(goal,conjecture,( ( @+ [X:$i] : ( p @ X ) ) = ( @+ [X:$i] : ( q @ X ) ) )).
