% Two true propositions are taken to the same thing.
thf(h_type,type,h: $o>$i).
thf(p_type,type,p: $o).
thf(q_type,type,q: $o).
thf(a1,axiom,( p )).
thf(a2,axiom,( q )).
thf(goal,conjecture,( ( h @ p ) = ( h @ q ) )).
