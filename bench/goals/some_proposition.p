% There is a proposition that follows from p and from q, and implies their disjunction.
thf(p_type,type,p: $o).
thf(q_type,type,q: $o).
thf(goal,conjecture,( ? [R:$o] : ( ( p => R ) & ( q => R ) & ( R => ( p | q ) ) ) )).
