% Equivalence is associative.
thf(p_type,type,p: $o).
thf(q_type,type,q: $o).
thf(r_type,type,r: $o).
thf(s_type,type,s: $o).
thf(goal,conjecture,( ( ( ( p <=> q ) <=> r ) <=> s ) <=> ( p <=> ( q <=> ( r <=> s ) ) ) )).
