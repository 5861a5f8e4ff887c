% That not all three hold is that one of them fails.
thf(p_type,type,p: $o).
thf(q_type,type,q: $o).
thf(r_type,type,r: $o).
thf(goal,conjecture,( ( ~ ( p & q & r ) ) <=> ( ( ~ p ) | ( ~ q ) | ~ r ) )).
