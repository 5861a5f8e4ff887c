% Of three truth values two are taken to the same thing.
thf(h_type,type,h: $o>$i).
thf(p_type,type,p: $o).
thf(q_type,type,q: $o).
thf(r_type,type,r: $o).
thf(goal,conjecture,( ( ( h @ p ) = ( h @ q ) ) | ( ( h @ q ) = ( h @ r ) ) | ( ( h @ p ) = ( h @ r ) ) )).
