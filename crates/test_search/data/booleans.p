thf(p,type,p: $o).
thf(q,type,q: $o).
thf(r,type,r: $o > $o).
thf(a,axiom,( p <=> q )).
thf(c,conjecture,( ( r @ p ) => ( r @ q ) )).
