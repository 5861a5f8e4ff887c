thf(p,type,p: $o).
thf(q,type,q: $o).
thf(d1,definition,( p = ( $true ) )).
thf(d2,definition,( q <=> ( p & p ) )).
thf(c,conjecture,q).
