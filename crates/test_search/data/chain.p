thf(p,type,p: $o).
thf(q,type,q: $o).
thf(a,axiom,p).
thf(b,axiom,( p => q )).
thf(c,conjecture,q).
