thf(c,type,c: $o).
thf(p,type,p: $o).
thf(d,definition,( c <=> ( ~ p ) )).
thf(x,axiom,( p <=> c )).
