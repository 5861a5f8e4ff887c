thf(p,type,p: $o).
thf(c,type,c: $o).
thf(d1,definition,( c = p )).
thf(d2,definition,( c = ( ~ p ) )).
