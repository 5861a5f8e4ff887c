thf(a,type,a: $i).
thf(b,type,b: $i).
thf(ab,axiom,( a = b )).
thf(ba,conjecture,( b = a )).
