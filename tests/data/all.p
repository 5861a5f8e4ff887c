thf(a,type,a: $i > $o).
thf(c,type,c: $i).
thf(h,axiom,( ! [X:$i] : ( a @ X ) )).
thf(g,conjecture,( a @ c )).
