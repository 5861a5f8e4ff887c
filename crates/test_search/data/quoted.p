thf(t,type,'q': $o).
thf(a,axiom,q).
thf(c,conjecture,'q').
