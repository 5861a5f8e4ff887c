thf(a,type,a: $o).
thf(b,type,b: $o).
thf(x1,axiom,( a | b )).
thf(x2,axiom,( a | ~ b )).
thf(x3,axiom,( ~ a | b )).
thf(x4,axiom,( ~ a | ~ b )).
