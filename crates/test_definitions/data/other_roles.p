thf(c,type,c: $o).
thf(x,axiom,( c = $true )).
thf(y,hypothesis,( c = $true )).
