thf(p,type,p: $i > $o).
thf(a,axiom,( ? [X:$i] : ( p @ X ) )).
thf(b,axiom,( ? [X:$i] : ( p @ X ) )).
