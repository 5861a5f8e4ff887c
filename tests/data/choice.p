thf(pt,type,p: $i > $o).
thf(a,axiom,( ? [X:$i] : ( p @ X ) )).
thf(c,conjecture,( p @ ( @+ [X:$i] : ( p @ X ) ) )).
