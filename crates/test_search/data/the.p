thf(p,type,p: $i > $o).
thf(a,axiom,( ? [X:$i] : ( p @ X ) )).
thf(u,axiom,( ! [X:$i,Y:$i] : ( ( p @ X ) => ( ( p @ Y ) => ( X = Y ) ) ) )).
thf(g,conjecture,( p @ ( @- [X:$i] : ( p @ X ) ) )).
