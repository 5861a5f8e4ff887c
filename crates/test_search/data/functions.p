thf(f,type,f: $i > $i).
thf(g,type,g: $i > $i).
thf(a,axiom,( ! [X:$i] : ( ( f @ X ) = ( g @ X ) ) )).
thf(c,conjecture,( f = g )).
