thf(f,type,f: $i > $i).
thf(g,type,g: $i > $i).
thf(d,definition,( ( ^ [X:$i] : ( f @ X ) ) = g )).
