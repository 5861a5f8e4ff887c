thf(f,type,f: $i > $i).
thf(g,type,g: $i > $i).
thf(d,definition,( g = ( ^ [X:$i] : ( f @ X ) ) )).
