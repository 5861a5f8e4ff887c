% Three functions one after the other are one to one where each of them is.
thf(f,type,f: $i > $i).
thf(g,type,g: $i > $i).
thf(h,type,h: $i > $i).
thf(one_f,axiom,( ! [X:$i,Y:$i] : ( ( ( f @ X ) = ( f @ Y ) ) => ( X = Y ) ) )).
thf(one_g,axiom,( ! [X:$i,Y:$i] : ( ( ( g @ X ) = ( g @ Y ) ) => ( X = Y ) ) )).
thf(one_h,axiom,( ! [X:$i,Y:$i] : ( ( ( h @ X ) = ( h @ Y ) ) => ( X = Y ) ) )).
thf(all,conjecture,( ! [X:$i,Y:$i] : ( ( ( f @ ( g @ ( h @ X ) ) ) = ( f @ ( g @ ( h @ Y ) ) ) ) => ( X = Y ) ) )).
