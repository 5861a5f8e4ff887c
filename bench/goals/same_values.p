% Functions with the same values are the same, under another function.
thf(f_type,type,f: $i>$i>$i).
thf(g_type,type,g: $i>$i>$i).
thf(h_type,type,h: ($i>$i>$i)>$i).
thf(a1,axiom,( ! [X:$i,Y:$i] : ( ( f @ X @ Y ) = ( g @ X @ Y ) ) )).
thf(goal,conjecture,( ( h @ f ) = ( h @ g ) )).
