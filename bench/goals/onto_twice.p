% Two functions that reach everything reach everything one after the other.
thf(f_type,type,f: $i>$i).
thf(g_type,type,g: $i>$i).
thf(a1,axiom,( ! [Y:$i] : ? [X:$i] : ( ( f @ X ) = Y ) )).
thf(a2,axiom,( ! [Y:$i] : ? [X:$i] : ( ( g @ X ) = Y ) )).
thf(goal,conjecture,( ! [Y:$i] : ? [X:$i] : ( ( f @ ( g @ X ) ) = Y ) )).
