% Sets that share all properties have the same members.
thf(s_type,type,s: $i>$o).
thf(t_type,type,t: $i>$o).
thf(a1,axiom,( ! [P:($i>$o)>$o] : ( ( P @ s ) => ( P @ t ) ) )).
thf(goal,conjecture,( ! [X:$i] : ( ( s @ X ) => ( t @ X ) ) )).
