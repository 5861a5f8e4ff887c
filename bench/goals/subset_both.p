% Sets that are parts of each other are the same.
thf(a_type,type,a: $i>$o).
thf(b_type,type,b: $i>$o).
thf(a1,axiom,( ! [X:$i] : ( ( a @ X ) => ( b @ X ) ) )).
thf(a2,axiom,( ! [X:$i] : ( ( b @ X ) => ( a @ X ) ) )).
thf(goal,conjecture,( a = b )).
