% A relation that relates each thing to exactly one is the graph of a function.
thf(r_type,type,r: $i>$i>$o).
thf(a1,axiom,( ! [X:$i] : ? [Y:$i] : ( ( r @ X @ Y ) & ! [Z:$i] : ( ( r @ X @ Z ) => ( Z = Y ) ) ) )).
thf(goal,conjecture,( ? [F:$i>$i] : ! [X:$i,Y:$i] : ( ( r @ X @ Y ) <=> ( ( F @ X ) = Y ) ) )).
