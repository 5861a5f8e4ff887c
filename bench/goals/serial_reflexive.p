% A symmetric and transitive relation that leads on from each thing is reflexive.
thf(r_type,type,r: $i>$i>$o).
thf(a1,axiom,( ! [X:$i,Y:$i] : ( ( r @ X @ Y ) => ( r @ Y @ X ) ) )).
thf(a2,axiom,( ! [X:$i,Y:$i,Z:$i] : ( ( ( r @ X @ Y ) & ( r @ Y @ Z ) ) => ( r @ X @ Z ) ) )).
thf(a3,axiom,( ! [X:$i] : ? [Y:$i] : ( r @ X @ Y ) )).
thf(goal,conjecture,( ! [X:$i] : ( r @ X @ X ) )).
