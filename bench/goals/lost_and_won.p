% Of two transitive relations, one of them symmetric, that together hold everywhere, one holds everywhere.
thf(p_type,type,p: $i>$i>$o).
thf(q_type,type,q: $i>$i>$o).
thf(a1,axiom,( ! [X:$i,Y:$i,Z:$i] : ( ( ( p @ X @ Y ) & ( p @ Y @ Z ) ) => ( p @ X @ Z ) ) )).
thf(a2,axiom,( ! [X:$i,Y:$i,Z:$i] : ( ( ( q @ X @ Y ) & ( q @ Y @ Z ) ) => ( q @ X @ Z ) ) )).
thf(a3,axiom,( ! [X:$i,Y:$i] : ( ( q @ X @ Y ) => ( q @ Y @ X ) ) )).
thf(a4,axiom,( ! [X:$i,Y:$i] : ( ( p @ X @ Y ) | ( q @ X @ Y ) ) )).
thf(goal,conjecture,( ( ! [X:$i,Y:$i] : ( p @ X @ Y ) ) | ( ! [X:$i,Y:$i] : ( q @ X @ Y ) ) )).
