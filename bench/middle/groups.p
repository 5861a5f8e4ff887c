% The axioms of groups: first-order equations, with instances and confrontations and no partial terms.
thf(e,type,e: $i).
thf(inverse,type,inverse: $i > $i).
thf(times,type,times: $i > $i > $i).
thf(left,axiom,( ! [X:$i] : ( ( times @ e @ X ) = X ) )).
thf(inverses,axiom,( ! [X:$i] : ( ( times @ ( inverse @ X ) @ X ) = e ) )).
thf(associative,axiom,( ! [X:$i,Y:$i,Z:$i] : ( ( times @ ( times @ X @ Y ) @ Z ) = ( times @ X @ ( times @ Y @ Z ) ) ) )).
thf(goal,conjecture,( ! [X:$i,Y:$i] : ( ( times @ X @ Y ) = ( times @ Y @ X ) ) )).
