% A map of groups takes the neutral element to one that is its own square.
thf(op_type,type,op: $i>$i>$i).
thf(h_type,type,h: $i>$i).
thf(e_type,type,e: $i).
thf(a1,axiom,( ! [X:$i] : ( ( op @ e @ X ) = X ) )).
thf(a2,axiom,( ! [X:$i,Y:$i] : ( ( h @ ( op @ X @ Y ) ) = ( op @ ( h @ X ) @ ( h @ Y ) ) ) )).
thf(goal,conjecture,( ( op @ ( h @ e ) @ ( h @ e ) ) = ( h @ e ) )).
