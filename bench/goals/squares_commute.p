% Where each square is the neutral element, products commute.
thf(op_type,type,op: $i>$i>$i).
thf(e_type,type,e: $i).
thf(a1,axiom,( ! [X:$i,Y:$i,Z:$i] : ( ( op @ ( op @ X @ Y ) @ Z ) = ( op @ X @ ( op @ Y @ Z ) ) ) )).
thf(a2,axiom,( ! [X:$i] : ( ( op @ e @ X ) = X ) )).
thf(a3,axiom,( ! [X:$i] : ( ( op @ X @ e ) = X ) )).
thf(a4,axiom,( ! [X:$i] : ( ( op @ X @ X ) = e ) )).
thf(goal,conjecture,( ! [X:$i,Y:$i] : ( ( op @ X @ Y ) = ( op @ Y @ X ) ) )).
