% In a group one may cancel on the left.
thf(op_type,type,op: $i>$i>$i).
thf(inv_type,type,inv: $i>$i).
thf(e_type,type,e: $i).
thf(a1,axiom,( ! [X:$i,Y:$i,Z:$i] : ( ( op @ ( op @ X @ Y ) @ Z ) = ( op @ X @ ( op @ Y @ Z ) ) ) )).
thf(a2,axiom,( ! [X:$i] : ( ( op @ e @ X ) = X ) )).
thf(a3,axiom,( ! [X:$i] : ( ( op @ ( inv @ X ) @ X ) = e ) )).
thf(goal,conjecture,( ! [X:$i,Y:$i,Z:$i] : ( ( ( op @ X @ Y ) = ( op @ X @ Z ) ) => ( Y = Z ) ) )).
