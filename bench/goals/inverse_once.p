% In a monoid a left inverse and a right inverse of a thing are the same.
thf(op_type,type,op: $i>$i>$i).
thf(e_type,type,e: $i).
thf(a_type,type,a: $i).
thf(b_type,type,b: $i).
thf(c_type,type,c: $i).
thf(a1,axiom,( ! [X:$i,Y:$i,Z:$i] : ( ( op @ ( op @ X @ Y ) @ Z ) = ( op @ X @ ( op @ Y @ Z ) ) ) )).
thf(a2,axiom,( ! [X:$i] : ( ( op @ e @ X ) = X ) )).
thf(a3,axiom,( ! [X:$i] : ( ( op @ X @ e ) = X ) )).
thf(a4,axiom,( ( op @ b @ a ) = e )).
thf(a5,axiom,( ( op @ a @ c ) = e )).
thf(goal,conjecture,( b = c )).
