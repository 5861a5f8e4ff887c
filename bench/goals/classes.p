% Classes of an equivalence that share a member are the same.
thf(r_type,type,r: $i>$i>$o).
thf(a_type,type,a: $i).
thf(b_type,type,b: $i).
thf(c_type,type,c: $i).
thf(a1,axiom,( ! [X:$i] : ( r @ X @ X ) )).
thf(a2,axiom,( ! [X:$i,Y:$i] : ( ( r @ X @ Y ) => ( r @ Y @ X ) ) )).
thf(a3,axiom,( ! [X:$i,Y:$i,Z:$i] : ( ( ( r @ X @ Y ) & ( r @ Y @ Z ) ) => ( r @ X @ Z ) ) )).
thf(a4,axiom,( ( r @ a @ c ) )).
thf(a5,axiom,( ( r @ b @ c ) )).
thf(goal,conjecture,( ( r @ a ) = ( r @ b ) )).
