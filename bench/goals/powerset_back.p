% A set whose parts are parts of another one is a part of it.
thf(pow_type,type,pow: ($i>$o)>($i>$o)>$o).
thf(a_type,type,a: $i>$o).
thf(b_type,type,b: $i>$o).
thf(pow_is,definition,( pow = ( ^ [S:$i>$o,T:$i>$o] : ! [X:$i] : ( ( T @ X ) => ( S @ X ) ) ) )).
thf(a2,axiom,( ! [T:$i>$o] : ( ( pow @ a @ T ) => ( pow @ b @ T ) ) )).
thf(goal,conjecture,( ! [X:$i] : ( ( a @ X ) => ( b @ X ) ) )).
