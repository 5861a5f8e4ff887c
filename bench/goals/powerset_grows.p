% Parts of a part are parts of the whole.
thf(pow_type,type,pow: ($i>$o)>($i>$o)>$o).
thf(a_type,type,a: $i>$o).
thf(b_type,type,b: $i>$o).
thf(pow_is,definition,( pow = ( ^ [S:$i>$o,T:$i>$o] : ! [X:$i] : ( ( T @ X ) => ( S @ X ) ) ) )).
thf(a2,axiom,( ! [X:$i] : ( ( a @ X ) => ( b @ X ) ) )).
thf(goal,conjecture,( ! [T:$i>$o] : ( ( pow @ a @ T ) => ( pow @ b @ T ) ) )).
