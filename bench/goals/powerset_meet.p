% The parts of both sets are the parts of their intersection.
thf(pow_type,type,pow: ($i>$o)>($i>$o)>$o).
thf(a_type,type,a: $i>$o).
thf(b_type,type,b: $i>$o).
thf(pow_is,definition,( pow = ( ^ [S:$i>$o,T:$i>$o] : ! [X:$i] : ( ( T @ X ) => ( S @ X ) ) ) )).
thf(goal,conjecture,( ( pow @ ^ [X:$i] : ( ( a @ X ) & ( b @ X ) ) ) = ( ^ [T:$i>$o] : ( ( pow @ a @ T ) & ( pow @ b @ T ) ) ) )).
