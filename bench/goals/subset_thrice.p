% The part of a part of a part is a part.
thf(sub_type,type,sub: ($i>$o)>($i>$o)>$o).
thf(a_type,type,a: $i>$o).
thf(b_type,type,b: $i>$o).
thf(c_type,type,c: $i>$o).
thf(d_type,type,d: $i>$o).
thf(sub_is,definition,( sub = ( ^ [S:$i>$o,T:$i>$o] : ! [X:$i] : ( ( S @ X ) => ( T @ X ) ) ) )).
thf(a2,axiom,( ( sub @ a @ b ) )).
thf(a3,axiom,( ( sub @ b @ c ) )).
thf(a4,axiom,( ( sub @ c @ d ) )).
thf(goal,conjecture,( ( sub @ a @ d ) )).
