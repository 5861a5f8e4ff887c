% One law of many on sets suffices: what is in an intersection is in the first set.
thf(union_type,type,union: ($i>$o)>($i>$o)>$i>$o).
thf(meet_type,type,meet: ($i>$o)>($i>$o)>$i>$o).
thf(non_type,type,non: ($i>$o)>$i>$o).
thf(a_type,type,a: $i>$o).
thf(b_type,type,b: $i>$o).
thf(c_type,type,c: $i).
thf(a1,axiom,( ! [S:$i>$o,T:$i>$o] : ( ( union @ S @ T ) = ( union @ T @ S ) ) )).
thf(a2,axiom,( ! [S:$i>$o] : ( ( union @ S @ S ) = S ) )).
thf(a3,axiom,( ! [S:$i>$o,T:$i>$o] : ( ( meet @ S @ T ) = ( meet @ T @ S ) ) )).
thf(a4,axiom,( ! [S:$i>$o] : ( ( meet @ S @ S ) = S ) )).
thf(a5,axiom,( ! [S:$i>$o,T:$i>$o,X:$i] : ( ( meet @ S @ T @ X ) <=> ( ( S @ X ) & ( T @ X ) ) ) )).
thf(a6,axiom,( ! [S:$i>$o,T:$i>$o,X:$i] : ( ( union @ S @ T @ X ) <=> ( ( S @ X ) | ( T @ X ) ) ) )).
thf(a7,axiom,( ! [S:$i>$o,X:$i] : ( ( non @ S @ X ) <=> ~ ( S @ X ) ) )).
thf(a8,axiom,( ! [S:$i>$o] : ( ( non @ ( non @ S ) ) = S ) )).
thf(a9,axiom,( ( meet @ a @ b @ c ) )).
thf(goal,conjecture,( ( a @ c ) )).
