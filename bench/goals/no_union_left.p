% What is in neither of two sets is in both complements.
thf(non_type,type,non: ($i>$o)>$i>$o).
thf(union_type,type,union: ($i>$o)>($i>$o)>$i>$o).
thf(meet_type,type,meet: ($i>$o)>($i>$o)>$i>$o).
thf(non_is,definition,( non = ( ^ [S:$i>$o,X:$i] : ~ ( S @ X ) ) )).
thf(union_is,definition,( union = ( ^ [S:$i>$o,T:$i>$o,X:$i] : ( ( S @ X ) | ( T @ X ) ) ) )).
thf(meet_is,definition,( meet = ( ^ [S:$i>$o,T:$i>$o,X:$i] : ( ( S @ X ) & ( T @ X ) ) ) )).
thf(goal,conjecture,( ! [S:$i>$o,T:$i>$o] : ( ( non @ ( union @ S @ T ) ) = ( meet @ ( non @ S ) @ ( non @ T ) ) ) )).
