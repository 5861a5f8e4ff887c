% Products of relations are associative.
thf(comp_type,type,comp: ($i>$i>$o)>($i>$i>$o)>$i>$i>$o).
thf(r_type,type,r: $i>$i>$o).
thf(s_type,type,s: $i>$i>$o).
thf(t_type,type,t: $i>$i>$o).
thf(comp_is,definition,( comp = ( ^ [R:$i>$i>$o,S:$i>$i>$o,X:$i,Y:$i] : ? [Z:$i] : ( ( R @ X @ Z ) & ( S @ Z @ Y ) ) ) )).
thf(goal,conjecture,( ( comp @ ( comp @ r @ s ) @ t ) = ( comp @ r @ ( comp @ s @ t ) ) )).
