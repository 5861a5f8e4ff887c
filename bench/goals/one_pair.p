% If exactly one pair is related, its first part is one of a kind.
thf(r_type,type,r: $i>$i>$o).
thf(a1,axiom,( ? [A:$i,B:$i] : ! [X:$i,Y:$i] : ( ( r @ X @ Y ) <=> ( ( X = A ) & ( Y = B ) ) ) )).
thf(goal,conjecture,( ? [A:$i] : ! [X:$i] : ( ( ? [B:$i] : ! [Y:$i] : ( ( r @ X @ Y ) <=> ( Y = B ) ) ) <=> ( X = A ) ) )).
