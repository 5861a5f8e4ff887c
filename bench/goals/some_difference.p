% There is the set of what is in one of two sets alone.
thf(a_type,type,a: $i>$o).
thf(b_type,type,b: $i>$o).
thf(goal,conjecture,( ? [S:$i>$o] : ! [X:$i] : ( ( S @ X ) <=> ( ( a @ X ) <=> ~ ( b @ X ) ) ) )).
