% A family of sets has a union.
thf(family_type,type,family: ($i>$o)>$o).
thf(goal,conjecture,( ? [U:$i>$o] : ! [X:$i] : ( ( U @ X ) <=> ? [S:$i>$o] : ( ( family @ S ) & ( S @ X ) ) ) )).
