% The union of the parts of a set is the set.
thf(a_type,type,a: $i>$o).
thf(goal,conjecture,( ! [X:$i] : ( ( ? [S:$i>$o] : ( ( ! [Y:$i] : ( ( S @ Y ) => ( a @ Y ) ) ) & ( S @ X ) ) ) <=> ( a @ X ) ) )).
