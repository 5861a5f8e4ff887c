% Where each set with a member has a least one, induction holds.
thf(below_type,type,below: $i>$i>$o).
thf(p_type,type,p: $i>$o).
thf(a1,axiom,( ! [S:$i>$o] : ( ( ? [X:$i] : ( S @ X ) ) => ? [X:$i] : ( ( S @ X ) & ! [Y:$i] : ( ( below @ Y @ X ) => ~ ( S @ Y ) ) ) ) )).
thf(a2,axiom,( ! [X:$i] : ( ( ! [Y:$i] : ( ( below @ Y @ X ) => ( p @ Y ) ) ) => ( p @ X ) ) )).
thf(goal,conjecture,( ! [X:$i] : ( p @ X ) )).
