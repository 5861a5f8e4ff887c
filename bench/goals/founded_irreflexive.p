% Where each set with a member has a least one, nothing is below itself.
thf(below_type,type,below: $i>$i>$o).
thf(a1,axiom,( ! [S:$i>$o] : ( ( ? [X:$i] : ( S @ X ) ) => ? [X:$i] : ( ( S @ X ) & ! [Y:$i] : ( ( S @ Y ) => ~ ( below @ Y @ X ) ) ) ) )).
thf(goal,conjecture,( ! [X:$i] : ~ ( below @ X @ X ) )).
