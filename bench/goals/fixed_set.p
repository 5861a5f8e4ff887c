% An operation on sets that keeps inclusion has a fixed set.
thf(f_type,type,f: ($i>$o)>$i>$o).
thf(a1,axiom,( ! [S:$i>$o,T:$i>$o] : ( ( ! [X:$i] : ( ( S @ X ) => ( T @ X ) ) ) => ! [X:$i] : ( ( f @ S @ X ) => ( f @ T @ X ) ) ) )).
thf(goal,conjecture,( ? [S:$i>$o] : ( ( f @ S ) = S ) )).
