% Where each member has an open set around it within the set, and unions of open sets are open, the set is open.
thf(open_type,type,open: ($i>$o)>$o).
thf(b_type,type,b: $i>$o).
thf(a1,axiom,( ! [K:($i>$o)>$o] : ( ( ! [S:$i>$o] : ( ( K @ S ) => ( open @ S ) ) ) => ( open @ ^ [X:$i] : ? [S:$i>$o] : ( ( K @ S ) & ( S @ X ) )
  ) ) )).
thf(a2,axiom,( ! [X:$i] : ( ( b @ X ) => ? [G:$i>$o] : ( ( open @ G ) & ( G @ X ) & ! [Y:$i] : ( ( G @ Y ) => ( b @ Y ) ) ) ) )).
thf(goal,conjecture,( ( open @ b ) )).
