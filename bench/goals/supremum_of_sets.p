% A family of sets has a least upper bound by inclusion.
thf(f_type,type,f: ($i>$o)>$o).
thf(goal,conjecture,( ? [U:$i>$o] : ( ( ! [S:$i>$o] : ( ( f @ S ) => ! [X:$i] : ( ( S @ X ) => ( U @ X ) ) ) ) & ! [V:$i>$o] : ( ( ! [S:$i>$o] : (
  ( f @ S ) => ! [X:$i] : ( ( S @ X ) => ( V @ X ) ) ) ) => ! [X:$i] : ( ( U @ X ) => ( V @ X ) ) ) ) )).
