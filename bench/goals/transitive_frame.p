% Where what is necessary is necessarily necessary, worlds are reached by two steps at once.
thf(reach_type,type,reach: $i>$i>$o).
thf(box_type,type,box: ($i>$o)>$i>$o).
thf(box_is,definition,( box = ( ^ [P:$i>$o,W:$i] : ! [V:$i] : ( ( reach @ W @ V ) => ( P @ V ) ) ) )).
thf(a2,axiom,( ! [P:$i>$o,W:$i] : ( ( box @ P @ W ) => ( box @ ( box @ P ) @ W ) ) )).
thf(goal,conjecture,( ! [U:$i,V:$i,W:$i] : ( ( ( reach @ U @ V ) & ( reach @ V @ W ) ) => ( reach @ U @ W ) ) )).
