% By induction adding to zero does nothing.
thf(zero_type,type,zero: $i).
thf(s_type,type,s: $i>$i).
thf(add_type,type,add: $i>$i>$i).
thf(a1,axiom,( ! [P:$i>$o] : ( ( ( P @ zero ) & ! [N:$i] : ( ( P @ N ) => ( P @ ( s @ N ) ) ) ) => ! [N:$i] : ( P @ N ) ) )).
thf(a2,axiom,( ! [N:$i] : ( ( add @ N @ zero ) = N ) )).
thf(a3,axiom,( ! [N:$i,M:$i] : ( ( add @ N @ ( s @ M ) ) = ( s @ ( add @ N @ M ) ) ) )).
thf(goal,conjecture,( ! [N:$i] : ( ( add @ zero @ N ) = N ) )).
