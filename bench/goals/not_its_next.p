% By induction no number is its own next one.
thf(zero_type,type,zero: $i).
thf(s_type,type,s: $i>$i).
thf(a1,axiom,( ! [P:$i>$o] : ( ( ( P @ zero ) & ! [N:$i] : ( ( P @ N ) => ( P @ ( s @ N ) ) ) ) => ! [N:$i] : ( P @ N ) ) )).
thf(a2,axiom,( ! [N:$i] : ( ( s @ N ) != zero ) )).
thf(a3,axiom,( ! [M:$i,N:$i] : ( ( ( s @ M ) = ( s @ N ) ) => ( M = N ) ) )).
thf(goal,conjecture,( ! [N:$i] : ( ( s @ N ) != N ) )).
