% By induction each number is zero or a next one.
thf(zero_type,type,zero: $i).
thf(s_type,type,s: $i>$i).
thf(a1,axiom,( ! [P:$i>$o] : ( ( ( P @ zero ) & ! [N:$i] : ( ( P @ N ) => ( P @ ( s @ N ) ) ) ) => ! [N:$i] : ( P @ N ) ) )).
thf(goal,conjecture,( ! [N:$i] : ( ( N = zero ) | ? [M:$i] : ( N = ( s @ M ) ) ) )).
