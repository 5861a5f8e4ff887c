% By induction each number is even or odd.
thf(zero_type,type,zero: $i).
thf(s_type,type,s: $i>$i).
thf(even_type,type,even: $i>$o).
thf(odd_type,type,odd: $i>$o).
thf(a1,axiom,( ! [P:$i>$o] : ( ( ( P @ zero ) & ! [N:$i] : ( ( P @ N ) => ( P @ ( s @ N ) ) ) ) => ! [N:$i] : ( P @ N ) ) )).
thf(a2,axiom,( ( even @ zero ) )).
thf(a3,axiom,( ! [N:$i] : ( ( even @ N ) => ( odd @ ( s @ N ) ) ) )).
thf(a4,axiom,( ! [N:$i] : ( ( odd @ N ) => ( even @ ( s @ N ) ) ) )).
thf(goal,conjecture,( ! [N:$i] : ( ( even @ N ) | ( odd @ N ) ) )).
