% Different things are told apart by a property.
thf(a_type,type,a: $i).
thf(b_type,type,b: $i).
thf(a1,axiom,( a != b )).
thf(goal,conjecture,( ? [P:$i>$o] : ( ( P @ a ) & ~ ( P @ b ) ) )).
