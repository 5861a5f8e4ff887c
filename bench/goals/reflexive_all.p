% Things that each reflexive relation relates are equal.
thf(a_type,type,a: $i).
thf(b_type,type,b: $i).
thf(a1,axiom,( ! [R:$i>$i>$o] : ( ( ! [X:$i] : ( R @ X @ X ) ) => ( R @ a @ b ) ) )).
thf(goal,conjecture,( a = b )).
