% Where there are only two things, and p holds of two different ones, it holds of all.
thf(p_type,type,p: $i>$o).
thf(a_type,type,a: $i).
thf(b_type,type,b: $i).
thf(a1,axiom,( ? [X:$i,Y:$i] : ! [Z:$i] : ( ( Z = X ) | ( Z = Y ) ) )).
thf(a2,axiom,( ( p @ a ) )).
thf(a3,axiom,( ( p @ b ) )).
thf(a4,axiom,( a != b )).
thf(goal,conjecture,( ! [X:$i] : ( p @ X ) )).
