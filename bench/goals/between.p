% In a dense order there are two things between two others.
thf(lt_type,type,lt: $i>$i>$o).
thf(a_type,type,a: $i).
thf(b_type,type,b: $i).
thf(a1,axiom,( ! [X:$i,Y:$i,Z:$i] : ( ( ( lt @ X @ Y ) & ( lt @ Y @ Z ) ) => ( lt @ X @ Z ) ) )).
thf(a2,axiom,( ! [X:$i,Y:$i] : ( ( lt @ X @ Y ) => ? [Z:$i] : ( ( lt @ X @ Z ) & ( lt @ Z @ Y ) ) ) )).
thf(a3,axiom,( ( lt @ a @ b ) )).
thf(goal,conjecture,( ? [X:$i,Y:$i] : ( ( lt @ a @ X ) & ( lt @ X @ Y ) & ( lt @ Y @ b ) ) )).
