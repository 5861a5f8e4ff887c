% A function that another one takes back is one to one.
thf(f_type,type,f: $i>$i).
thf(a1,axiom,( ? [G:$i>$i] : ! [X:$i] : ( ( G @ ( f @ X ) ) = X ) )).
thf(goal,conjecture,( ! [X:$i,Y:$i] : ( ( ( f @ X ) = ( f @ Y ) ) => ( X = Y ) ) )).
