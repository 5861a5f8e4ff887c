% Sharing all properties is being equal.
thf(goal,conjecture,( ( ^ [X:$i,Y:$i] : ! [P:$i>$o] : ( ( P @ X ) => ( P @ Y ) ) ) = ( ^ [X:$i,Y:$i] : ( X = Y ) ) )).
