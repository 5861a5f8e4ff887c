% There is a relation that holds wherever the product of two relations does.
thf(r_type,type,r: $i>$i>$o).
thf(s_type,type,s: $i>$i>$o).
thf(goal,conjecture,( ? [T:$i>$i>$o] : ! [X:$i,Y:$i] : ( ( ? [Z:$i] : ( ( r @ X @ Z ) & ( s @ Z @ Y ) ) ) => ( T @ X @ Y ) ) )).
