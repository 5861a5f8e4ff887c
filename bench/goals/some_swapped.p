% A function of two arguments has one that takes them the other way around.
thf(f_type,type,f: $i>$i>$i).
thf(goal,conjecture,( ? [G:$i>$i>$i] : ! [X:$i,Y:$i] : ( ( G @ X @ Y ) = ( f @ Y @ X ) ) )).
