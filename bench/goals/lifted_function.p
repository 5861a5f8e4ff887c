% Of functions, being related value by value is transitive where the relation is.
thf(r_type,type,r: $i>$i>$o).
thf(lift_type,type,lift: ($i>$i)>($i>$i)>$o).
thf(lift_is,definition,( lift = ( ^ [F:$i>$i,G:$i>$i] : ! [X:$i] : ( r @ ( F @ X ) @ ( G @ X ) ) ) )).
thf(a2,axiom,( ! [X:$i,Y:$i,Z:$i] : ( ( ( r @ X @ Y ) & ( r @ Y @ Z ) ) => ( r @ X @ Z ) ) )).
thf(goal,conjecture,( ! [F:$i>$i,G:$i>$i,H:$i>$i] : ( ( ( lift @ F @ G ) & ( lift @ G @ H ) ) => ( lift @ F @ H ) ) )).
