% An order with suprema of predicates: partial predicates grow, few of them come to an end.
thf(le,type,le: $i > $i > $o).
thf(bottom,type,bottom: $i).
thf(step,type,step: $i > $i).
thf(sup,type,sup: ( $i > $o ) > $i).
thf(transitive,axiom,( ! [X:$i,Y:$i,Z:$i] : ( ( ( le @ X @ Y ) & ( le @ Y @ Z ) ) => ( le @ X @ Z ) ) )).
thf(least,axiom,( ! [X:$i] : ( le @ bottom @ X ) )).
thf(upper,axiom,( ! [P:$i > $o,X:$i] : ( ( P @ X ) => ( le @ X @ ( sup @ P ) ) ) )).
thf(monotone,axiom,( ! [X:$i,Y:$i] : ( ( le @ X @ Y ) => ( le @ ( step @ X ) @ ( step @ Y ) ) ) )).
thf(goal,conjecture,( ? [X:$i] : ( ( step @ X ) = X ) )).
