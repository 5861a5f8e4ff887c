% Predicates of predicates.
thf(c,type,c: $i).
thf(f,type,f: $i > $i > $i).
thf(holds,type,holds: ( ( $i > $o ) > $o ) > $o).
thf(all,axiom,( ! [Q:( $i > $o ) > $o] : ( ( holds @ Q ) => ( Q @ ( ^ [X:$i] : ( X = c ) ) ) ) )).
thf(some,axiom,( ? [P:$i > $o] : ( ( P @ c ) & ~ ( P @ ( f @ c @ c ) ) ) )).
thf(goal,conjecture,( ! [R:( $i > $o ) > $o,P:$i > $o] : ( ( R @ P ) => ( holds @ R ) ) )).
