% Sets of individuals as predicates, comprehension: many terms are made and instantiated.
thf(a,type,a: $i).
thf(b,type,b: $i).
thf(member,type,member: $i > ( $i > $o ) > $o).
thf(small,type,small: ( $i > $o ) > $o).
thf(comprehension,axiom,( ! [X:$i,P:$i > $o] : ( ( member @ X @ P ) <=> ( P @ X ) ) )).
thf(smaller,axiom,( ! [P:$i > $o,Q:$i > $o] : ( ( ( small @ Q ) & ! [X:$i] : ( ( P @ X ) => ( Q @ X ) ) ) => ( small @ P ) ) )).
thf(pairs,axiom,( small @ ( ^ [X:$i] : ( ( X = a ) | ( X = b ) ) ) )).
thf(goal,conjecture,( ? [P:$i > $o] : ( ( small @ P ) & ! [X:$i] : ( member @ X @ P ) ) )).
