% Some thing fails p or has q, as soon as one thing failing p brings one having q.
thf(p_type,type,p: $i>$o).
thf(q_type,type,q: $i>$o).
thf(goal,conjecture,( ? [X:$i] : ! [Y:$i,Z:$i] : ( ( ( p @ Y ) => ( q @ Z ) ) => ( ( p @ X ) => ( q @ X ) ) ) )).
