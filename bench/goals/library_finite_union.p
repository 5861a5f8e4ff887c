% By induction the union of two finite sets is finite.
% Needs: finite_induct, finite_insert, insert_is, union_empty, union_associates
include('bench/library/all.ax').
thf(goal,conjecture,( ! [S:$i>$o,T:$i>$o] : ( ( ( finite @ S ) & ( finite @ T ) ) => ( finite @ ( union @ S @ T ) ) ) )).
