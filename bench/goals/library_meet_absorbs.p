% A set meets a union with itself in itself.
% Needs: meet_is, union_is
include('bench/library/sets.ax').
thf(goal,conjecture,( ! [S:$i>$o,T:$i>$o] : ( ( meet @ S @ ( union @ S @ T ) ) = S ) )).
