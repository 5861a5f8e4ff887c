% The complement of an intersection is the union of the complements.
% Needs: non_is, meet_is, union_is
include('bench/library/sets.ax').
thf(goal,conjecture,( ! [S:$i>$o,T:$i>$o] : ( ( non @ ( meet @ S @ T ) ) = ( union @ ( non @ S ) @ ( non @ T ) ) ) )).
