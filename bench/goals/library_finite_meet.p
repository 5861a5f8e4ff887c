% What a finite set has in common with another one is finite.
% Needs: finite_subset, subset_is, meet_is
include('bench/library/sets.ax').
thf(goal,conjecture,( ! [S:$i>$o,T:$i>$o] : ( ( finite @ S ) => ( finite @ ( meet @ S @ T ) ) ) )).
