% A founded relation is irreflexive.
% Needs: founded_is, irreflexive_is
include('bench/library/all.ax').
thf(goal,conjecture,( ! [R:$i>$i>$o] : ( ( founded @ R ) => ( irreflexive @ R ) ) )).
