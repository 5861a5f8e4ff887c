% To have the same value is an equivalence.
% Needs: equivalence_is, reflexive_is, symmetric_is, transitive_is
include('bench/library/relations.ax').
thf(goal,conjecture,( ! [F:$i>$i] : ( equivalence @ ( ^ [X:$i,Y:$i] : ( ( F @ X ) = ( F @ Y ) ) ) ) )).
