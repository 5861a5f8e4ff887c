% The converse of a transitive relation is transitive.
% Needs: transitive_is, converse_is
include('bench/library/all.ax').
thf(goal,conjecture,( ! [R:$i>$i>$o] : ( ( transitive @ R ) => ( transitive @ ( converse @ R ) ) ) )).
