% A greater relation has a greater transitive closure.
% Needs: within_is, closure_least, closure_step, closure_transitive
include('bench/library/relations.ax').
thf(goal,conjecture,( ! [R:$i>$i>$o,Q:$i>$i>$o] : ( ( within @ R @ Q ) => ( within @ ( closure @ R ) @ ( closure @ Q ) ) ) )).
