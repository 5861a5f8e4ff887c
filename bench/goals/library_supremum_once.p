% A set has one supremum at most.
% Needs: supremum_is, least_once
include('bench/library/sets.ax').
include('bench/library/functions.ax').
include('bench/library/relations.ax').
include('bench/library/orders.ax').
thf(goal,conjecture,( ! [R:$i>$i>$o,S:$i>$o,X:$i,Y:$i] : ( ( ( order @ R ) & ( ( supremum @ R @ S @ X ) & ( supremum @ R @ S @ Y ) ) ) =>
  ( X = Y ) ) )).
