% A part of a set has a disjoint rest.
% Needs: subset_is, union_is, disjoint_is, meet_is, minus_is, empty_is
include('bench/library/all.ax').
thf(goal,conjecture,( ! [S:$i>$o,T:$i>$o] : ( ( subset @ S @ T ) => ? [U:$i>$o] : ( ( ( union @ S @ U ) = T ) & ( disjoint @ S @ U ) ) )
  )).
