% What is disjoint from a set is disjoint from its parts.
% Needs: disjoint_is, meet_is, empty_is, subset_is
include('bench/library/all.ax').
thf(goal,conjecture,( ! [S:$i>$o,T:$i>$o,U:$i>$o] : ( ( ( disjoint @ S @ T ) & ( subset @ U @ S ) ) => ( disjoint @ U @ T ) ) )).
