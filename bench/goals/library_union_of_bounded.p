% The union of sets within one set is within it.
% Needs: all_union_is, subset_is
include('bench/library/sets.ax').
thf(goal,conjecture,( ! [F:($i>$o)>$o,T:$i>$o] : ( ( ! [S:$i>$o] : ( ( F @ S ) => ( subset @ S @ T ) ) ) => ( subset @ ( all_union @ F ) @
  T ) ) )).
