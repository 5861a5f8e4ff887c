% A greater set has a greater supremum.
% Needs: supremum_upper, supremum_least, upper_subset
include('bench/library/all.ax').
thf(goal,conjecture,( ! [R:$i>$i>$o,S:$i>$o,T:$i>$o,X:$i,Y:$i] : ( ( ( subset @ S @ T ) & ( ( supremum @ R @ S @ X ) & ( supremum @ R @ T
  @ Y ) ) ) => ( R @ X @ Y ) ) )).
