% A complete order has a least thing.
% Needs: complete_is, supremum_least, upper_is, empty_is
include('bench/library/all.ax').
thf(goal,conjecture,( ! [R:$i>$i>$o] : ( ( complete @ R ) => ? [X:$i] : ! [Y:$i] : ( R @ X @ Y ) ) )).
