% The least thing of a set is minimal in it.
% Needs: order_is, antisymmetric_is, least_is, lower_is, minimal_is
include('bench/library/all.ax').
thf(goal,conjecture,( ! [R:$i>$i>$o,S:$i>$o,X:$i] : ( ( ( order @ R ) & ( least @ R @ S @ X ) ) => ( minimal @ R @ S @ X ) ) )).
