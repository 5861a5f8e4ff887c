% Of a composition that is one to one the first function is one to one.
% Needs: injective_is, comp_is
include('bench/library/sets.ax').
include('bench/library/functions.ax').
thf(goal,conjecture,( ! [F:$i>$i,G:$i>$i] : ( ( injective @ ( comp @ F @ G ) ) => ( injective @ G ) ) )).
