% By induction a composition is applied to a list function by function.
% Needs: list_induct, map_nil, map_cons, comp_is
include('bench/library/all.ax').
thf(goal,conjecture,( ! [F:$i>$i,G:$i>$i,L:list] : ( ( map @ ( comp @ F @ G ) @ L ) = ( map @ F @ ( map @ G @ L ) ) ) )).
