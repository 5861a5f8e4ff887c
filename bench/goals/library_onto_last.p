% Of a composition that reaches everything the last function reaches everything.
% Needs: onto_is, comp_is
include('bench/library/all.ax').
thf(goal,conjecture,( ! [F:$i>$i,G:$i>$i] : ( ( onto @ ( comp @ F @ G ) ) => ( onto @ F ) ) )).
