% Of two changes of one value the second counts.
% Needs: update_here, update_elsewhere
include('bench/library/sets.ax').
include('bench/library/functions.ax').
thf(goal,conjecture,( ! [F:$i>$i,X:$i,Y:$i,Z:$i] : ( ( update @ ( update @ F @ X @ Y ) @ X @ Z ) = ( update @ F @ X @ Z ) ) )).
