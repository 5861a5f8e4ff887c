% A left and a right inverse are the same.
% Needs: comp_associates, comp_id_left, comp_id_right
include('bench/library/all.ax').
thf(goal,conjecture,( ! [F:$i>$i,G:$i>$i,H:$i>$i] : ( ( ( ( comp @ F @ G ) = id ) & ( ( comp @ H @ F ) = id ) ) => ( G = H ) ) )).
