% To insert a thing twice is to insert it once.
% Needs: insert_is, union_is
include('bench/library/all.ax').
thf(goal,conjecture,( ! [X:$i,S:$i>$o] : ( ( insert @ X @ ( insert @ X @ S ) ) = ( insert @ X @ S ) ) )).
