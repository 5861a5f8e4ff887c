% Two lists together have the same things in either order.
% Needs: member_append
include('bench/library/all.ax').
thf(goal,conjecture,( ! [X:$i,K:list,L:list] : ( ( member @ X @ ( append @ K @ L ) ) => ( member @ X @ ( append @ L @ K ) ) ) )).
