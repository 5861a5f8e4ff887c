% Lists with the same reverse are the same.
% Needs: reverse_reverse
include('bench/library/all.ax').
thf(goal,conjecture,( ! [K:list,L:list] : ( ( ( reverse @ K ) = ( reverse @ L ) ) => ( K = L ) ) )).
