% A number is less than the next one.
% Needs: less_is, le_reflexive
include('bench/library/all.ax').
thf(goal,conjecture,( ! [N:num] : ( less @ N @ ( suc @ N ) ) )).
