% The greater of two numbers is at least the first.
% Needs: le_total, le_reflexive, max_left, max_right
include('bench/library/all.ax').
thf(goal,conjecture,( ! [M:num,N:num] : ( le @ M @ ( max @ M @ N ) ) )).
