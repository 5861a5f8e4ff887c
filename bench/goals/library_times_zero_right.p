% By induction a number times zero is zero.
% Needs: num_induct, times_zero, times_suc, plus_zero
include('bench/library/all.ax').
thf(goal,conjecture,( ! [N:num] : ( ( times @ N @ zero ) = zero ) )).
