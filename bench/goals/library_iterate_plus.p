% By induction a function is applied M + N times by N times and then M times.
% Needs: num_induct, iterate_zero, iterate_suc, plus_zero, plus_suc
include('bench/library/numbers.ax').
thf(goal,conjecture,( ! [F:$i>$i,M:num,N:num,X:$i] : ( ( iterate @ F @ ( plus @ M @ N ) @ X ) = ( iterate @ F @ M @ ( iterate @ F @ N @ X
  ) ) ) )).
