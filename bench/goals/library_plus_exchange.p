% Of two summands before a third each may be the first.
% Needs: plus_commutes, plus_associates
include('bench/library/numbers.ax').
thf(goal,conjecture,( ! [K:num,M:num,N:num] : ( ( plus @ K @ ( plus @ M @ N ) ) = ( plus @ M @ ( plus @ K @ N ) ) ) )).
