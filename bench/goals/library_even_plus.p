% The sum of even numbers is even.
% Needs: even_is, plus_commutes, plus_associates
include('bench/library/all.ax').
thf(goal,conjecture,( ! [M:num,N:num] : ( ( ( even @ M ) & ( even @ N ) ) => ( even @ ( plus @ M @ N ) ) ) )).
