% The things of two lists together are the union.
% Needs: elements_is, member_append, union_is
include('bench/library/all.ax').
thf(goal,conjecture,( ! [K:list,L:list] : ( ( elements @ ( append @ K @ L ) ) = ( union @ ( elements @ K ) @ ( elements @ L ) ) ) )).
