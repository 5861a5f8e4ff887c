% What holds of two lists holds of both together.
% Needs: every_is, member_append
include('bench/library/sets.ax').
include('bench/library/functions.ax').
include('bench/library/numbers.ax').
include('bench/library/lists.ax').
thf(goal,conjecture,( ! [P:$i>$o,K:list,L:list] : ( ( every @ P @ ( append @ K @ L ) ) <=> ( ( every @ P @ K ) & ( every @ P @ L ) ) ) )).
