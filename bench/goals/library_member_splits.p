% By induction a list is split at a thing that is in it.
% Needs: list_induct, member_nil, member_cons, append_nil, append_cons
include('bench/library/sets.ax').
include('bench/library/functions.ax').
include('bench/library/numbers.ax').
include('bench/library/lists.ax').
thf(goal,conjecture,( ! [X:$i,L:list] : ( ( member @ X @ L ) => ? [J:list,K:list] : ( L = ( append @ J @ ( cons @ X @ K ) ) ) ) )).
