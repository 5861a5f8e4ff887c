% The list without a thing is the empty one.
% Needs: list_cases, length_cons, suc_not_zero
include('bench/library/all.ax').
thf(goal,conjecture,( ! [L:list] : ( ( ( length @ L ) = zero ) => ( L = nil ) ) )).
