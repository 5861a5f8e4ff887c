% A function that is one to one and onto has an inverse.
% Needs: bijective_is, inverse_of_injective, inverse_of_onto, comp_is, id_is
include('bench/library/sets.ax').
include('bench/library/functions.ax').
thf(goal,conjecture,( ! [F:$i>$i] : ( ( bijective @ F ) => ? [G:$i>$i] : ( ( ( comp @ F @ G ) = id ) & ( ( comp @ G @ F ) = id ) ) ) )).
