% What an idempotent function reaches are its fixed points.
% Needs: idempotent_is, comp_is, range_is, image_is, full_is
include('bench/library/sets.ax').
include('bench/library/functions.ax').
thf(goal,conjecture,( ! [F:$i>$i,Y:$i] : ( ( idempotent @ F ) => ( ( range @ F @ Y ) <=> ( ( F @ Y ) = Y ) ) ) )).
